"""The training room: sheets as text, their ranges as fractions and lines, and exact workings of them."""
