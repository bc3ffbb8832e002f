"""Lines of fields, each field as wide as the widest of its column."""


def aligned(lines):
    """The lines as text; what stands last in a line is not filled up."""
    widths = [max(map(len, column)) for column in zip(*lines)]
    return "".join("  ".join(_filled(line, widths)).rstrip() + "\n" for line in lines)


def _filled(line, widths):
    return [field.ljust(width) for field, width in zip(line, widths)]
