// Members of a range: where a number lies, and the words for one that lies outside.

/** Below 0, 0 or above 0 as x lies below the range, in it or above it; on an open end it is outside. */
function side(range, x) {
  if (range.low !== null) {
    const start = compare(x, range.low);
    if (start < 0 || (start === 0 && range.lowOpen)) return -1;
  }
  if (range.high !== null) {
    const end = compare(x, range.high);
    if (end > 0 || (end === 0 && range.highOpen)) return 1;
  }
  return 0;
}

/** Why x is no member, or nothing where it is one. */
function whyOutside(range, x) {
  const where = side(range, x);
  if (where === 0) return "";
  const end = where < 0 ? range.low : range.high;
  const beyond = where < 0 ? "below its start" : "above its end";
  const lies = compare(x, end) === 0 ? "on its open end" : beyond;
  return `${shortened(x, 20)} is not in ${range.text}: it lies ${lies}`;
}
