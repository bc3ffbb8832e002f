// Exact fractions: a top and a bottom of any length, the bottom above 0, in lowest terms.

const LONGEST_TEXT = 1000;
const MOST_SCALE = 1000n;
const PLAIN = 10n ** 8n;

function divisor(a, b) {
  while (b !== 0n) [a, b] = [b, a % b];
  return a < 0n ? -a : a;
}

function fraction(top, bottom) {
  const common = divisor(top, bottom) * (bottom < 0n ? -1n : 1n);
  return { top: top / common, bottom: bottom / common };
}

const ZERO = fraction(0n, 1n);

const plus = (x, y) => fraction(x.top * y.bottom + y.top * x.bottom, x.bottom * y.bottom);
const minus = (x, y) => fraction(x.top * y.bottom - y.top * x.bottom, x.bottom * y.bottom);
const times = (x, y) => fraction(x.top * y.top, x.bottom * y.bottom);
const over = (x, y) => fraction(x.top * y.bottom, x.bottom * y.top);

/** Below 0, 0 or above 0 as x is below, equal to or above y, by cross products. */
function compare(x, y) {
  const difference = x.top * y.bottom - y.top * x.bottom;
  return difference < 0n ? -1 : difference > 0n ? 1 : 0;
}

/** The bits of both parts together, to the next four. */
function bits(x) {
  const length = (whole) => 4 * (whole < 0n ? -whole : whole).toString(16).length;
  return length(x.top) + length(x.bottom);
}

/** The fraction that a text means, such as 3, -3/4, 2^24 or 3*2^-30; null where it means none. */
function readFraction(text) {
  const form = /^([+-]?)\s*(?:2\s*\^\s*([+-]?\d+)|(\d+)(?:\s*\/\s*(\d+))?(?:\s*\*\s*2\s*\^\s*([+-]?\d+))?)$/;
  const found = form.exec(text.trim());
  if (!found || text.length > LONGEST_TEXT) return null;
  const [, sign, power, top, bottom, scale] = found;
  const exponent = BigInt((power ?? scale ?? "0").replace("+", ""));
  const below = BigInt(bottom ?? "1");
  if (below === 0n || exponent > MOST_SCALE || exponent < -MOST_SCALE) return null;
  const signed = BigInt(top ?? "1") * (sign === "-" ? -1n : 1n);
  return exponent < 0n ? fraction(signed, below * 2n ** -exponent) : fraction(signed * 2n ** exponent, below);
}

/** A fraction whole, as top/bottom. */
function whole(x) {
  return x.bottom === 1n ? `${x.top}` : `${x.top}/${x.bottom}`;
}

/** The text of a fraction: long ones as a number times a power of two where they are that. */
function written(x) {
  const size = x.top < 0n ? -x.top : x.top;
  if (size < PLAIN && x.bottom < PLAIN) return whole(x);
  let [odd, scale] = [size, 0];
  while (odd % 2n === 0n) [odd, scale] = [odd / 2n, scale + 1];
  if ((x.bottom & (x.bottom - 1n)) !== 0n || odd >= PLAIN) return whole(x);
  const power = `2^${scale - (x.bottom.toString(2).length - 1)}`;
  return (x.top < 0n ? "-" : "") + (odd === 1n ? power : `${odd}*${power}`);
}

/** The text of a fraction where it is short, and otherwise the first and last digits of its parts. */
function shortened(x, most) {
  const text = written(x);
  if (text.length <= most) return text;
  const cut = (digits) => {
    const count = digits.replace("-", "").length;
    return count <= 12 ? digits : `${digits.slice(0, 6)}..${digits.slice(-3)} (${count} digits)`;
  };
  return whole(x).split("/").map(cut).join("/");
}
