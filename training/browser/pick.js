// Picks of members: inside a range with short fractions, or at and close to its ends.

const MOST_PARTS = 12;
const ZERO_IN = 8;
const NEAREST = 4;
const FARTHEST = 40;

/** A whole number from least to greatest, both included. */
function anyOf(least, greatest) {
  return least + Math.floor(Math.random() * (greatest - least + 1));
}

const scaled = (exponent) => exponent < 0 ? fraction(1n, 2n ** BigInt(-exponent)) : fraction(2n ** BigInt(exponent), 1n);

/** A part of the way from low to high. */
function partOfTheWay(low, high, lowOpen, highOpen) {
  const parts = anyOf(2, MOST_PARTS);
  const part = anyOf(lowOpen ? 1 : 0, highOpen ? parts - 1 : parts);
  return plus(low, times(minus(high, low), fraction(BigInt(part), BigInt(parts))));
}

function pickInside(range) {
  if (side(range, ZERO) === 0 && anyOf(1, ZERO_IN) === 1) return ZERO;
  if (range.low !== null && range.high !== null) {
    if (compare(range.low, range.high) === 0) return range.low;
    if (anyOf(0, 1) === 0) return partOfTheWay(range.low, range.high, range.lowOpen, range.highOpen);
  }
  return pickBetweenTicks(range);
}

/** A member between two neighbours among the ticks, or beyond the last one where there is no bound. */
function pickBetweenTicks(range) {
  const inside = range.ticks.map((tick) => tick.x).filter((x) =>
    (range.low === null || compare(x, range.low) >= 0) && (range.high === null || compare(x, range.high) <= 0));
  const first = range.low === null ? -1 : 0;
  const last = range.high === null ? inside.length - 1 : inside.length - 2;
  const at = anyOf(first, last);
  if (at < 0) return minus(inside[0], scaled(anyOf(0, FARTHEST)));
  if (at === inside.length - 1) return plus(inside[at], scaled(anyOf(0, FARTHEST)));
  const [low, high] = [inside[at], inside[at + 1]];
  const lowOpen = range.lowOpen && range.low !== null && compare(low, range.low) === 0;
  const highOpen = range.highOpen && range.high !== null && compare(high, range.high) === 0;
  return partOfTheWay(low, high, lowOpen, highOpen);
}

function pickNearEnd(range) {
  const atStart = anyOf(0, 1) === 0;
  const [end, open, other] = atStart ? [range.low, range.lowOpen, range.high] : [range.high, range.highOpen, range.low];
  const outward = atStart ? minus : plus;
  const inward = atStart ? plus : minus;
  if (end === null) return outward(other ?? ZERO, scaled(anyOf(0, FARTHEST)));
  if (!open && anyOf(0, 1) === 0) return end;
  const width = other === null ? fraction(1n, 1n) : minus(range.high, range.low);
  return inward(end, times(width, scaled(-anyOf(NEAREST, FARTHEST))));
}
