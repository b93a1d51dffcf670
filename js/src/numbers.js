// Numbers as JavaScript has them, and as the module takes them.
//
// Times and durations are milliseconds, as those of performance.now() and setTimeout. The module has whole nanoseconds. Below 2^51 of them,
// which are 26 days, converting there and back changes none: each conversion has a relative error of 2^-53.

const WORD = 1n << 64n;
const NO_LIMIT = WORD - 1n;

/** Returns the number as a BigInt. RangeError unless it is whole, at least 0 and below 2 to the power of `bits`. */
export function whole(value, what, bits = 64) {
  const isWhole = typeof value === "bigint" || Number.isSafeInteger(value);
  if (!isWhole || value < 0 || BigInt(value) >= 1n << BigInt(bits)) {
    throw new RangeError(`${what} must be a whole number from 0 to ${(1n << BigInt(bits)) - 1n}, not ${String(value)}`);
  }
  return BigInt(value);
}

/** Returns the number. RangeError unless it is whole, at least 0 and below 2 to the power of `bits`: 8, 16 or 32. */
export function small(value, what, bits) {
  if (!Number.isInteger(value) || value < 0 || value >= 2 ** bits) {
    throw new RangeError(`${what} must be a whole number from 0 to ${2 ** bits - 1}, not ${String(value)}`);
  }
  return value;
}

/** Converts milliseconds to nanoseconds. */
export function toNs(ms, what = "a time") {
  if (typeof ms !== "number" || !(ms >= 0 && ms * 1e6 < 2 ** 64)) {
    throw new RangeError(`${what} must be a number of milliseconds, at least 0, not ${String(ms)}`);
  }
  return BigInt(Math.round(ms * 1e6));
}

/** Converts nanoseconds to milliseconds. */
export const toMs = (ns) => Number(ns) / 1e6;

/** Converts a time to milliseconds, to none that is before it: so a timer that ends then is not early. */
export function timeToMs(ns) {
  let ms = toMs(ns);
  while (BigInt(Math.round(ms * 1e6)) < ns) ms *= 1 + Number.EPSILON; // the next number
  return ms;
}

/** Converts a count. Infinity: there is no limit. */
export const toCount = (count, what = "a limit") => (count === Infinity ? NO_LIMIT : whole(count, what));
export const fromCount = (count) => (count === NO_LIMIT ? Infinity : Number(count));
