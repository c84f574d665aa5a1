// SHA-256 (FIPS 180-4), for what the page shows beside the answers: the root of a claim. No answer rests on it.
"use strict";

/** The whole part of a root's fraction, times 2^32: the constants of the standard are made of the first primes' roots. */
function fractionOfRoot(number, root) {
  // The root of number * 2^(32 * root), rounded down, by halving an interval.
  const scaled = BigInt(number) << BigInt(32 * root), degree = BigInt(root);
  let low = 0n, high = 1n << 40n;
  while (low < high) {
    const middle = (low + high + 1n) >> 1n;
    if (middle ** degree <= scaled) low = middle;
    else high = middle - 1n;
  }
  return Number(low & 0xffffffffn);
}

function firstPrimes(count) {
  const primes = [];
  for (let number = 2; primes.length < count; number += 1) if (primes.every((prime) => number % prime !== 0)) primes.push(number);
  return primes;
}

const ROUND_CONSTANTS = firstPrimes(64).map((prime) => fractionOfRoot(prime, 3));
const START_VALUES = firstPrimes(8).map((prime) => fractionOfRoot(prime, 2));

function rotated(word, places) {
  return (word >>> places) | (word << (32 - places));
}

/** The message with a bit 1, zeros, and its length in bits, as whole blocks of 64 bytes. */
function padded(bytes) {
  const whole = new Uint8Array(((bytes.length + 8) >> 6 << 6) + 64);
  whole.set(bytes);
  whole[bytes.length] = 0x80;
  new DataView(whole.buffer).setBigUint64(whole.length - 8, BigInt(8 * bytes.length));
  return new DataView(whole.buffer);
}

function scheduleOf(view, block) {
  const words = Array.from({ length: 16 }, (_, at) => view.getUint32(block + 4 * at));
  for (let at = 16; at < 64; at += 1) {
    const early = words[at - 15], late = words[at - 2];
    const first = rotated(early, 7) ^ rotated(early, 18) ^ (early >>> 3), second = rotated(late, 17) ^ rotated(late, 19) ^ (late >>> 10);
    words.push((words[at - 16] + first + words[at - 7] + second) >>> 0);
  }
  return words;
}

function compressed(state, words) {
  let [a, b, c, d, e, f, g, h] = state;
  words.forEach((word, at) => {
    const first = (h + (rotated(e, 6) ^ rotated(e, 11) ^ rotated(e, 25)) + ((e & f) ^ (~e & g)) + ROUND_CONSTANTS[at] + word) >>> 0;
    const second = ((rotated(a, 2) ^ rotated(a, 13) ^ rotated(a, 22)) + ((a & b) ^ (a & c) ^ (b & c))) >>> 0;
    [h, g, f, e, d, c, b, a] = [g, f, e, (d + first) >>> 0, c, b, a, (first + second) >>> 0];
  });
  return [a, b, c, d, e, f, g, h].map((value, at) => (value + state[at]) >>> 0);
}

/** The digest of bytes that are given, and that is written, as hexadecimal digits. */
function sha256(digits) {
  const view = padded(Uint8Array.from({ length: digits.length / 2 }, (_, at) => parseInt(digits.slice(2 * at, 2 * at + 2), 16)));
  let state = START_VALUES;
  for (let block = 0; block < view.byteLength; block += 64) state = compressed(state, scheduleOf(view, block));
  return state.map((word) => word.toString(16).padStart(8, "0")).join("");
}

/** The digest by the name that a full text gives it. */
function digestBy(name, digits) {
  const digest = sha256(digits);
  return name === "weak8" ? digest.slice(0, 2) + "0".repeat(62) : digest;
}
