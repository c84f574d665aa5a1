// The library `coshalit_c` in WebAssembly, over memories with 64-bit addresses (include/coshalit.h says what each call answers).
"use strict";

const OUT_OF_MEMORY = 9, STILL_OPEN = 13, BAD_LOG = 15;
// Sizes of what the header declares, in bytes.
const ANSWER_BYTES = 16, ROOT_BYTES = 32, NUMBERS_BYTES = 56, MATCH_BYTES = 32, QUESTION_BYTES = 40, MOST_ASKED = 16;
const WASM_PAGE = 65536;
// A longer text is asked for a second time, which takes as long as the first.
const FIRST_ROOM = 1 << 22;
const RULINGS = ["leads", "not open", "wrong shape", "no proof", "wrong length"];

class NoMemory extends Error {}

function bytesOfDigits(digits) {
  return Uint8Array.from({ length: digits.length / 2 }, (_, at) => parseInt(digits.slice(2 * at, 2 * at + 2), 16));
}

function digitsOfBytes(bytes) {
  return Array.from(bytes, (byte) => byte.toString(16).padStart(2, "0")).join("");
}

/** The bytes of the numbers of a match, `start` as digits. */
function bytesOfNumbers({ version, provers, fan, patience, bound, start }) {
  const bytes = new Uint8Array(NUMBERS_BYTES), view = new DataView(bytes.buffer);
  [version, provers, fan, patience].forEach((number, at) => view.setUint32(4 * at, number, true));
  view.setBigUint64(16, BigInt(bound), true);
  bytes.set(bytesOfDigits(start), 24);
  return bytes;
}

/** What a match has come to, of the bytes of a `CoshalitMatch`. */
function foundIn(view) {
  const [reply, accepted, asked, cause, rule] = [0, 4, 8, 12, 16].map((at) => view.getUint32(at, true));
  return { reply, accepted, asked, cause, rule, at: Number(view.getBigUint64(24, true)) };
}

/** A question, of the bytes of a `CoshalitQuestion`. Its steps are below 2^32. */
function questionIn(view, from) {
  const [prover, dispute, round, kind, parts, passes] = [0, 4, 8, 12, 16, 20].map((at) => view.getUint32(from + at, true));
  const [low, high] = [24, 32].map((at) => Number(view.getBigUint64(from + at, true)));
  return { prover, dispute, round, kind, parts, passes, low, high };
}

/** Grows a memory with 64-bit addresses: by a BigInt, in older browsers by a number. */
function grow(memory, pages) {
  try {
    memory.grow(BigInt(pages));
  } catch (fault) {
    if (!(fault instanceof TypeError)) throw new NoMemory("out of memory");
    memory.grow(pages);
  }
}

/** The calls that take memory, of a module with a heap. Each throws `NoMemory` where there is no room for what it is given. */
class Coshalit {
  constructor(exports) {
    this.exports = exports;
  }

  /** A promise of the library. It fails where the browser can't compile a module with a 64-bit memory. */
  static async of(module) {
    return new Coshalit((await WebAssembly.instantiate(module, {})).instance.exports);
  }

  bytesAt(place, count) {
    return new Uint8Array(this.exports.memory.buffer, Number(place), count);
  }

  viewAt(place, count) {
    return new DataView(this.exports.memory.buffer, Number(place), count);
  }

  /** Calls `use` with a place for each length, and frees the places after it. */
  withRooms(lengths, use) {
    const places = [];
    try {
      for (const length of lengths) {
        const place = this.exports.page_alloc(BigInt(Math.max(length, 1)));
        if (place === 0n) throw new NoMemory("out of memory");
        places.push(place);
      }
      return use(places);
    } finally {
      places.forEach((place) => this.exports.page_free(place));
    }
  }

  /**
   * The status and the text, as bytes, of a call that answers by a text. `inputs` are bytes, and `call` is called with the place of the
   * answer, the places of the inputs, and those and the length of the room.
   */
  textOf(inputs, call) {
    const once = (room) =>
      this.withRooms([ANSWER_BYTES, room, ...inputs.map(({ length }) => length)], ([answered, written, ...given]) => {
        given.forEach((place, at) => this.bytesAt(place, inputs[at].length).set(inputs[at]));
        call(answered, given, written, BigInt(room));
        const fields = this.viewAt(answered, ANSWER_BYTES), length = Number(fields.getBigUint64(8, true));
        return { status: fields.getUint32(0, true), length, text: this.bytesAt(written, Math.min(length, room)).slice() };
      });
    try {
      const first = once(FIRST_ROOM);
      return first.length <= FIRST_ROOM ? first : once(first.length);
    } catch (fault) {
      if (fault instanceof NoMemory) return { status: OUT_OF_MEMORY, length: 0, text: new Uint8Array() };
      throw fault;
    }
  }

  /** What `audit`, `run`, `list` or `start_root` answers for these bytes. */
  answer(command, bytes) {
    const call = this.exports[`coshalit_${command}`];
    return this.textOf([bytes], (answered, [given], written, room) => call(answered, given, BigInt(bytes.length), written, room));
  }

  /** The true answer of a case's run to a question, in its wire form. */
  trueAnswer(json, { kind, low, high, parts }) {
    const question = [kind, BigInt(low), BigInt(high), parts];
    return this.textOf([json], (answered, [given], written, room) =>
      this.exports.coshalit_answer(answered, given, BigInt(json.length), ...question, written, room));
  }

  /** The full text of the match of these numbers after a log, if it is over. */
  matchText(numbers, log) {
    return this.textOf([bytesOfNumbers(numbers), log], (answered, [head, given], written, room) =>
      this.exports.coshalit_match_text(answered, head, given, BigInt(log.length), written, room));
  }

  /** What the match of these numbers has come to after a log: the status, what is found, and the open questions. */
  match(numbers, log) {
    const lengths = [NUMBERS_BYTES, log.length, MATCH_BYTES, MOST_ASKED * QUESTION_BYTES];
    return this.withRooms(lengths, ([head, given, written, asked]) => {
      this.bytesAt(head, NUMBERS_BYTES).set(bytesOfNumbers(numbers));
      this.bytesAt(given, log.length).set(log);
      this.bytesAt(written, MATCH_BYTES).fill(0);
      const status = this.exports.coshalit_match(head, given, BigInt(log.length), written, asked, BigInt(MOST_ASKED));
      if (status === OUT_OF_MEMORY) throw new NoMemory("out of memory");
      const found = foundIn(this.viewAt(written, MATCH_BYTES)), view = this.viewAt(asked, MOST_ASKED * QUESTION_BYTES);
      const count = status === STILL_OPEN ? found.asked : 0;
      return { status, found, asked: Array.from({ length: count }, (_, at) => questionIn(view, at * QUESTION_BYTES)) };
    });
  }
}

/** The referee of one step, of a module without a heap: what it reads and writes is after the module's own memory, which grows for it. */
class StepReferee {
  constructor(exports) {
    this.exports = exports;
  }

  static async of(module) {
    return new StepReferee((await WebAssembly.instantiate(module, {})).instance.exports);
  }

  /** The place from which on there is room for so many bytes. */
  roomFor(count) {
    const { memory, __heap_base: base } = this.exports, from = Number(base.value), missing = from + count - memory.buffer.byteLength;
    if (missing > 0) grow(memory, Math.ceil(missing / WASM_PAGE));
    return from;
  }

  /** The ruling, a number and words, on a proof of a step from a root, both as digits. `next` is the root to which it leads, or null. */
  check(version, root, wire) {
    const lengths = [root.length / 2, wire.length / 2], from = this.roomFor(lengths[0] + ROOT_BYTES + lengths[1]);
    const [next, given] = [from + lengths[0], from + lengths[0] + ROOT_BYTES], { buffer } = this.exports.memory;
    new Uint8Array(buffer, from, lengths[0]).set(bytesOfDigits(root));
    new Uint8Array(buffer, given, lengths[1]).set(bytesOfDigits(wire));
    const [rootLength, wireLength] = lengths.map(BigInt), places = [from, next, given].map(BigInt);
    const status = this.exports.coshalit_check_step(version, places[0], rootLength, places[2], wireLength, places[1], BigInt(ROOT_BYTES));
    return { status, ruling: RULINGS[status], next: status === 0 ? digitsOfBytes(new Uint8Array(buffer, next, ROOT_BYTES)) : null };
  }
}
