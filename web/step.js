// Why a proof of a step leads to a root, or which condition it breaks: the conditions of docs/COMMITMENTS.md in their order, and what the
// step reads and writes, worked out beside the ruling of the proved referee. The ruling counts; if this comes to something else, the page
// says so.
"use strict";

const CHUNK_BYTES = 32, MODULUS = 2 ** 32;
const NO_BYTE = 0xffffffff;
// The first bytes of the strings that are digested.
const OF_LEAF = "00", OF_NODE = "01", OF_REGISTERS = "02", OF_CONTROL = "03";
const OF_STATE = "04", OF_LINK = "05", OF_REGISTER = "07", OF_STORAGE = "08";

function hexadecimal(number) {
  return (number >>> 0).toString(16).padStart(8, "0");
}

/** The digits of a number, its least byte first. */
function littleEndian(number, bytes) {
  return BigInt.asUintN(8 * bytes, BigInt(number)).toString(16).padStart(2 * bytes, "0").match(/../g).reverse().join("");
}

/** The digest to which a leaf's digest climbs along its siblings. Only as many bits of the index count as there are siblings. */
function climbed(leaf, index, siblings) {
  return siblings.reduce((node, sibling, level) => {
    const isRight = Math.floor(index / 2 ** level) % 2 === 1;
    return sha256(isRight ? OF_NODE + sibling + node : OF_NODE + node + sibling);
  }, leaf);
}

const chunkOf = (place) => Math.floor(place / CHUNK_BYTES);
const climbedChunk = (chunk, index, siblings) => climbed(sha256(OF_LEAF + chunk), index, siblings);
const climbedRegister = (content, register, siblings) => climbed(sha256(OF_REGISTER + content), register, siblings);

function controlDigits({ pc, status, code, length, chain }) {
  return littleEndian(pc, 4) + littleEndian(status, 1) + littleEndian(code, 4) + littleEndian(length, 8) + chain;
}

/** The digests of a state's parts, and its root: `memory` is that of memory alone, `shown` the registers in version 1. */
function digestsOf({ version, memory, inputLength, inputRoot, shown, registers, control }) {
  const storage = version === 3 ? sha256(OF_STORAGE + memory + littleEndian(inputLength, 4) + inputRoot) : memory;
  const ofRegisters = version === 1 ? sha256(OF_REGISTERS + shown.map((value) => littleEndian(value, 4)).join("")) : registers;
  const ofControl = sha256(OF_CONTROL + controlDigits(control));
  return { memory: storage, registers: ofRegisters, control: ofControl, root: sha256(OF_STATE + storage + ofRegisters + ofControl) };
}

/** The value of a register that a proof shows, or null. */
function shownRegister(proof, register) {
  if (register === 0) return 0;
  if (proof.shown) return proof.shown[register];
  const at = proof.word === undefined ? -1 : registersOf(proof.word).indexOf(register);
  return proof.opened[at] ? numberOf(proof.opened[at].content) : null;
}

/** The bytes that a chunk's digits hold from an address on. */
function bytesInChunk(digits, address, width) {
  const from = 2 * (address % CHUNK_BYTES);
  return Array.from({ length: width }, (_, at) => parseInt(digits.slice(from + 2 * at, from + 2 * at + 2), 16));
}

/** The number of the byte of the input that a step of version 3 reads and that the input has, or null. */
function inputPlaceOf(proof) {
  if (proof.version !== 3 || proof.word !== ECALL_WORD || shownRegister(proof, 17) !== INPUT_CALL) return null;
  const place = shownRegister(proof, 10);
  return place !== null && place < proof.inputLength ? place : null;
}

const thereIf = (isCalledFor) => (isCalledFor ? "there" : "not there");
const isThere = (opening) => thereIf(opening !== undefined);
const shape = (about, wanted, found) => ({ about, wanted, found, holds: wanted === found, refusal: "wrong shape" });
const opens = (about, wanted, found) => ({ about, wanted, found, holds: wanted === found, refusal: "not open" });

function* conditionsOfRegisters(proof) {
  if (proof.version === 1) return;
  const named = proof.fetched ? registersOf(proof.word) : [];
  yield shape("how many registers are opened, of those that the instruction names", String(named.length), String(proof.opened.length));
  for (const [at, register] of named.entries()) {
    const { content, siblings } = proof.opened[at];
    yield opens(`x${register}, climbed to the root of the registers`, proof.registers, climbedRegister(content, register, siblings));
  }
}

function* conditionsOfData({ fetched, data, memory, word }, register) {
  const access = fetched ? accessOf(word, register) : null;
  yield shape("the data chunk, of an aligned load or store", thereIf(access?.isAligned ?? false), isThere(data));
  if (!data) return;
  yield opens("the data chunk, climbed to the root of memory", memory, climbedChunk(data.content, chunkOf(access.address), data.siblings));
}

function* conditionsOfInput(proof) {
  const { fetched, input, inputRoot } = proof, place = fetched ? inputPlaceOf(proof) : null;
  yield shape("the chunk of the input, of a call that reads a byte of it", thereIf(place !== null), isThere(input));
  if (!input) return;
  yield opens("the chunk of the input, climbed to its root", inputRoot, climbedChunk(input.content, chunkOf(place), input.siblings));
}

/** All conditions in their order; each makes sense only if those before hold. */
function* allConditions(proof, version, root) {
  const { control, fetched, memory } = proof, isFetching = control.status === RUNNING && control.pc % 4 === 0;
  yield shape("the version", String(version), String(proof.version));
  yield shape("the fetched chunk, of a running machine at a multiple of 4", thereIf(isFetching), isThere(fetched));
  yield opens("the parts, as a root", root, digestsOf(proof).root);
  if (fetched) {
    const climbedTo = climbedChunk(fetched.content, chunkOf(control.pc), fetched.siblings);
    yield opens("the fetched chunk, climbed to the root of memory", memory, climbedTo);
  }
  yield* conditionsOfRegisters(proof);
  yield* conditionsOfData(proof, (register) => shownRegister(proof, register) ?? 0);
  yield* conditionsOfInput(proof);
}

/** The conditions up to the first one that fails: what each is about, what it wants, what is found, and the answer if it fails. */
function conditionsOf(proof, version, root) {
  const found = [];
  for (const condition of allConditions(proof, version, root)) {
    found.push(condition);
    if (!condition.holds) break;
  }
  return found;
}

/** What the step of a proof does whose conditions hold. */
function effectOfProof(proof) {
  const { control, data, input } = proof;
  if (control.status !== RUNNING) return { isStopped: true };
  if (control.pc % 4 !== 0) return stopped(TRAPPED, MISALIGNED_JUMP);
  const inputByte = (place) => (place < proof.inputLength ? bytesInChunk(input.content, place, 1)[0] : NO_BYTE);
  const bytesAt = (address, width) => bytesInChunk(data.content, address, width);
  const register = (number) => shownRegister(proof, number) ?? 0;
  return effectOf(proof.word, { version: proof.version, pc: control.pc, register, bytesAt, inputByte });
}

/** A chunk's digits with other bytes from an address on. */
function changedChunk(digits, address, bytes) {
  const from = 2 * (address % CHUNK_BYTES);
  return digits.slice(0, from) + digitsOfBytes(bytes) + digits.slice(from + 2 * bytes.length);
}

/** The control fields after a step. */
function controlAfter(control, effect) {
  if (effect.isStopped) return control;
  if (effect.status !== undefined) return { ...control, status: effect.status, code: effect.code };
  const pc = effect.pc ?? (control.pc + 4) % MODULUS;
  if (effect.output === undefined) return { ...control, pc };
  const chain = sha256(OF_LINK + control.chain + littleEndian(effect.output, 1));
  return { ...control, pc, length: BigInt.asUintN(64, control.length + 1n), chain };
}

/** A proof's parts after its step, of which the next root is made. */
function partsAfter(proof, effect) {
  const after = { ...proof, control: controlAfter(proof.control, effect) };
  const { stores, writes } = effect;
  if (stores) {
    const chunk = changedChunk(proof.data.content, stores.address, stores.bytes);
    after.memory = climbedChunk(chunk, chunkOf(stores.address), proof.data.siblings);
  }
  if (!writes || writes.register === 0) return after;
  const value = littleEndian(writes.value, 4);
  if (proof.shown) after.shown = proof.shown.map((before, register) => (register === writes.register ? writes.value >>> 0 : before));
  else after.registers = climbedRegister(value, writes.register, proof.opened[registersOf(proof.word).indexOf(writes.register)].siblings);
  return after;
}

/** A proof of a step, explained: the conditions, and if all hold the effect, the parts after it and their digests. */
function explainedStep(proof, version, root) {
  const conditions = conditionsOf(proof, version, root), refusal = conditions.find(({ holds }) => !holds)?.refusal ?? null;
  if (refusal) return { conditions, refusal, effect: null, after: null, digests: null };
  const effect = effectOfProof(proof), after = partsAfter(proof, effect);
  return { conditions, refusal, effect, after, digests: digestsOf(after) };
}
