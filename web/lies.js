// What a liar may answer in a match that is played: bytes made of the true answer. They are posted like anybody's; the library rules on
// them.
"use strict";

const CLAIM = 1, PROOF = 3;
const BYTES_BEFORE_CONTROL = { 1: 157, 2: 65, 3: 101 }, CONTROL_BYTES = 49, MEMORY_AT = 1, FIRST_REGISTER_AT = 33;
const CONTROL_OF_CLAIM = 65, OUTPUT_OF_CLAIM = 122;
const OUTPUT_OF_NONE = "2a";
// Of a longer output another chain takes too long to make here.
const MOST_OUTPUT = 4096;

/** Digits of which the first one of a byte is another. */
function otherDigit(digits, byte) {
  const at = 2 * byte;
  return digits.slice(0, at) + (parseInt(digits[at], 16) ^ 1).toString(16) + digits.slice(at + 1);
}

/** The digits with others in place of those from a byte on. */
function replaced(digits, byte, others) {
  return digits.slice(0, 2 * byte) + others + digits.slice(2 * byte + others.length);
}

/** The chain of an output. */
function chainOf(output) {
  return (output.match(/../g) ?? []).reduce((chain, byte) => sha256(OF_LINK + chain + byte), "00".repeat(32));
}

/** A claim with another output, whose length and chain agree with it, so that it is sound. */
function claimOfOutput(truth, output) {
  const control = readClaim(truth).control, length = output.length / 2;
  const fields = controlDigits({ ...control, length: BigInt(length), chain: chainOf(output) });
  return replaced(truth, CONTROL_OF_CLAIM, fields).slice(0, 2 * (OUTPUT_OF_CLAIM - 8)) + littleEndian(length, 8) + output;
}

function choicesOfClaim(truth) {
  const { control, output } = readClaim(truth), last = output.slice(-2);
  const other = output ? output.slice(0, -2) + (parseInt(last, 16) ^ 1).toString(16).padStart(2, "0") : OUTPUT_OF_NONE;
  const choices = other.length <= 2 * MOST_OUTPUT ? [{ name: `another output: ${short(other)}`, digits: claimOfOutput(truth, other) }] : [];
  if (control.status === EXITED) {
    const code = (control.code + 1) % MODULUS, fields = controlDigits({ ...control, code });
    choices.push({ name: `another exit code: ${code}`, digits: replaced(truth, CONTROL_OF_CLAIM, fields) });
  }
  choices.push({ name: "the same text, of another state", digits: otherDigit(truth, MEMORY_AT) });
  const unsound = claimOfOutput(truth, "").slice(0, -16) + littleEndian(1, 8) + "00";
  choices.push({ name: "an output that its chain doesn't fit: an unsound claim", digits: unsound });
  return choices;
}

/** The roots of an answer, false from a step on. */
function choicesOfRoots(truth, { low, high, parts }, from) {
  const isOne = parts === 0, cuts = isOne ? [low] : cutsOf(low, high, parts).slice(1, -1), first = isOne ? 1 : 2;
  const falseAt = (isFalse) => cuts.reduce((digits, cut, at) => (isFalse(cut) ? otherDigit(digits, first + 32 * at) : digits), truth);
  return [
    { name: `false from step ${withCommas(from)} on`, digits: falseAt((cut) => cut >= from) },
    { name: "false at every cut", digits: falseAt(() => true) },
  ];
}

function choicesOfProof(truth) {
  const proof = readProof(truth), { version } = proof, openings = BYTES_BEFORE_CONTROL[version] + CONTROL_BYTES + (version === 1 ? 1 : 2);
  const register = version === 1 ? registersOf(proof.word ?? 0)[0] ?? 1 : null;
  const choices = [], forge = (name, byte) => choices.push({ name, digits: otherDigit(truth, byte) });
  forge("with another digit of the memory's digest", MEMORY_AT);
  if (register) forge(`with another value of x${register}`, FIRST_REGISTER_AT + 4 * (register - 1));
  else forge("with another digit of the registers' root", BYTES_BEFORE_CONTROL[version] - ROOT_BYTES);
  forge("with another pc", BYTES_BEFORE_CONTROL[version]);
  if (proof.fetched) {
    forge("with another instruction in the fetched chunk", openings + (proof.control.pc % CHUNK_BYTES));
    forge("with another sibling of the fetched chunk", openings + CHUNK_BYTES);
  }
  choices.push({ name: "that ends too early", digits: truth.slice(0, -2) });
  return choices;
}

/** What may be answered to a question: names and digits, of which the first is what the liar says. Silence has no digits. */
function choicesFor(question, truth, from) {
  const honest = { name: "the truth", digits: truth }, silence = { name: "nothing: fall silent", digits: "" };
  if (question.kind === CLAIM) return [...choicesOfClaim(truth), honest, silence];
  if (question.kind === PROOF) return [{ ...honest, name: "the true proof of this step" }, ...choicesOfProof(truth), silence];
  return [...choicesOfRoots(truth, question, from), honest, silence];
}
