// One ruling alone: a version, a root and a proof as they are pasted, what the proved referee says of them, and why.
"use strict";

const RULE_WORDS = {
  1: "too short: bytes are missing",
  2: "bad tag: the first byte, the flags or a count",
  3: "bad status",
  4: "trailing bytes: some are left over",
  5: "bad length of an output",
};
const OTHER_ANSWERS = { "01": "a claim", "02": "a root", "05": "several roots" };
const WORDS_OF_RULING = {
  0: "The proof leads to this root.",
  1: "Refused, not open: its parts don't open the root, or an opening doesn't open the root of its tree.",
  2: "Refused, wrong shape: it is of another version, or an opening is missing, or is there and not called for.",
  3: "Refused, no proof: the bytes are the wire form of no proof of a step.",
  4: "Refused, wrong length: the root hasn't 32 bytes.",
};
const MOST_VERSION = 4294967295;
const WANTED = "Paste a version, a root of 64 hexadecimal digits and the digits of a proof, with blanks between, or a line of steps.json.";

/** The words of a vector in JSON, such as a line of `steps.json`; or null. */
function wordsOfVector(text) {
  try {
    const { version, root, proof, leads = "" } = JSON.parse(text.trim().replace(/^\[|,$|\]$/g, ""));
    return [version, root, proof, leads].map(String);
  } catch {
    return null;
  }
}

const areBytes = (digits) => digits.length % 2 === 0 && /^[0-9a-f]*$/.test(digits);

/** The parts of a pasted ruling: a version, and digits. `wrong` says what is wrong with it, and else is null. */
function readRuling(text) {
  const words = /^\s*[[{]/.test(text) ? wordsOfVector(text) : text.trim().split(/\s+/);
  if (!words || words.length < 3 || words.length > 4) return { wrong: WANTED };
  const [version, root, proof, leads = ""] = words.map((word) => word.toLowerCase().replace(/^0x/, ""));
  if (!/^(0|[1-9][0-9]{0,9})$/.test(version) || Number(version) > MOST_VERSION) return { wrong: `The version is 1, 2 or 3. ${WANTED}` };
  const bad = [["root", root], ["proof", proof]].find(([, digits]) => !areBytes(digits));
  if (bad) return { wrong: `The ${bad[0]} isn't pairs of hexadecimal digits. ${WANTED}` };
  return { version: Number(version), root, proof, leads, wrong: null };
}

/** Why bytes are no proof of a step. A match of the library says which rule of wire forms they break. */
function whyNoProof(library, proof) {
  const numbers = { version: 1, provers: 1, fan: 2, patience: 0, bound: 1, start: "00".repeat(ROOT_BYTES) }, wire = bytesOfDigits(proof);
  if (wire.length === 0) return "There are no bytes.";
  const { status, found } = library.match(numbers, entryOf({ prover: 1, dispute: 0, round: 0 }, wire));
  if (status !== BAD_LOG) return `The bytes are an answer of another kind: ${OTHER_ANSWERS[proof.slice(0, 2)] ?? "no proof of a step"}.`;
  return `The bytes are the wire form of no answer, by rule ${found.rule}: ${RULE_WORDS[found.rule] ?? "see docs/COMMITMENTS.md"}.`;
}

/** The conditions as a table. */
function tableOfConditions(conditions) {
  const rows = conditions.map(({ about, wanted, found, holds }) => [about, wanted, found, holds ? "holds" : "fails"]);
  return { head: ["condition, in their order", "wanted", "found", ""], rows, mark: "conditions" };
}

/** Whether what this page works out is what the referee rules, in a sentence if it isn't. */
function disagreement(explained, check) {
  const { refusal, digests } = explained, leadsThere = check.ruling === "leads" && digests?.root === check.next;
  if (refusal === null ? leadsThere : check.ruling === refusal) return null;
  const own = refusal ?? `leads to ${digests.root}`;
  return `What this page works out beside it is another ruling (${own}). The ruling of the proved referee counts; please report it.`;
}

/** The sections on a proof that can be read: the instruction, what it reads and writes, and its parts. */
function sectionsOfProof(proof, explained, instructionOf) {
  const reads = [...factsOfInstruction(proof, instructionOf), ...factsOfOpenings(proof)];
  const sections = [{ title: "The step", facts: reads, more: moreOf(proof, "sha256") }];
  if (explained.effect) sections.push({ title: "What it writes", facts: factsOfEffect(proof, explained), more: moreAfter(explained) });
  return sections;
}

function noteOfLeads(given, next) {
  return given === next ? note("It is the root that you gave.", "good") : note(`You gave another root: ${given}`, "bad");
}

/** What is shown of a pasted ruling. */
function ruledOn(library, referee, text, instructionOf) {
  const asked = readRuling(text);
  if (asked.wrong) return { wrong: asked.wrong };
  const check = referee.check(asked.version, asked.root, asked.proof), { status, next } = check;
  const words = status === 0 ? `leads ${next}\n` : `${check.ruling}\n`;
  const notes = [note(WORDS_OF_RULING[status] ?? unknownStatus(status))];
  if (asked.leads && status === 0) notes.push(noteOfLeads(asked.leads, next));
  if (status === 3) notes.push(note(whyNoProof(library, asked.proof)));
  if (status > 2) return { status, words, notes, table: null, sections: [] };
  const proof = readProof(asked.proof), explained = explainedStep(proof, asked.version, asked.root), other = disagreement(explained, check);
  if (other) notes.push(note(other, "bad"));
  const table = tableOfConditions(explained.conditions), sections = sectionsOfProof(proof, explained, instructionOf);
  return { status, words, notes, table, sections };
}
