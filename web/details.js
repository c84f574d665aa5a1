// What is shown of a round or of the proofs of a step if it is chosen: titles, facts and tables, which the page lays out.
"use strict";

const WHY_NOT = {
  "not open": "a part of it doesn't open the agreed root",
  "wrong shape": "it hasn't the shape of its step: it is of another version, or an opening is missing or not called for",
  "no proof": "it is no proof of a step",
};
const WORDS_OF_SPENT = { spent: "it didn't answer within the patience", faulty: "it answered something else than it was asked for" };
const SYSTEM_CALLS = { 1: "output a byte", 2: "read a byte of the input", 93: "exit" };

/** The root of a claim: of its two digests and its control string (docs/COMMITMENTS.md). */
function claimRoot(match, prover) {
  const { memory, registers, control } = match.claims.get(prover);
  return digestBy(match.digest, `04${memory}${registers}${digestBy(match.digest, `03${control.digits}`)}`);
}

/** The root of each side at the high end of a round. */
function ownRoots(match, dispute, round) {
  return round.own.map((root, at) => root ?? claimRoot(match, dispute.sides[at]));
}

/** The claimed roots, each once with its provers: those of one root agree, whether they met or not. */
function factsOfClaims(match, ofTask) {
  const claimed = new Map();
  for (const prover of match.claims.keys()) {
    const root = claimRoot(match, prover);
    claimed.set(root, [...(claimed.get(root) ?? []), `p${prover}`]);
  }
  return [...claimed].map(([root, provers]) => [`claimed by ${provers.join(" ")}${ofTask}`, root, "digest"]);
}

/** What the head of a text states, which a reader compares with the case, and the roots that are claimed. */
function factsOfMatch(match, ofTask) {
  const { provers, bound, patience, version, fan, digest } = match, count = `${provers} prover${provers === 1 ? "" : "s"}`;
  const numbers = `${count}, bound ${withCommas(bound)}, patience ${patience}, version ${version}, fan ${fan}, digest ${digest}`;
  const head = [`head${ofTask}`, numbers];
  return [[`start root${ofTask}`, match.start, "digest"], head, ...factsOfClaims(match, ofTask)];
}

/** Facts are pairs of a name and what it is, or triples with a kind: `digest`, or `bytes`. */
function factsOfInterval(match, dispute, round) {
  const own = ownRoots(match, dispute, round);
  return [
    ["interval", `steps ${withCommas(round.low)} to ${withCommas(round.high)}`],
    [`root of both at ${withCommas(round.low)}`, round.agreed, "digest"],
    ...dispute.sides.map((side, at) => [`root of p${side} at ${withCommas(round.high)}`, own[at], "digest"]),
  ];
}

function wordsOfCut(round, cut) {
  if (!round.kept) return "not compared";
  if (cut <= round.kept[0]) return "same";
  return cut === round.kept[1] ? "differ" : "not looked at";
}

function detailsOfRound(match, dispute, round) {
  const facts = factsOfInterval(match, dispute, round);
  if (round.kept) facts.push(["kept", `steps ${withCommas(round.kept[0])} to ${withCommas(round.kept[1])}`]);
  round.answers.forEach((answer) => {
    if (answer.word !== "given") facts.push([`p${answer.prover} is out`, `${answer.word}: ${WORDS_OF_SPENT[answer.word]}`]);
  });
  const rootsAt = (at) => round.answers.map(({ roots }) => roots?.[at] ?? "none");
  const rows = round.cuts.map((cut, at) => [withCommas(cut), ...rootsAt(at), wordsOfCut(round, cut)]);
  return { facts, table: { head: ["cut at step", ...dispute.sides.map((side) => `root of p${side}`), "they are"], rows }, sections: [] };
}

/** The address that a load or a store goes to, or null. */
function addressOf(proof) {
  return accessOf(proof.word, (register) => shownRegister(proof, register) ?? 0)?.address ?? null;
}

/** Bytes in pairs of digits, four by four. */
function spaced(digits) {
  return digits.match(/.{1,8}/g).join(" ");
}

function factsOfInstruction(proof, instructionOf) {
  const { pc, status, code } = proof.control;
  if (!proof.fetched) {
    const hasStopped = `the machine has stopped: ${STATUS_WORDS[status]}${code}`;
    return [["instruction", `none: ${status === RUNNING ? `pc is ${hexadecimal(pc)}, which is no multiple of 4` : hasStopped}`]];
  }
  const facts = [["instruction", `${instructionOf(proof.fetched.content.slice(2 * (pc % CHUNK_BYTES)).slice(0, 8))}`, "code"]];
  facts.push(["at", `pc ${hexadecimal(pc)}, the word ${hexadecimal(proof.word)}`]);
  if (proof.word === ECALL_WORD) facts.push(["call", SYSTEM_CALLS[shownRegister(proof, 17)] ?? "none that there is"]);
  for (const register of registersOf(proof.word)) {
    const value = shownRegister(proof, register);
    if (value !== null) facts.push([`x${register}`, `${hexadecimal(value)} (${withCommas(value)})`]);
  }
  return facts;
}

/** What was opened of the state: chunks with their places, and how long their paths are. */
function factsOfOpenings(proof) {
  const facts = [], from = (address) => hexadecimal(address - (address % CHUNK_BYTES));
  const add = (name, { content, siblings }) => facts.push([name, `${spaced(content)} · ${siblings.length} siblings`, "bytes"]);
  if (proof.fetched) add(`memory at ${from(proof.control.pc)}, fetched`, proof.fetched);
  proof.opened.forEach((opening, at) => add(`register x${registersOf(proof.word)[at] ?? "?"}`, opening));
  const address = proof.data ? addressOf(proof) : null;
  const ofAccess = address === null ? "memory, data" : `memory at ${from(address)}, for the access at ${hexadecimal(address)}`;
  const chunk = Math.floor((shownRegister(proof, 10) ?? 0) / CHUNK_BYTES);
  if (proof.data) add(ofAccess, proof.data);
  if (proof.input) add(`input, of ${withCommas(proof.inputLength)} bytes, chunk ${chunk}`, proof.input);
  return facts;
}

function whyOf(answer, own) {
  if (answer.word !== "given") return WORDS_OF_SPENT[answer.word];
  if (answer.isProved) return "it opens the agreed root, and leads to the side's own root";
  if (!answer.check) return "it doesn't lead from the agreed root to the side's own";
  if (answer.check.next === own) return "it isn't of this match";
  return WHY_NOT[answer.check.ruling] ?? "it opens the agreed root, and leads to another root than the side's own";
}

function linesOfPath(name, { content, siblings }) {
  return [`${name}: ${content}`, ...siblings.map((sibling, level) => `${String(level).padStart(2)} ${sibling}`)];
}

/** What isn't shown at first: the state's parts, with their digests if those are by SHA-256, all registers, and paths. */
function moreOf(proof, digest) {
  const { pc, status, code, length, chain } = proof.control, state = [`memory    ${proof.memory}`];
  if (proof.registers) state.push(`registers ${proof.registers}`);
  if (proof.inputRoot) state.push(`input     ${proof.inputRoot}`);
  state.push(`pc ${hexadecimal(pc)}, ${STATUS_WORDS[status]}${status ? code : ""}, ${withCommas(length)} bytes of output`);
  state.push(`chain     ${chain}`);
  if (digest === "sha256") state.push("", ...linesOfDigests(proof, digestsOf(proof)));
  const more = [{ title: "The state's parts", lines: state }];
  const lineOf = (value, register) => `x${String(register).padEnd(2)} ${hexadecimal(value)}`;
  if (proof.shown) more.push({ title: "All registers", lines: proof.shown.map(lineOf) });
  const { fetched, opened, data, input } = proof;
  const openings = [["fetched", fetched], ...opened.map((opening) => ["register", opening]), ["data", data], ["input", input]];
  const lines = openings.filter(([, opening]) => opening).flatMap(([name, opening]) => linesOfPath(name, opening));
  if (lines.length > 0) more.push({ title: "Openings with their siblings, the leaf's own first", lines });
  return more;
}

/** What a step writes, each with what was there before. */
function factsOfEffect(proof, { effect, after }) {
  const { control } = proof, { writes, stores, output } = effect;
  if (effect.isStopped) return [["nothing", "the machine has stopped, and stays as it is"]];
  const facts = [["pc", `${hexadecimal(control.pc)} → ${hexadecimal(after.control.pc)}`]];
  if (effect.status !== undefined) facts.push(["status", `running → ${STATUS_WORDS[effect.status]}${effect.code}`]);
  if (writes?.register === 0) facts.push(["x0", "stays 0: what is written to it is dropped"]);
  else if (writes) {
    facts.push([`x${writes.register}`, `${hexadecimal(shownRegister(proof, writes.register))} → ${hexadecimal(writes.value)}`]);
  }
  if (stores) {
    const before = digitsOfBytes(bytesInChunk(proof.data.content, stores.address, stores.bytes.length));
    facts.push([`memory at ${hexadecimal(stores.address)}`, `${before} → ${digitsOfBytes(stores.bytes)}`, "bytes"]);
  }
  if (output !== undefined) {
    const lengths = `${withCommas(control.length)} → ${withCommas(after.control.length)}`;
    facts.push(["output", `the byte ${littleEndian(output, 1)}, its length ${lengths}`]);
  }
  return facts;
}

/** The parts of a state with their digests, as lines. */
function linesOfDigests(parts, digests) {
  return [
    `memory digest    ${digests.memory}`, `registers digest ${digests.registers}`, `control digest   ${digests.control}`,
    `control string   ${OF_CONTROL}${controlDigits(parts.control)}`, `root             ${digests.root}`,
  ];
}

/** The state's parts after a step, with their digests. */
function moreAfter({ after, digests }) {
  return [{ title: "The state's parts after it, with their digests", lines: linesOfDigests(after, digests) }];
}

/** What is worked out beside the ruling on a proof: what its step writes, or where it fails. */
function factsOfExplained(proof, explained) {
  const failed = explained.conditions.find(({ holds }) => !holds);
  if (failed) return [["fails", failed.about], ["wanted", failed.wanted, "digest"], ["found", failed.found, "digest"]];
  return factsOfEffect(proof, explained).map(([name, words, kind = "plain"]) => [`writes ${name}`, words, kind]);
}

function sectionOfAnswer(match, round, answer, own, instructionOf) {
  const { proof } = answer, facts = [["why", whyOf(answer, own)]];
  const section = { title: `p${answer.prover}`, mark: wordOf(round, answer), facts, more: [] };
  if (!proof) return section;
  facts.push(...factsOfInstruction(proof, instructionOf), ...factsOfOpenings(proof));
  if (match.digest === "sha256") facts.push(...factsOfExplained(proof, explainedStep(proof, match.version, round.agreed)));
  if (answer.check?.next) facts.push(["it leads to", answer.check.next, "digest"]);
  facts.push(["proof", `version ${proof.version}, ${withCommas(answer.wire.length / 2)} bytes`]);
  return { ...section, more: moreOf(proof, match.digest) };
}

function detailsOfStep(match, dispute, round, instructionOf) {
  const own = ownRoots(match, dispute, round);
  const sections = round.answers.map((answer, at) => sectionOfAnswer(match, round, answer, own[at], instructionOf));
  return { facts: factsOfInterval(match, dispute, round), table: null, sections };
}

/** The details of a round. `instructionOf` gives the listing of a word's digits. */
function detailsOf(match, dispute, round, instructionOf) {
  const title = `Dispute ${dispute.number}, ${wordsOfRound(match, dispute, round)}`;
  return { title, ...(round.isStep ? detailsOfStep(match, dispute, round, instructionOf) : detailsOfRound(match, dispute, round)) };
}
