// What the answers of the library mean, in sentences. A note is a sentence with a tone, `plain`, `good` or `bad`, or lines as they stand,
// `code`.
"use strict";

const CAUSES = {
  1: "The line's dispute, round and prover aren't the next ones.",
  2: "The line calls its answer given or faulty, and it isn't.",
  3: "The verdict isn't that of the lines before.",
  4: "The verdict comes while a question is open.",
  5: "A move comes after the match has ended.",
};
const FAULTS_OF_TEXT = {
  1: "Line 1 isn't the head of a full text.",
  2: "The line has the form of neither a move nor a verdict, or follows the verdict.",
  3: "The text is cut off: each line ends in a line feed, the last one is a verdict.",
  4: "A number of the line is out of its limits.",
};
const WORDS_OF_STATUS = {
  3: "This is no case. docs/FAULTS.md says what to do.",
  4: "The image of this case can't be loaded. docs/FAULTS.md says what to do.",
  9: "Out of memory: there is no answer. It is neither confirmed nor refused.",
  12: "More than 16,777,216 bytes.",
};
const WEAK = "Its digest is weak8, eight bits for trials. Anybody can make a confirmed text of any verdict by it: it shows nothing.";
const NO_CASE = "Of which program and input it is isn't shown: its start root is all that it says of them. Give your case to compare them.";
const TIED = "It is a text of your case: the verdict is about this program and this input. It is right if one prover answered truly.";
const CUT_OFF = "Only the line feed after the last line is missing, as happens in copying: with it the text is confirmed.";
const SHOWN_OUTPUT = 2000;

const note = (words, tone = "plain") => ({ words, tone });
const unknownStatus = (status) => `The library answers with status ${status}, which this page doesn't know: take it for a refusal.`;

/** Notes on a text that isn't confirmed. */
function notesOfRefusal(words, refused) {
  const [, kind, first, second] = /^(refused|fault text) ([0-9]+)(?: ([0-9]+))?/.exec(words) ?? [];
  const notes = [note((kind === "refused" ? CAUSES[second] : FAULTS_OF_TEXT[first]) ?? "The text isn't confirmed.")];
  if (!refused) return notes;
  if (refused.isCutOff) notes.push(note(CUT_OFF));
  if (refused.lines.length > 0) {
    const lines = refused.lines.map(({ line, words: start }) => `${line}: ${start}${start.length === SHOWN_OF_LINE ? " .." : ""}`);
    notes.push(note(lines.join("\n"), "code"));
  }
  if (refused.isReport) notes.push(note("It is a report. The full text of the match is what judge --full writes."));
  return notes;
}

/** Notes on the output of a run. */
function notesOfOutput(words) {
  const output = /output ((?:[0-9a-f]{2})+)\n$/.exec(words);
  if (!output) return [];
  const bytes = bytesOfDigits(output[1]), isPlain = (byte) => byte === 10 || (byte >= 32 && byte < 127);
  const isText = bytes.length < SHOWN_OUTPUT && bytes.every(isPlain);
  const count = `The output has ${withCommas(bytes.length)} ${bytes.length === 1 ? "byte" : "bytes"}`;
  return [note(`${count}${isText ? `, as text: ${String.fromCharCode(...bytes)}` : ""}.`)];
}

/** Notes on an answer of the commands; `refused` says more of a refused text, and else is null. */
function notesOf({ command, status, words }, refused) {
  if (command === "audit" && status === 8) return notesOfRefusal(words, refused);
  if (command === "list" && words === "fault case 6 format\n") return [note("Only flat images and assembly texts are listed.")];
  if (command === "run" && status === 0) return notesOfOutput(words);
  if (status === 0) return [];
  return [note(WORDS_OF_STATUS[status] ?? unknownStatus(status))];
}

/** The notes that a confirmed text has beside its verdict: what it shows, and of what. `tie` is null if there is no case. */
function notesOfConfirmed(digests, tie) {
  if (digests.includes("weak8")) return [note(WEAK, "bad")];
  if (tie === null) return [note(NO_CASE)];
  if (tie.wrong) return [note(tie.wrong, "bad")];
  if (tie.different.length === 0) return [note(TIED, "good")];
  const names = `${tie.different.join(", ")} ${tie.different.length === 1 ? "isn't" : "aren't"}`;
  return [note(`It isn't a text of your case: ${names} the same. The verdict says nothing about it.`, "bad")];
}

/** Notes on a match that was played, by the verdict and whether it is the run's answer. */
function notesOfEnd(words, isTrue, truth) {
  const confirmed = note("The audit confirms the full text of this match: that it was played by the rules, not that anybody was honest.");
  if (isTrue) return [confirmed, note("The accepted claim is what the library's own run of the program comes to.", "good")];
  const what = words.startsWith("confirmed accept ") ? "The accepted claim is false" : "No claim is accepted";
  return [confirmed, note(`${what}: the program comes to ${truth}. Nothing is promised where no prover answers truly and in time.`, "bad")];
}
