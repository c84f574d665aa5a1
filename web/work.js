// The work of the page, in a thread of its own: answers by the library, and what is shown of them.
//
// It is sent the modules first, and then tasks; each is answered by one message.
"use strict";

const SHOWN_CHARACTERS = 20000, SHOWN_OF_LINE = 160;
let library = null;
let referee = null;

/** An answer as it is shown: its text whole and as far as it is shown, and the milliseconds that it took. It is good if its status is 0. */
function shownAnswer(command, status, text, milliseconds) {
  const words = LATIN.decode(text), shown = words.slice(0, SHOWN_CHARACTERS);
  return { command, status, words, shown, length: text.length, file: new Blob([text]), milliseconds, isGood: status === 0 };
}

/** What one of the commands answers for these bytes. */
function answered(command, bytes) {
  const began = performance.now(), { status, text } = library.answer(command, bytes);
  return shownAnswer(command, status, text, performance.now() - began);
}

/** Rules on each proof of a match: the audit of a text of its own says whether it is proved, and the referee of one step why not. */
function ruleOnProofs(match) {
  let count = 0;
  for (const dispute of match.disputes) {
    const step = dispute.rounds.find((round) => round.isStep);
    if (!step) continue;
    step.answers.forEach((answer, side) => {
      if (answer.word !== "given") return;
      count += 1;
      const text = new TextEncoder().encode(textOfOneProof(match, dispute, side));
      const { status } = library.answer("audit", text);
      if (status === OUT_OF_MEMORY) throw new NoMemory("out of memory");
      answer.isProved = status === 0;
      if (match.digest === "sha256") answer.check = referee.check(match.version, step.agreed, answer.wire);
    });
  }
  return count;
}

/** The listing of one word, as the command `list` writes it. */
function instructionOf(digits) {
  const json = JSON.stringify({ format: "flat", image: digits, input: "", bound: 1, patience: 0, provers: [{}] });
  const { status, text } = library.answer("list", new TextEncoder().encode(json));
  if (status === OUT_OF_MEMORY) throw new NoMemory("out of memory");
  return LATIN.decode(text).trim();
}

/** What is shown of matches: the picture, the report, and the details of each round. `stakes` has one for each, or null. */
function shownMatches(matches, areTasks, stakes) {
  const began = performance.now(), proofs = matches.reduce((count, match) => count + ruleOnProofs(match), 0);
  const details = [], placeOf = new Map();
  for (const match of matches) {
    for (const dispute of match.disputes) {
      for (const round of dispute.rounds) {
        placeOf.set(round, details.length);
        details.push(detailsOf(match, dispute, round, instructionOf));
      }
    }
  }
  const picture = drawMatches(matches, areTasks, stakes);
  const report = matches.flatMap((match, at) => [
    ...(areTasks ? [{ words: `task ${at + 1}` }] : []),
    ...reportOf(match, stakes[at]).map(({ words, round }) => ({ words, place: placeOf.get(round) })),
  ]);
  const file = new Blob(report.map(({ words }) => `${words}\n`));
  report.forEach((line) => (line.words = short(line.words)));
  const places = picture.rows.map(({ y, height, round }) => ({ y, height, place: placeOf.get(round) }));
  const rows = places.map((row) => ({ ...row, words: details[row.place].title }));
  const facts = matches.flatMap((match, at) => factsOfMatch(match, areTasks ? ` of task ${at + 1}` : ""));
  const milliseconds = performance.now() - began;
  return { picture: picture.text, width: picture.width, facts, rows, report, file, details, proofs, milliseconds };
}

/** The lines of a text that a refusal names: the line before, and the line. */
function linesAt(bytes, number) {
  const lines = LATIN.decode(bytes).split("\n"), numbers = [number - 1, number].filter((line) => line > 0 && line <= lines.length);
  return numbers.map((line) => ({ line, words: lines[line - 1].slice(0, SHOWN_OF_LINE) }));
}

/** Whether nothing but the line feed of the last line is missing. */
function isCutOff(bytes) {
  if (bytes.length === 0 || bytes[bytes.length - 1] === 10) return false;
  const whole = new Uint8Array(bytes.length + 1);
  whole.set(bytes);
  whole[bytes.length] = 10;
  return library.answer("audit", whole).status === 0;
}

/** More on a text that is refused in these words. */
function refusedOf(bytes, words) {
  const line = /^(?:refused|fault text [24]) ([0-9]+)/.exec(words);
  const isReport = LATIN.decode(bytes.subarray(0, 14)) === "match provers ";
  return { lines: line ? linesAt(bytes, Number(line[1])) : [], isCutOff: isCutOff(bytes), isReport };
}

/** The table of what a case and a text say, of tasks with the number of each. */
function tableOfTie({ rows }) {
  const named = (name, at) => (rows.length > 1 ? `${name}, task ${at + 1}` : name);
  const cellsOf = ([name, ofText, ofCase, isSame], at) => [named(name, at), ofText, ofCase, isSame ? "same" : "differ"];
  const cells = rows.flatMap((list, at) => list.map((row) => cellsOf(row, at)));
  return { head: ["", "the text", "the case", ""], rows: cells, mark: "tie" };
}

/** Audits a text, or each task of it; with a case says whether it is its text; and shows the matches if all are confirmed. */
function auditOf({ bytes, stake, json }) {
  const { texts, areTasks, wrong } = textsOf(bytes);
  if (wrong) return { answers: [], wrong };
  const answers = texts.map((text) => answered("audit", text)), first = answers.findIndex(({ status }) => status !== 0);
  answers.forEach((answer, at) => (answer.notes = notesOf(answer, at === first ? refusedOf(texts[at], answer.words) : null)));
  if (first >= 0) return { answers, areTasks };
  const matches = texts.map((text) => readMatch(LATIN.decode(text))), tie = json ? tieOf(library, matches, areTasks, json, stake) : null;
  const notes = notesOfConfirmed(matches.map(({ digest }) => digest), tie), isGood = notes.every(({ tone }) => tone !== "bad");
  answers.forEach((answer) => Object.assign(answer, { isGood }));
  const last = answers[answers.length - 1];
  Object.assign(last, { notes: [...last.notes, ...notes], table: tie?.rows ? tableOfTie(tie) : null });
  const stakes = matches.map((_, at) => stake ?? tie?.stakes?.[at] ?? null);
  return { answers, areTasks, tie, match: shownMatches(matches, areTasks, stakes) };
}

function caseOf({ bytes }) {
  const answers = ["run", "list"].map((command) => answered(command, bytes));
  return { answers: answers.map((answer) => ({ ...answer, notes: notesOf(answer, null) })) };
}

/** The ruling on a pasted proof. */
function rulingOf({ bytes }) {
  const began = performance.now(), ruled = ruledOn(library, referee, LATIN.decode(bytes), instructionOf);
  if (ruled.wrong) return { answers: [], wrong: ruled.wrong };
  const { status, words, notes, table, sections } = ruled;
  const answer = shownAnswer("ruling", status, new TextEncoder().encode(words), performance.now() - began);
  return { answers: [{ ...answer, notes, table, sections }] };
}

/** The audit of a match that was played to its end. It is good if the accepted claim is what the library's run of the program comes to. */
function endOf(game, text) {
  const audit = answered("audit", text), run = library.answer("run", game.json);
  if ([audit.status, run.status].includes(OUT_OF_MEMORY)) throw new NoMemory("out of memory");
  const truth = LATIN.decode(run.text).replace("answer ", ""), isGood = audit.words === `confirmed accept ${truth}`;
  return { ...audit, isGood, notes: notesOfEnd(audit.words, isGood, short(truth.trim())) };
}

/** A match that is played: what is asked, and what is shown of it so far. */
function playOf(task) {
  const { wrong, game, from, refused, question, choices, isOver, text } = playedOn(library, task);
  if (wrong) return { answers: [], wrong: `No match of this case can be played: ${wrong.trim()}.` };
  const { numbers, posts, status, found } = game, answers = isOver ? [endOf(game, text)] : [];
  const match = isOver && answers[0].status === 0 ? readMatch(LATIN.decode(text)) : game.shown();
  const { accepted } = found, file = text && new Blob([text]);
  const isTrue = answers.every(({ isGood }) => isGood);
  const play = { numbers, posts, status, accepted, isTrue, from, refused, question, choices, isOver, text: file };
  return { answers, play, match: shownMatches([match], false, [null]) };
}

const WORK = { audit: auditOf, case: caseOf, ruling: rulingOf, play: playOf };

/** The bytes of a text in base 64. */
function bytesOfBase64(text) {
  return Uint8Array.from(atob(text), (character) => character.charCodeAt(0));
}

async function answerTo(task) {
  if (task.modules === undefined) return WORK[task.kind](task);
  referee = await StepReferee.of(bytesOfBase64(task.modules.step));
  library = await Coshalit.of(bytesOfBase64(task.modules.answers));
  return { ready: true };
}

self.onmessage = async ({ data }) => {
  try {
    self.postMessage({ number: data.number, ...(await answerTo(data)) });
  } catch (fault) {
    self.postMessage({ number: data.number, failed: fault instanceof NoMemory ? "out of memory" : String(fault) });
  }
};
