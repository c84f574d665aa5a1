// Cuts a text at the lines of its tasks, and ties a text to a case. What is audited, and whether it is the text of a case, hangs on this.
"use strict";

const LATIN = new TextDecoder("latin1");
const MOST_TASKS = 8;
const HEAD_OF_TASK = /(?<![^\n])task [^\n]*/g;
const ARE_TASKS = "fault case 6 tasks\n";

/**
 * The full texts of a text as bytes, one for each task, or the text itself if it isn't of tasks. Lines `task T` number the tasks from 1, and
 * there are at most 8; `wrong` says where that is otherwise, and else is null.
 */
function textsOf(bytes) {
  if (LATIN.decode(bytes.subarray(0, 5)) !== "task ") return { texts: [bytes], areTasks: false, wrong: null };
  const heads = [...LATIN.decode(bytes).matchAll(HEAD_OF_TASK)], wrong = wrongNumbers(heads.map(([words]) => words));
  const starts = heads.map((found) => found.index), afterHeads = heads.map((found, at) => starts[at] + found[0].length + 1);
  return { texts: afterHeads.map((from, at) => bytes.slice(from, starts[at + 1] ?? bytes.length)), areTasks: true, wrong };
}

/** What is wrong with the lines of tasks, or null. */
function wrongNumbers(heads) {
  const at = heads.findIndex((words, place) => words !== `task ${place + 1}`);
  if (at >= 0) {
    const line = heads[at].slice(0, 40);
    return `Where task ${at + 1} has to begin, a line says “${line}”: a task is missing, doubled or out of its place. Nothing was audited.`;
  }
  if (heads.length <= MOST_TASKS) return null;
  return `The text has ${heads.length} tasks, and at most ${MOST_TASKS} are played together. Nothing was audited.`;
}

/** The JSON of a case that the library has taken. Of a key that stands twice the last counts, by both. */
function treeOf(bytes) {
  return JSON.parse(new TextDecoder("utf-8", { ignoreBOM: true }).decode(bytes));
}

/** The cases of the bytes of a case or of tasks, each with its start root; or what the library says against it in `wrong`. */
function casesOf(library, bytes) {
  const rootOf = (json) => {
    const { status, text } = library.answer("start_root", json);
    if (status === OUT_OF_MEMORY) throw new NoMemory("out of memory");
    return status === 0 ? { start: digitsOfBytes(text) } : { wrong: LATIN.decode(text) };
  };
  const whole = rootOf(bytes);
  if (!whole.wrong) return { cases: [{ ...whole, tree: treeOf(bytes) }], areTasks: false };
  if (whole.wrong !== ARE_TASKS) return whole;
  const { tasks } = treeOf(bytes);
  if (!Array.isArray(tasks) || tasks.length === 0 || tasks.length > MOST_TASKS) return whole;
  const cases = tasks.map((tree) => ({ ...rootOf(new TextEncoder().encode(JSON.stringify(tree))), tree }));
  const bad = cases.findIndex(({ wrong }) => wrong);
  return bad < 0 ? { cases, areTasks: true } : { wrong: cases[bad].wrong.replace("fault ", `fault task ${bad + 1} `) };
}

/** What a text's head and a case say, side by side: a name, both, and whether they are the same. A full text states no stake. */
function comparedWith(head, { start, tree }, stake) {
  const ofCase = { version: 1, fan: 2, ...tree, start, provers: tree.provers.length, digest: "sha256" };
  const names = ["start", "bound", "patience", "version", "fan", "provers", "digest"];
  const rows = names.map((name) => [name, String(head[name]), String(ofCase[name]), head[name] === ofCase[name]]);
  rows[0][0] = "start root";
  const ownStake = tree.stake ?? null, said = stake === null ? "not stated" : `${stake}, as you say`;
  return [...rows, ["stake", said, String(ownStake ?? "none"), stake === null || stake === ownStake]];
}

/**
 * Whether texts with these heads are of a case, `json` its bytes: the rows that are compared, by task, and the names of what differs;
 * `wrong` if there is nothing to compare.
 */
function tieOf(library, heads, areTasks, json, stake) {
  const found = casesOf(library, json);
  if (found.wrong) return { wrong: `This is no case, so nothing is compared: ${found.wrong.trim()}.` };
  if (found.areTasks !== areTasks || found.cases.length !== heads.length) {
    const count = (isOfTasks, number) => (isOfTasks ? `${number} task${number === 1 ? "" : "s"}` : "one match and no tasks");
    return { wrong: `The text is of ${count(areTasks, heads.length)}, and the case of ${count(found.areTasks, found.cases.length)}.` };
  }
  const rows = heads.map((head, at) => comparedWith(head, found.cases[at], stake));
  const different = [...new Set(rows.flat().filter(([, , , isSame]) => !isSame).map(([name]) => name))];
  return { wrong: null, rows, different, stakes: found.cases.map(({ tree }) => tree.stake ?? null) };
}
