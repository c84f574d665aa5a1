// The page: takes a text, has it worked on in a thread of its own, and has what comes back laid out.
"use strict";

const MOST_STAKE = 1000000000;
// By so many characters at its beginning a text is told from another.
const SHOWN_OF_START = 400;
const NAMES = { audit: "Audit", run: "Run", list: "Listing", ruling: "Ruling" };
const LABELS = { audit: "A full text", case: "A case", ruling: "Version, root and proof", play: "The case whose program is disputed" };

let worker = null;
let isReady = false;
// The task that waits until the thread is ready, or null.
let waiting = null;
let asked = 0;
// The last message of the worker.
let shown = null;
let clock = 0;
let links = [];

const boxes = { text: new Box("text", take), case: new Box("case", (bytes, name) => boxes.case.put(bytes, name)) };
const examples = JSON.parse(textOf("examples"));

function say(words) {
  found("progress").textContent = words;
}

function kindAsked() {
  return new FormData(found("form")).get("kind");
}

// Work.

function startWorker() {
  const source = URL.createObjectURL(new Blob([textOf("worker-source")], { type: "text/javascript" }));
  worker = new Worker(source);
  URL.revokeObjectURL(source);
  isReady = false;
  asked += 1;
  worker.onmessage = ({ data }) => receive(data);
  worker.onerror = (fault) => fail(fault.message || "the thread didn't start");
  worker.postMessage({ number: asked, modules: { step: textOf("step-module"), answers: textOf("answers-module") } });
}

function receive(message) {
  if (message.number !== asked) return;
  if (message.failed) fail(message.failed);
  else if (!message.ready) show(message);
  else beReady();
}

function beReady() {
  isReady = true;
  rest("Ready.");
  if (waiting) send(waiting);
}

function rest(words) {
  clearInterval(clock);
  found("start").disabled = !isReady;
  found("stop").disabled = true;
  for (const button of found("play").querySelectorAll("button")) button.disabled = false;
  say(words);
}

/** There is no answer: the thread ended, or has run out of memory. Nothing is shown as confirmed or refused. */
function fail(why) {
  if (!isReady) {
    rest(`This browser can't do it: it has to know WebAssembly with 64-bit memories. It says: ${why}`);
    return;
  }
  stop();
  shown = { failed: why };
  found("answers").replaceChildren(layFailure("No answer", `The work was broken off: ${why}. Nothing is confirmed or refused by this.`));
}

function stop() {
  worker.terminate();
  rest("Stopped.");
  startWorker();
}

function isAtWork() {
  return !found("stop").disabled;
}

/** Sends a task to the thread, or keeps it until there is one. */
function send(task) {
  waiting = isReady ? null : task;
  if (waiting || isAtWork()) return;
  asked += 1;
  found("start").disabled = true;
  found("stop").disabled = false;
  for (const button of found("play").querySelectorAll("button")) button.disabled = true;
  const began = performance.now(), { length } = task.bytes;
  const showTime = () => say(`Working on ${withCommas(length)} bytes for ${((performance.now() - began) / 1000).toFixed(1)} s.`);
  showTime();
  clock = setInterval(showTime, 200);
  worker.postMessage({ number: asked, ...task });
}

/** The stake that is said, or null if none is; undefined if it is no stake. */
function stakeAsked() {
  const words = found("stake").value.trim(), stake = Number(words);
  if (words === "") return null;
  return /^[0-9]+$/.test(words) && stake <= MOST_STAKE ? stake : undefined;
}

function begin() {
  if (isAtWork()) return;
  const kind = kindAsked(), { bytes } = boxes.text, stake = kind === "audit" ? stakeAsked() : null;
  if (stake === undefined) {
    say("The stake is a whole number from 0 to 1,000,000,000.");
    found("stake").focus();
    return;
  }
  clear();
  if (kind === "play") {
    newGame(bytes);
    send(playTask(null));
    return;
  }
  send({ kind, bytes, stake, json: kind === "audit" && !boxes.case.isEmpty ? boxes.case.bytes : null });
}

// Taking a text.

/** Chooses what to do, and shows what belongs to it. */
function choose(kind) {
  document.querySelector(`input[name=kind][value=${kind}]`).checked = true;
  found("text-label").textContent = LABELS[kind];
  for (const element of document.querySelectorAll("[data-for]")) element.hidden = element.dataset.for !== kind;
  found("text").setAttribute("aria-describedby", `hint-${kind}`);
}

/** Chooses what to do; a match is played of the first program unless there is a text. */
function chooseByHand(kind) {
  choose(kind);
  if (kind !== "play" || !boxes.text.isEmpty) return;
  found("program").selectedIndex = 1;
  takeProgram();
}

/** Chooses what is done with a text that begins so, if that can be seen: a case may be run or played. */
function chooseFor(start) {
  const kind = kindOf(start);
  if (kind !== null && !(kind === "case" && kindAsked() === "play")) choose(kind);
}

/** Puts a text into the box and works on it. */
function take(bytes, name) {
  chooseFor(boxes.text.put(bytes, name));
  if (isAtWork()) stop();
  begin();
}

/** One byte more than may be read shows that there are too many. */
async function bytesOfFile(file) {
  return new Uint8Array(await file.slice(0, MOST_BYTES + 1).arrayBuffer());
}

/** Takes files: a text, a case, or a text and its case in any order; or for the box of the case, if they are dropped there, a case. */
async function takeFiles(files, target = null) {
  if (target === found("case")) {
    boxes.case.put(await bytesOfFile(files[0]), files[0].name);
    return;
  }
  const given = await Promise.all([...files].slice(0, 2).map(async (file) => ({ name: file.name, bytes: await bytesOfFile(file) })));
  const isCase = ({ bytes }) => kindOf(new TextDecoder("latin1").decode(bytes.subarray(0, SHOWN_OF_START))) === "case";
  const text = given.find((file) => !isCase(file)) ?? given[0], other = given.find((file) => file !== text);
  if (other) boxes.case.put(other.bytes, other.name);
  take(text.bytes, text.name);
}

function takeExample(name) {
  const encoder = new TextEncoder();
  if (name === "audit") boxes.case.put(encoder.encode(examples.case), "Example");
  take(encoder.encode(examples[name]), "Example");
}

/** Puts the case of a program of the list into the box. */
function takeProgram() {
  const program = examples.programs[found("program").selectedIndex - 1];
  if (program) boxes.text.put(new TextEncoder().encode(program.json), program.name);
}

// Laying out.

function clear() {
  links.forEach((link) => URL.revokeObjectURL(link));
  links = [];
  shown = null;
  found("answers").replaceChildren();
  hideMatch();
  hidePlay();
}

function linkOf(file) {
  links.push(URL.createObjectURL(file));
  return links[links.length - 1];
}

function nameOf({ command }, at, areTasks) {
  return areTasks ? `${NAMES[command]} of task ${at + 1}` : NAMES[command];
}

function wordsOfTime(answers, given) {
  const total = answers.reduce((sum, { milliseconds }) => sum + milliseconds, given?.milliseconds ?? 0);
  const ofMatch = given ? `, of which the picture and ${given.proofs} rulings took ${timeOf(given.milliseconds)}` : "";
  return `Done in ${timeOf(total)}${ofMatch}.`;
}

function show(message) {
  const { answers, areTasks, wrong, play, match: given } = message;
  const laid = answers.map((answer, at) => layAnswer(nameOf(answer, at, areTasks), answer, linkOf));
  shown = message;
  found("answers").replaceChildren(...(wrong ? [layFailure("No answer", wrong)] : laid));
  rest(wordsOfTime(answers, given));
  closeDetails();
  if (given) layMatch(given, linkOf);
  if (play) layPlay(play, given, linkOf);
  else found("answers").scrollIntoView({ block: "nearest" });
}

// Events.

/** Goes on with the match that is played, unless the thread is at work. */
function goOn(next, toEnd = false) {
  if (game && !isAtWork()) send(playTask(next, toEnd));
}

found("form").addEventListener("submit", (event) => {
  event.preventDefault();
  begin();
});
found("stop").addEventListener("click", stop);
found("text").addEventListener("input", () => chooseFor(found("text").value.slice(0, SHOWN_OF_START)));
for (const id of ["text", "case"]) {
  found(id).addEventListener("keydown", (event) => {
    if (event.key === "Enter" && (event.ctrlKey || event.metaKey)) begin();
  });
}
for (const input of document.querySelectorAll("input[name=kind]")) input.addEventListener("change", () => chooseByHand(input.value));
found("file").addEventListener("change", async () => {
  if (found("file").files.length > 0) await takeFiles(found("file").files);
  found("file").value = "";
});
for (const button of document.querySelectorAll("[data-example]")) {
  button.addEventListener("click", () => takeExample(button.dataset.example));
}
found("program").addEventListener("change", takeProgram);
found("turn").addEventListener("submit", (event) => {
  event.preventDefault();
  const digits = digitsToSend();
  if (digits !== null) goOn(digits);
});
found("choice").addEventListener("change", showChoice);
found("from").addEventListener("change", () => goOn(null));
found("to-end").addEventListener("click", () => goOn(null, true));
found("back").addEventListener("click", () => {
  game.posts = postsBefore(game.posts);
  goOn(null);
});
document.addEventListener("dragover", (event) => {
  event.preventDefault();
  document.body.classList.add("dropping");
});
document.addEventListener("dragleave", (event) => {
  if (!event.relatedTarget) document.body.classList.remove("dropping");
});
document.addEventListener("drop", async (event) => {
  event.preventDefault();
  document.body.classList.remove("dropping");
  const { files } = event.dataTransfer, words = event.dataTransfer.getData("text");
  if (files.length > 0) await takeFiles(files, event.target);
  else if (words && event.target !== found("case")) take(new TextEncoder().encode(words), "Dropped text");
});

found("program").append(made("option", {}, "the case below"), ...examples.programs.map(({ name }) => made("option", {}, name)));
choose("audit");
startWorker();
