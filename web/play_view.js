// The match that is played: the page keeps its posts, as a host keeps its log, and sends them with each answer of prover 1 to the thread.
"use strict";

const PLAYER = 1;
const REPLIES = { 0: "no reply", 1: "taken", 2: "faulty", 3: "spent", 4: "stale" };
const RULES = { 1: "too short", 2: "bad tag", 3: "bad status", 4: "trailing bytes", 5: "bad length" };
const ENDINGS = { 10: "Nobody is left.", 11: "Two different strings with one digest were shown." };

// The match that is played: its case, what is wished of it, its posts and what may be answered; or null.
let game = null;

/** What a question asks for, in words. */
function wordsOfQuestion({ dispute, round, kind, low, high, parts }) {
  if (kind === 1) return "What does the program come to? You are asked for your claim.";
  const where = `Dispute ${dispute}, round ${round}: you are asked for`;
  if (kind === 3) return `${where} the proof of step ${withCommas(low)}, by which you and prover 2 part.`;
  if (kind === 2) return `${where} the root of your state after step ${withCommas(low)}.`;
  return `${where} your roots at the cuts of steps ${withCommas(low)} to ${withCommas(high)} in ${parts} parts.`;
}

/** How a match stands, in words. */
function wordsOfState({ status, accepted, isTrue, isOver }) {
  if (!isOver) return "Both provers are asked. The interval in the picture is where your runs part.";
  if (accepted && !isTrue) return `It is over: the claim of prover ${accepted} is accepted, and it is false. Nobody answered truly in time.`;
  if (accepted === PLAYER) return "It is over: your claim is accepted, and it is true.";
  if (accepted) return `It is over: the claim of prover ${accepted} is accepted, and you are out.`;
  return `It is over. ${ENDINGS[status] ?? `Its status is ${status}.`}`;
}

function layPost({ prover, dispute, round, digits, reply }) {
  const what = dispute === 0 ? "claim" : `dispute ${dispute}, round ${round}`;
  const said = made("span", { class: `mark ${REPLIES[reply]}` }, REPLIES[reply] ?? String(reply));
  return made("li", {}, `p${prover}, ${what}: ${digits ? cutDigits(digits) : "a pass"} `, said);
}

/** Puts the chosen answer's bytes into their box; none for silence. */
function showChoice() {
  const { digits } = game.choices[found("choice").selectedIndex];
  found("digits").value = digits;
  found("digits").disabled = digits === "";
}

function layTurn({ question, choices, from }) {
  found("turn").hidden = question === null;
  if (question === null) return;
  found("asked").textContent = wordsOfQuestion(question);
  found("choice").replaceChildren(...choices.map(({ name }) => made("option", {}, name)));
  found("from").value = from;
  showChoice();
}

function wordsOfRefused({ rule }) {
  return `These bytes are the wire form of no answer, by rule ${rule} (${RULES[rule] ?? "another"}): no move and no pass.`;
}

/** Shows a match that is played, and in its details the step if it is over. */
function layPlay(play, match, linkOf) {
  Object.assign(game, { posts: play.posts, choices: play.choices, wishes: { ...game.wishes, from: play.from } });
  found("play").hidden = false;
  found("match").classList.add("of-play");
  const why = play.refused && wordsOfRefused(play.refused);
  found("play-state").textContent = why ?? wordsOfState(play);
  found("play-state").className = `note ${why || (play.isOver && !(play.isTrue && play.accepted === PLAYER)) ? "bad" : "plain"}`;
  layTurn(play);
  found("posts").replaceChildren(...play.posts.map(layPost));
  found("back").disabled = play.posts.length === 0;
  found("save-text").hidden = !play.text;
  if (play.text) found("save-text").href = linkOf(play.text);
  const last = match.details.length - 1;
  if (play.isOver && last >= 0 && match.details[last].sections.length > 0) openDetails(last);
  (play.isOver ? found("back") : found("choice")).focus({ preventScroll: true });
  found("play").scrollIntoView({ block: "start" });
}

function hidePlay() {
  found("play").hidden = true;
  found("match").classList.remove("of-play");
  game = null;
}

/** The task of going on: `next` is what prover 1 answers, or null to look only. */
function playTask(next, toEnd = false) {
  const from = /^[1-9][0-9]*$/.test(found("from").value) ? Number(found("from").value) : game.wishes.from ?? null;
  const { bytes, posts, wishes } = game;
  return { kind: "play", bytes, posts, wishes: { ...wishes, from }, next, toEnd, isSilent: found("silent").checked };
}

/** Begins a match of a case. */
function newGame(bytes) {
  const numberOf = (id) => (found(id).value ? Number(found(id).value) : null);
  game = { bytes, posts: [], choices: [], wishes: { version: numberOf("version"), fan: numberOf("fan"), from: null } };
  found("from").value = "";
  found("silent").checked = false;
}

/** The digits that are to be sent, or null with a sentence if they are none. */
function digitsToSend() {
  if (found("digits").disabled) return "";
  const digits = found("digits").value.replace(/\s+/g, "").toLowerCase();
  if (digits !== "" && digits.length % 2 === 0 && /^[0-9a-f]*$/.test(digits)) return digits;
  found("play-state").textContent = "Bytes are pairs of hexadecimal digits. To send nothing, fall silent.";
  found("play-state").className = "note bad";
  return null;
}

/** The posts before the last question that prover 1 was asked. */
function postsBefore(posts) {
  const own = posts.filter(({ prover }) => prover === PLAYER), last = own[own.length - 1];
  if (!last) return [];
  const isOfLast = ({ prover, dispute, round }) => prover === PLAYER && dispute === last.dispute && round === last.round;
  return posts.slice(0, posts.findIndex(isOfLast));
}
