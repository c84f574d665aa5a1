// A match to play. Prover 1 is whoever plays; prover 2 answers what the library answers truly. The page keeps the posts; what is asked,
// what comes of a post, the verdict and the full text are the library's answers for the log of these posts. Nothing of the game is worked
// out here.
"use strict";

const PLAYER = 1, HONEST = 2;
const TAKEN = 1, FAULTY = 2, SPENT = 3;
const WORD_OF_REPLY = { [TAKEN]: "given", [FAULTY]: "faulty", [SPENT]: "spent" };
const ENTRY_BYTES = 16;

/** An entry of a log. Without bytes it is a pass. */
function entryOf({ prover, dispute, round }, wire) {
  const bytes = new Uint8Array(ENTRY_BYTES + wire.length), view = new DataView(bytes.buffer);
  [prover, dispute, round, wire.length].forEach((number, at) => view.setUint32(4 * at, number, true));
  bytes.set(wire, ENTRY_BYTES);
  return bytes;
}

function logOf(posts) {
  const entries = posts.map((post) => entryOf(post, bytesOfDigits(post.digits)));
  const log = new Uint8Array(entries.reduce((sum, { length }) => sum + length, 0));
  let at = 0;
  for (const entry of entries) {
    log.set(entry, at);
    at += entry.length;
  }
  return log;
}

/** A match of two in which a case's program is disputed. `posts` are those so far, each with the library's reply. */
class Played {
  constructor(library, json, numbers, posts) {
    Object.assign(this, { library, json, numbers, posts: [...posts] });
    this.look();
  }

  /** Asks the library what the match has come to. */
  look() {
    Object.assign(this, this.library.match(this.numbers, logOf(this.posts)));
  }

  questionTo(prover) {
    return this.asked.find((question) => question.prover === prover);
  }

  /** Appends a post to the log, unless it makes it none: the library says why. */
  post({ prover, dispute, round }, digits) {
    const post = { prover, dispute, round, digits };
    const { status, found, asked } = this.library.match(this.numbers, logOf([...this.posts, post]));
    if (status === BAD_LOG) return { cause: found.cause, rule: found.rule };
    this.posts.push({ ...post, reply: found.reply });
    Object.assign(this, { status, found, asked });
    return null;
  }

  /** A prover is late: a pass in its name for each that is allowed, and one more. */
  fallSilent(question) {
    for (let passes = question.passes; passes <= this.numbers.patience; passes += 1) this.post(question, "");
  }

  truthFor(question) {
    const { status, text } = this.library.trueAnswer(this.json, question);
    if (status === OUT_OF_MEMORY) throw new NoMemory("out of memory");
    return digitsOfBytes(text);
  }

  /** The full text of the match, which is over. */
  text() {
    const { status, text } = this.library.matchText(this.numbers, logOf(this.posts));
    if (status === OUT_OF_MEMORY) throw new NoMemory("out of memory");
    return text;
  }

  /** Prover 2 answers what it is asked, or falls silent. */
  letHonestAnswer(isSilent) {
    const question = this.questionTo(HONEST);
    if (!question) return;
    if (isSilent) this.fallSilent(question);
    else this.post(question, this.truthFor(question));
  }

  /** The match so far, for the picture: the answers that settled a question. */
  shown() {
    const settled = this.posts.filter(({ reply, digits }) => reply === SPENT || (digits !== "" && WORD_OF_REPLY[reply]));
    const moves = settled.map((post) => ({ ...post, word: WORD_OF_REPLY[post.reply], wire: post.digits, line: 0 }));
    const match = matchOf({ ...this.numbers, digest: "sha256" }, moves, "still open"), question = this.asked[0];
    if (question?.dispute > 0 && match.disputes.length < question.dispute) addDispute(match, question.dispute, [PLAYER, HONEST], []);
    return match;
  }
}

/**
 * The case as the program of a match of two, with another version or fan if they are wished: its bytes and its numbers. `wrong` is what the
 * library says against it, or null.
 */
function settingOf(library, bytes, wishes) {
  const found = casesOf(library, bytes);
  if (found.wrong || found.areTasks) return { wrong: found.wrong ?? ARE_TASKS };
  const given = { version: 1, fan: 2, ...found.cases[0].tree };
  const tree = { ...given, version: wishes.version ?? given.version, fan: wishes.fan ?? given.fan, provers: [{}, {}] };
  const json = new TextEncoder().encode(JSON.stringify(tree)), own = casesOf(library, json);
  if (own.wrong) return { wrong: own.wrong };
  const { version, fan, patience, bound } = tree;
  return { wrong: null, json, numbers: { version, provers: 2, fan, patience, bound, start: own.cases[0].start } };
}

/**
 * Goes on with a match. `next` is what prover 1 answers, as digits, or null to look only; with `toEnd` it answers as the liar does until
 * the match is over. What comes back says who is asked, what may be answered, and in `refused` why the bytes of an answer are none.
 */
function playedOn(library, { bytes, wishes, posts, next, toEnd, isSilent }) {
  const setting = settingOf(library, bytes, wishes);
  if (setting.wrong) return { wrong: setting.wrong };
  const game = new Played(library, setting.json, setting.numbers, posts);
  const from = Math.min(Math.max(1, wishes.from ?? Math.ceil(setting.numbers.bound / 3)), setting.numbers.bound);
  let refused = null;
  const answer = (question, digits) => {
    if (digits === "") game.fallSilent(question);
    else refused = game.post(question, digits);
    if (!refused) game.letHonestAnswer(isSilent);
  };
  if (next !== null && game.questionTo(PLAYER)) answer(game.questionTo(PLAYER), next);
  for (let question = game.questionTo(PLAYER); toEnd && !refused && question; question = game.questionTo(PLAYER)) {
    answer(question, choicesFor(question, game.truthFor(question), from)[0].digits);
  }
  const question = game.questionTo(PLAYER) ?? null;
  const choices = question ? choicesFor(question, game.truthFor(question), from) : [];
  const isOver = game.status !== STILL_OPEN;
  return { game, from, refused, question, choices, isOver, text: isOver ? game.text() : null };
}
