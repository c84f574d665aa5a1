// Reads a full text as a match: its claims, disputes, rounds and proofs, and the lines of its report.
//
// Only a text that the audit has confirmed is read, or answers that the library has taken (docs/TEXTS.md, docs/GAME.md), so that no form
// is tested here. Whether a proof of a step is proved isn't decided here either: `textOfOneProof` makes the full text of a small match that
// comes to an accepted claim if and only if it is, and the caller has that audited. Numbers are below 2^53, except for the length of an
// output, which a refuted proof may make up to 2^64. Bytes are kept as the hexadecimal digits of the text.
"use strict";

const STATUS_WORDS = ["running", "exited ", "trapped "];
const PROOF_VERSIONS = { "03": 1, "04": 2, "06": 3 };
const CHUNK_LEVELS = 27, REGISTER_LEVELS = 5, INPUT_LEVELS = 15;
const FETCHED = 1, DATA = 2, INPUT = 4;

/** Hexadecimal digits, read from the first on by numbers of bytes. */
class Digits {
  constructor(digits) {
    this.digits = digits;
    this.at = 0;
  }

  take(bytes) {
    this.at += 2 * bytes;
    return this.digits.slice(this.at - 2 * bytes, this.at);
  }

  /** A number whose least byte is first, below 2^53. */
  number(bytes) {
    return numberOf(this.take(bytes));
  }

  /** A number whose least byte is first, of any width. */
  wideNumber(bytes) {
    return BigInt(`0x${this.take(bytes).match(/../g).reverse().join("")}`);
  }
}

/** The number of these digits, of which those of the least byte stand first. */
function numberOf(digits) {
  let value = 0;
  for (let at = digits.length - 2; at >= 0; at -= 2) value = value * 256 + parseInt(digits.slice(at, at + 2), 16);
  return value;
}

function readControl(source) {
  const digits = source.take(49), fields = new Digits(digits);
  const [pc, status, code] = [4, 1, 4].map((bytes) => fields.number(bytes));
  return { digits, pc, status, code, length: fields.wideNumber(8), chain: fields.take(32) };
}

function readClaim(wire) {
  const source = new Digits(wire);
  source.take(1);
  const claim = { memory: source.take(32), registers: source.take(32), control: readControl(source) };
  claim.output = source.take(source.number(8));
  const code = claim.control.status === 0 ? "" : claim.control.code;
  claim.words = `${STATUS_WORDS[claim.control.status]}${code} output${claim.output && " "}${claim.output}`;
  return claim;
}

/** The roots of an answer to a round, one or several. */
function readRoots(wire) {
  const source = new Digits(wire);
  const count = source.number(1) === 2 ? 1 : source.number(1);
  return Array.from({ length: count }, () => source.take(32));
}

function readOpening(source, bytes, levels) {
  return { content: source.take(bytes), siblings: Array.from({ length: levels }, () => source.take(32)) };
}

/** What a proof of a step shows, or null if the answer is no such proof. */
function readProof(wire) {
  const source = new Digits(wire), version = PROOF_VERSIONS[source.take(1)];
  if (!version) return null;
  const proof = { version, memory: source.take(32) };
  if (version === 3) {
    proof.inputLength = source.number(4);
    proof.inputRoot = source.take(32);
  }
  if (version === 1) proof.shown = Array.from({ length: 32 }, (_, register) => (register === 0 ? 0 : source.number(4)));
  else proof.registers = source.take(32);
  proof.control = readControl(source);
  const flags = source.number(1), count = version === 1 ? 0 : source.number(1);
  if (flags & FETCHED) proof.fetched = readOpening(source, 32, CHUNK_LEVELS);
  proof.opened = Array.from({ length: count }, () => readOpening(source, 4, REGISTER_LEVELS));
  if (flags & DATA) proof.data = readOpening(source, 32, CHUNK_LEVELS);
  if (flags & INPUT) proof.input = readOpening(source, 32, INPUT_LEVELS);
  if (proof.fetched) proof.word = numberOf(proof.fetched.content.slice(2 * (proof.control.pc % 32)).slice(0, 8));
  return proof;
}

/** The ends of the parts into which a round cuts an interval. */
function cutsOf(low, high, fan) {
  const parts = Math.min(fan, high - low);
  return Array.from({ length: parts + 1 }, (_, part) => low + Math.floor((part * (high - low)) / parts));
}

/** Which part is kept, from 0, of the roots that two sides gave at the cuts between: the first at whose end they differ, else the last. */
function keptPart(first, second) {
  const part = first.findIndex((root, at) => root !== second[at]);
  return part < 0 ? first.length : part;
}

function readHead(line) {
  const words = line.split(" "), field = (name) => words[words.indexOf(name) + 1];
  const head = { digest: field("digest"), start: field("start") };
  for (const name of ["provers", "bound", "patience", "version", "fan"]) head[name] = Number(field(name));
  return head;
}

/** The numbers of a match, as its head has them. */
function numbersOf({ provers, bound, patience, version, fan, digest }) {
  return `provers ${provers} bound ${bound} patience ${patience} version ${version} fan ${fan} digest ${digest}`;
}

/** A line `move D R pI ..`: its number in the text, and the answer's digits, none if it is spent. */
function readMove(line, number) {
  const [, dispute, round, prover, word, wire = ""] = line.split(" ");
  return { line: number, dispute: Number(dispute), round: Number(round), prover: Number(prover.slice(1)), word, wire };
}

/** The match of a confirmed full text, `text` a string. */
function readMatch(text) {
  const lines = text.split("\n");
  lines.pop();
  return matchOf(readHead(lines[0]), lines.slice(1, -1).map((line, at) => readMove(line, at + 2)), lines[lines.length - 1]);
}

/**
 * The match of a head, of its moves in the order of a full text, and of a verdict. It may be unfinished: then the moves are those of whole
 * rounds.
 *
 * `claims` and `unclaimed` are by prover; `stages` are lists of disputes; a dispute has its two sides in `sides`, its rounds, and in `open`
 * what its next round cuts or shows, or null where it has ended. A round has the interval `low` to `high`, the root `agreed` at its low end
 * and each side's `own` root at its high end (null where that is the claim's, which `claimRoot` makes), the `cuts` between, both `answers`,
 * and `kept`, the interval that is left, or null where the dispute ends. The proofs of a step are the round with `isStep`.
 */
function matchOf(head, moves, verdict) {
  const match = { ...head, verdict, claims: new Map(), unclaimed: new Map(), stages: [], disputes: [] };
  const isOfClaims = ({ dispute }) => dispute === 0, left = moves.filter((move) => !isOfClaims(move));
  for (const move of moves.filter(isOfClaims)) {
    if (move.word === "given") match.claims.set(move.prover, { ...readClaim(move.wire), wire: move.wire, line: move.line });
    else match.unclaimed.set(move.prover, move.word);
  }
  for (let at = 0; at < left.length; ) {
    const from = at;
    while (at < left.length && left[at].dispute === left[from].dispute) at += 1;
    addDispute(match, left[from].dispute, [left[from].prover, left[from + 1].prover], left.slice(from, at));
  }
  return match;
}

/** Adds a dispute. Its stage is the last one unless one of its sides has a dispute there: two left over in a stage have one root. */
function addDispute(match, number, sides, moves) {
  const dispute = { number, sides, rounds: [], open: { low: 0, high: match.bound, agreed: match.start, own: [null, null] } };
  const last = match.stages[match.stages.length - 1];
  if (!last || last.some((other) => other.sides.some((side) => sides.includes(side)))) match.stages.push([dispute]);
  else last.push(dispute);
  match.disputes.push(dispute);
  for (let at = 0; at < moves.length; at += 2) {
    const round = roundOf(match, dispute, moves.slice(at, at + 2));
    dispute.rounds.push(round);
    dispute.open = afterRound(round);
  }
}

/** The next round of a dispute, with both answers. */
function roundOf(match, dispute, answers) {
  const { low, high } = dispute.open, isStep = high - low === 1;
  const round = { ...dispute.open, number: dispute.rounds.length + 1, isStep, cuts: [], answers, kept: null };
  if (isStep) {
    for (const answer of answers) answer.proof = answer.word === "given" ? readProof(answer.wire) : null;
    return round;
  }
  const ends = cutsOf(low, high, match.fan);
  round.cuts = ends.slice(1, -1);
  for (const answer of answers) answer.roots = answer.word === "given" ? readRoots(answer.wire) : null;
  if (answers.some((answer) => answer.word !== "given")) return round;
  const part = keptPart(answers[0].roots, answers[1].roots);
  return { ...round, part: part + 1, kept: [ends[part], ends[part + 1]] };
}

/** What is left after a round for the next one, or null where the dispute ends. */
function afterRound(round) {
  if (!round.kept) return null;
  const [low, high] = round.kept, at = round.part - 1, roots = round.answers.map((answer) => answer.roots);
  const agreed = at > 0 ? roots[0][at - 1] : round.agreed, own = at < round.cuts.length ? roots.map((list) => list[at]) : round.own;
  return { low, high, agreed, own };
}

/**
 * The full text of a match of two, the sides of this dispute, in which one of them gives all its answers and the other doesn't prove its
 * step: the claim of that side is accepted if and only if its proof is proved.
 */
function textOfOneProof(match, dispute, side) {
  const lines = [`refereed ${numbersOf({ ...match, provers: 2 })} start ${match.start}`];
  const wires = dispute.sides.map((prover) => match.claims.get(prover).wire);
  wires.forEach((wire, at) => lines.push(`move 0 0 p${at + 1} given ${wire}`));
  for (const round of dispute.rounds) {
    round.answers.forEach((answer, at) => {
      const isLeftOut = round.isStep && at !== side;
      lines.push(`move 1 ${round.number} p${at + 1} ${isLeftOut ? "spent" : `${answer.word} ${answer.wire}`}`);
    });
  }
  lines.push(`accept ${match.claims.get(dispute.sides[side]).words}`, "");
  return lines.join("\n");
}

/** What the report says of an answer to the last round of a dispute. */
function wordOf(round, answer) {
  if (!round.isStep || answer.word !== "given") return answer.word;
  return answer.isProved ? "proved" : "refuted";
}

/** The sides of a dispute that are out at its end. */
function outOf(dispute) {
  const last = dispute.rounds[dispute.rounds.length - 1];
  if (!last) return [];
  const stays = last.isStep ? "proved" : "given";
  return dispute.sides.filter((_, at) => wordOf(last, last.answers[at]) !== stays);
}

/** What each prover has at the end, and the pool, if each puts down the stake. */
function balancesOf(match, stake) {
  const out = new Set(match.unclaimed.keys()), won = new Array(match.provers + 1).fill(0);
  let pooled = out.size;
  for (const dispute of match.disputes) {
    const losers = outOf(dispute);
    for (const loser of losers) out.add(loser);
    if (losers.length === 2) pooled += 2;
    if (losers.length === 1) won[dispute.sides.find((side) => side !== losers[0])] += 1;
  }
  const provers = Array.from({ length: match.provers }, (_, at) => at + 1);
  return { of: provers.map((prover) => stake * (won[prover] + (out.has(prover) ? 0 : 1))), pool: stake * pooled };
}

/** The line of a round in the report. */
function lineOfRound(match, dispute, round) {
  const sides = dispute.sides.map((side, at) => `p${side} ${wordOf(round, round.answers[at])}`).join(" ");
  if (round.isStep) return `step ${round.low} ${sides}`;
  const isHalved = match.fan === 2, parts = round.cuts.length + 1;
  const where = isHalved ? `at ${round.cuts[0]}` : `in ${round.low} ${round.high} by ${parts}`;
  const found = !round.kept ? sides : !isHalved ? `keep ${round.part}` : round.part === 2 ? "same" : "differ";
  return `round ${round.number} ${where} ${found}`;
}

/**
 * The lines of the report of a match whose proofs have been ruled on, each with the dispute and the round that it is about, if it is about
 * one. With a stake, which a full text doesn't state, the balances are among them; without one it is null.
 */
function reportOf(match, stake) {
  const lines = [];
  const add = (words, dispute, round) => lines.push({ words, dispute, round });
  add(`match ${numbersOf(match)}`);
  for (let prover = 1; prover <= match.provers; prover += 1) {
    const claim = match.claims.get(prover);
    add(claim ? `p${prover} claims ${claim.words}` : `out p${prover} ${match.unclaimed.get(prover)}`);
  }
  match.stages.forEach((disputes, at) => {
    add(`stage ${at + 1}`);
    for (const dispute of disputes) {
      add(`dispute ${dispute.number} p${dispute.sides[0]} p${dispute.sides[1]}`);
      for (const round of dispute.rounds) add(lineOfRound(match, dispute, round), dispute, round);
    }
  });
  if (stake !== null) {
    const { of, pool } = balancesOf(match, stake);
    of.forEach((balance, at) => add(`balance p${at + 1} ${balance}`));
    add(`pool ${pool}`);
  }
  add(match.verdict);
  return lines;
}
