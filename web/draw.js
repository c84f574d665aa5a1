// Draws a match as tools/draw_match draws its report, by the same rules and with the same bytes (docs/GAME.md, 'A match, drawn').
//
// `drawMatches` gives the text of an SVG picture and, for each round, where its row stands, so that a page can let it be chosen.
"use strict";

// Pixels.
const ROW = 22, MARGIN = 28, BAR_WIDTH = 320, BAR_HEIGHT = 8;
const CHARACTER = 8, BOLD_CHARACTER = 10, SMALL = 11, SMALL_CHARACTER = 7, LANES_WIDTH = 480;
// The scale changes where an interval is so many times shorter than it.
const ZOOM = 8;
// Of an output so many bytes are shown.
const SHOWN_BYTES = 16;
// Lines of claims; more than these are taken from the circle of hues.
const COLOURS = ["#0072b2", "#d55e00", "#009e73", "#cc79a7", "#7a5195", "#56718a", "#a6761d"];
const ONE_TEXT = "one text may stand for several states: only a dispute shows them";
const GREY = "#8a8f98", DARK = "#23272e", LIGHT = "#d9dee6", CROSS = "#c1121f", SAME = "#2a7f3f", DIFFER = "#c1121f", WHITE = "#ffffff";

/** A number with a comma before each three digits. */
function withCommas(number) {
  return String(number).replace(/\B(?=(\d{3})+$)/g, ",");
}

function escaped(text) {
  return text.replace(/&/g, "&amp;").replace(/</g, "&lt;").replace(/>/g, "&gt;");
}

/** Rounded to the nearest whole number, and between two of them to the even one. */
function rounded(value) {
  const below = Math.floor(value);
  if (value - below !== 0.5) return Math.round(value);
  return below % 2 === 0 ? below : below + 1;
}

/** A claim or a verdict, without most of a long output or a string. */
function short(text) {
  return text.replace(/[0-9a-f]{8,}/g, (digits) => {
    if (digits.length <= 2 * SHOWN_BYTES) return digits;
    return `${digits.slice(0, 2 * SHOWN_BYTES)}.. (${withCommas(Math.floor(digits.length / 2))} bytes)`;
  });
}

/** A part of the colour of a hue, from 0 to 1: `from` and `to` are the least and the most, and hues are from 0 to 1. */
function partOfHue(from, to, hue) {
  const at = ((hue % 1) + 1) % 1;
  if (at < 1 / 6) return from + (to - from) * at * 6;
  if (at < 0.5) return to;
  return at < 2 / 3 ? from + (to - from) * (2 / 3 - at) * 6 : from;
}

/** The red, green and blue of a claim's line, each from 0 to 255. */
function colourOf(number, count) {
  if (count <= COLOURS.length) return [1, 3, 5].map((at) => parseInt(COLOURS[number].slice(at, at + 2), 16));
  const lightness = 0.38, to = lightness * (1 + 0.7), from = 2 * lightness - to, hue = number / count;
  return [hue + 1 / 3, hue, hue - 1 / 3].map((part) => rounded(255 * partOfHue(from, to, part)));
}

/** The colour of a claim, as it is written; a lighter one for each further shade. */
function shaded(colour, shade) {
  const left = 0.65 ** shade;
  return `#${colour.map((part) => rounded(255 - left * (255 - part)).toString(16).padStart(2, "0")).join("")}`;
}

/**
 * The state of each claim, by prover: its text and a shade, the least that no other prover of this text has with whom it had a dispute.
 *
 * Two that had one claim different states. A report doesn't say whether two claim one state that never met, but for those that are live
 * when a claim is accepted, which all do: they have the shade 0.
 */
function statesOf(match) {
  const areRivals = (one, other) => match.disputes.some(({ sides }) => sides.includes(one) && sides.includes(other));
  const out = match.disputes.flatMap(outOf), areAgreed = match.verdict.startsWith("accept");
  const states = new Map([...match.claims].map(([prover, { words }]) => [prover, { words, shade: areAgreed && !out.includes(prover) ? 0 : null }]));
  for (const [prover, state] of states) {
    if (state.shade !== null) continue;
    const taken = [...states].filter(([other, { words }]) => words === state.words && areRivals(prover, other)).map(([, { shade }]) => shade);
    state.shade = 0;
    while (taken.includes(state.shade)) state.shade += 1;
  }
  return states;
}

/** Whether two claims have one colour, of which nothing shows that they are of one state. */
function areStatesOpen(match, states) {
  const out = match.disputes.flatMap(outOf), provers = [...match.claims.keys()];
  const agreed = match.verdict.startsWith("accept") ? provers.filter((prover) => !out.includes(prover)) : [];
  const apart = [...provers.filter((prover) => !agreed.includes(prover)), ...agreed.slice(0, 1)];
  return new Set(apart.map((prover) => `${states.get(prover).shade} ${states.get(prover).words}`)).size < apart.length;
}

/** What a round of a match is shown as: its name and what came of it. */
function wordsOfRound(match, dispute, round) {
  const sides = dispute.sides.map((side, at) => `p${side} ${wordOf(round, round.answers[at])}`).join(", ");
  if (round.isStep) return `step ${withCommas(round.low)}: ${sides}`;
  const isHalved = match.fan === 2;
  const where = isHalved ? `at ${withCommas(round.cuts[0])}` : `by ${round.cuts.length + 1}`;
  const found = !round.kept ? sides : !isHalved ? `part ${round.part} is kept` : round.part === 2 ? "same" : "differ";
  return `round ${round.number} [${withCommas(round.low)}, ${withCommas(round.high)}] ${where}: ${found}`;
}

/** What the round is shown as that is asked for. */
function wordsOfOpen({ rounds, open: { low, high } }) {
  if (high - low === 1) return `step ${withCommas(low)}: both are asked for its proof`;
  return `round ${rounds.length + 1} [${withCommas(low)}, ${withCommas(high)}]: both are asked`;
}

function headOf(match) {
  let head = `${match.provers} prover${match.provers > 1 ? "s" : ""}, bound ${withCommas(match.bound)}, patience ${match.patience}`;
  for (const [name, usual] of [["version", 1], ["fan", 2], ["digest", "sha256"]]) if (match[name] !== usual) head += `, ${name} ${match[name]}`;
  return head;
}

/** Shapes, laid out from the top down: lanes on the left, bars in the middle, words on the right. The title stands above. */
class Picture {
  constructor(match, title, stake) {
    Object.assign(this, { match, title, stake, shapes: [], rows: [], borders: [], y: MARGIN, scale: [0, match.bound] });
    this.space = Math.min(64, Math.floor(LANES_WIDTH / Math.max(1, match.provers - 1)));
    this.provers = Array.from({ length: match.provers }, (_, at) => at + 1);
    this.lane = new Map(this.provers.map((prover) => [prover, MARGIN + 8 + this.space * (prover - 1)]));
    this.bars = this.lane.get(match.provers) + MARGIN + 16;
    this.words = this.bars + BAR_WIDTH + 16;
    this.width = this.words;
    this.states = statesOf(match);
    const claims = [...new Set([...match.claims.values()].map(({ words }) => words))];
    this.colours = new Map();
    for (const [prover, { words, shade }] of this.states) {
      this.colours.set(prover, shaded(colourOf(claims.indexOf(words), claims.length), shade));
    }
  }

  add(kind, attributes, content) {
    const words = Object.entries(attributes).map(([name, value]) => ` ${name.replace(/_/g, "-")}="${value}"`).join("");
    this.shapes.push(content === undefined ? `<${kind}${words}/>` : `<${kind}${words}>${escaped(content)}</${kind}>`);
  }

  text(x, content, attributes = {}) {
    const each = "font_weight" in attributes ? BOLD_CHARACTER : CHARACTER;
    this.width = Math.max(this.width, x + each * content.length);
    this.add("text", { x, y: this.y + 5, ...attributes }, content);
  }

  line(x1, y1, x2, y2, stroke, width = 1, attributes = {}) {
    this.add("line", { x1, y1, x2, y2, stroke, stroke_width: width, ...attributes });
  }

  laneColour(prover) {
    return this.colours.get(prover) ?? GREY;
  }

  /** Draws the lines of these provers over so many rows, thicker where they dispute. */
  down(provers, rows, disputing = []) {
    for (const prover of provers) {
      const x = this.lane.get(prover);
      this.line(x, this.y, x, this.y + ROW * rows, this.laneColour(prover), disputing.includes(prover) ? 5 : 2);
    }
    this.y += ROW * rows;
  }

  cross(prover) {
    const x = this.lane.get(prover), y = this.y;
    this.line(x - 6, y - 6, x + 6, y + 6, CROSS, 3);
    this.line(x - 6, y + 6, x + 6, y - 6, CROSS, 3);
  }

  /** Lays all out. */
  draw() {
    this.text(MARGIN, this.title, { font_weight: "bold" });
    this.y += ROW + 6;
    this.drawClaims();
    let live = [...this.match.claims.keys()];
    this.match.stages.forEach((disputes, at) => {
      live = this.drawStage(at + 1, disputes, live);
    });
    this.drawVerdict(live);
    this.width += MARGIN / 2;
    this.height = this.y + MARGIN / 2;
  }

  drawClaims() {
    for (const [prover, x] of this.lane) this.text(x, `p${prover}`, { text_anchor: "middle" });
    this.y += ROW;
    const top = this.y, sides = new Map();
    for (const [prover, state] of this.states) {
      const key = `${state.shade} ${state.words}`;
      if (sides.has(key)) sides.get(key).provers.push(prover);
      else sides.set(key, { ...state, provers: [prover] });
    }
    // Claims in the order of the first prover that has them, and the shades of one in theirs.
    const claims = [...this.states.values()].map(({ words }) => words);
    const lines = [...sides.values()].sort((one, other) => claims.indexOf(one.words) - claims.indexOf(other.words) || one.shade - other.shade);
    for (const { words, shade, provers } of lines) {
      this.add("rect", { x: this.bars, y: this.y - 6, width: 12, height: 12, fill: this.laneColour(provers[0]) });
      const names = provers.map((prover) => `p${prover}`).join(" "), verb = provers.length === 1 ? "claims" : "claim";
      this.text(this.bars + 20, `${names} ${verb} ${short(words)}${shade ? ", of another state than one above" : ""}`);
      this.y += ROW;
    }
    for (const [word, why] of [["faulty", "a faulty claim"], ["spent", "no answer"]]) {
      const names = [...this.match.unclaimed].filter(([, other]) => other === word).map(([prover]) => `p${prover}`);
      if (names.length === 0) continue;
      this.text(this.bars + 20, `${names.join(" ")} out: ${why}`);
      this.y += ROW;
    }
    if (areStatesOpen(this.match, this.states)) {
      this.text(this.bars + 20, ONE_TEXT, { font_size: SMALL });
      this.y += ROW;
    }
    const rows = (this.y - top) / ROW;
    this.y = top;
    for (const prover of this.match.unclaimed.keys()) this.cross(prover);
    this.down([...this.match.claims.keys()], rows);
  }

  drawStage(number, disputes, live) {
    this.borders.push(this.y + ROW / 2);
    this.down(live, 1);
    this.text(this.bars, `stage ${number}`, { font_weight: "bold" });
    this.down(live, 1);
    return disputes.reduce((left, dispute) => this.drawDispute(dispute, left), live);
  }

  drawDispute(dispute, live) {
    const [low, high] = dispute.sides.map((prover) => this.lane.get(prover)), out = outOf(dispute);
    this.line(low, this.y, high, this.y, DARK, 2, { stroke_dasharray: "2 3" });
    for (const prover of dispute.sides) this.add("circle", { cx: this.lane.get(prover), cy: this.y, r: 6, fill: this.laneColour(prover) });
    this.text(this.words, `dispute ${dispute.number}: p${dispute.sides[0]} and p${dispute.sides[1]}`);
    this.setScale(0, this.match.bound);
    this.down(live, 1, dispute.sides);
    const left = live.filter((prover) => !out.includes(prover));
    dispute.rounds.forEach((round, at) => {
      const isLast = at === dispute.rounds.length - 1;
      if (!round.isStep && ZOOM * (round.high - round.low) <= this.scale[1] - this.scale[0]) {
        this.zoom(round.low, round.high);
        this.down(live, 1, dispute.sides);
      }
      this.drawRound(dispute, round);
      const hasEnded = isLast && !dispute.open;
      if (isLast) out.forEach((prover) => this.cross(prover));
      this.down(hasEnded ? left : live, 1, hasEnded ? [] : dispute.sides);
    });
    if (dispute.open) this.drawOpen(dispute, live);
    return left;
  }

  /** The round that is asked for: its interval, on which the sides haven't answered yet. */
  drawOpen(dispute, live) {
    const { low, high } = dispute.open, isStep = high - low === 1;
    if (!isStep && ZOOM * (high - low) <= this.scale[1] - this.scale[0]) {
      this.zoom(low, high);
      this.down(live, 1, dispute.sides);
    }
    this.bar(low, high, isStep ? DARK : GREY);
    this.text(this.words, wordsOfOpen(dispute));
    this.down(live, 1, dispute.sides);
  }

  /** Bars are from now on drawn between these steps. */
  setScale(low, high) {
    this.scale = [low, high];
    this.text(this.bars, withCommas(low), { font_size: SMALL });
    this.text(this.bars + BAR_WIDTH, withCommas(high), { font_size: SMALL, text_anchor: "end" });
  }

  /** From the interval on the old scale, in the row above, to the same on a scale of its own. */
  zoom(low, high) {
    const top = this.y - ROW + BAR_HEIGHT / 2, foot = this.y + ROW - BAR_HEIGHT / 2;
    const points = `${this.at(low)},${top} ${this.at(high)},${top} ${this.bars + BAR_WIDTH},${foot} ${this.bars},${foot}`;
    this.add("polygon", { points, fill: LIGHT, fill_opacity: "0.5" });
    this.setScale(low, high);
  }

  at(step) {
    const [low, high] = this.scale;
    return this.bars + Math.floor((BAR_WIDTH * (step - low)) / (high - low));
  }

  bar(low, high, fill) {
    const start = this.at(low), width = this.at(high) - start;
    this.add("rect", { x: start, y: this.y - BAR_HEIGHT / 2, width, height: BAR_HEIGHT, rx: 2, fill });
  }

  drawRound(dispute, round) {
    this.rows.push({ y: this.y - ROW / 2, height: ROW, dispute, round });
    this.bar(round.low, round.high, round.isStep ? DARK : LIGHT);
    if (round.kept) this.bar(round.kept[0], round.kept[1], GREY);
    for (const cut of round.cuts) {
      // The roots at the cuts up to the part that is kept are the same, and those behind it may differ.
      const mark = !round.kept ? DARK : cut <= round.kept[0] ? SAME : cut === round.kept[1] ? DIFFER : GREY;
      this.line(this.at(cut), this.y - 8, this.at(cut), this.y + 8, mark, 2);
    }
    this.text(this.words, wordsOfRound(this.match, dispute, round));
  }

  drawVerdict(live) {
    this.borders.push(this.y + ROW / 2);
    this.down(live, 1);
    const accepted = this.match.verdict.startsWith("accept") ? live[0] : 0;
    for (const prover of live) {
      const stroke = this.laneColour(prover), fill = prover === accepted ? stroke : WHITE;
      this.add("circle", { cx: this.lane.get(prover), cy: this.y, r: 7, fill, stroke, stroke_width: 2 });
    }
    this.text(this.bars, short(this.match.verdict), { font_weight: "bold" });
    this.y += ROW;
    if (this.stake !== null) this.drawBalances(balancesOf(this.match, this.stake));
  }

  /** Each balance below its line if all of them fit there, else in a table. */
  drawBalances({ of, pool }) {
    const numbers = of.map(withCommas), widest = SMALL_CHARACTER * Math.max(...numbers.map((number) => number.length));
    const fits = widest <= this.space - SMALL_CHARACTER;
    if (fits) numbers.forEach((words, at) => this.text(this.lane.get(at + 1), words, { text_anchor: "middle", font_size: SMALL }));
    this.text(this.bars, `what each has at the end; the pool ${withCommas(pool)}`, { font_size: SMALL });
    this.y += ROW;
    if (fits) return;
    numbers.forEach((words, at) => {
      this.text(this.bars, `p${at + 1}`, { font_size: SMALL, fill: this.laneColour(at + 1) });
      this.text(this.bars + 5 * SMALL_CHARACTER + widest, words, { text_anchor: "end", font_size: SMALL });
      this.y += ROW;
    });
  }

  /** The shapes, with a line between stages over this width. */
  drawn(width) {
    for (const y of this.borders) this.line(MARGIN / 2, y, width - MARGIN / 2, y, LIGHT);
    return this.shapes;
  }
}

/**
 * The pictures of matches below one another, as the text of an SVG file, with the size and the rows of the rounds.
 *
 * `matches` are those of the tasks of a text, or one match in a list if `areTasks` is false. Their proofs have been ruled on. The stake is
 * a number, or null if no balances are drawn, one for each match.
 */
function drawMatches(matches, areTasks, stakes) {
  const titles = matches.map((match, at) => (areTasks ? `task ${at + 1}: ` : "") + headOf(match));
  const title = areTasks ? `The matches of ${matches.length} task${matches.length > 1 ? "s" : ""}` : `A match of ${titles[0]}`;
  const pictures = matches.map((match, at) => new Picture(match, titles[at], stakes[at]));
  pictures.forEach((picture) => picture.draw());
  const width = Math.max(...pictures.map((picture) => picture.width));
  const shapes = [], rows = [];
  let top = 0;
  pictures.forEach((picture, at) => {
    const own = picture.drawn(width);
    shapes.push(...(top ? [`<g transform="translate(0 ${top})">`, ...own, "</g>"] : own));
    picture.rows.forEach((row) => rows.push({ ...row, y: row.y + top, match: at }));
    top += picture.height;
  });
  const report = matches.flatMap((match, at) => reportOf(match, stakes[at]).map(({ words }) => short(words))).join("\n");
  const text = [
    `<svg xmlns="http://www.w3.org/2000/svg" width="${width}" height="${top}" viewBox="0 0 ${width} ${top}"` +
      ' role="img" font-family="DejaVu Sans, Verdana, sans-serif" font-size="13">',
    `<title>${escaped(title)}</title>`,
    `<desc>${escaped(report)}</desc>`,
    `<rect width="${width}" height="${top}" fill="${WHITE}"/>`,
    `<g fill="${DARK}">`,
    ...shapes,
    "</g>",
    "</svg>",
    "",
  ].join("\n");
  return { text, width, height: top, rows };
}
