// How answers, facts and tables are laid out. Texts become text nodes, never markup.
"use strict";

const SHOWN_DIGITS = 400;
const LEAST_DIGEST = 64;

const found = (id) => document.getElementById(id);
const textOf = (id) => found(id).textContent;

function made(kind, attributes = {}, ...content) {
  const element = document.createElement(kind);
  for (const [name, value] of Object.entries(attributes)) element.setAttribute(name, value);
  element.append(...content);
  return element;
}

function withCommas(number) {
  return String(number).replace(/\B(?=(\d{3})+$)/g, ",");
}

function timeOf(milliseconds) {
  return milliseconds < 1000 ? `${milliseconds.toFixed(1)} ms` : `${(milliseconds / 1000).toFixed(1)} s`;
}

/** Digits, of which a long run is cut. */
function cutDigits(digits) {
  return digits.length <= SHOWN_DIGITS ? digits : `${digits.slice(0, SHOWN_DIGITS)}.. (${withCommas(digits.length / 2)} bytes)`;
}

function layFacts(facts) {
  return made("dl", {}, ...facts.flatMap(([name, words, kind = "plain"]) => [made("dt", {}, name), made("dd", { class: kind }, words)]));
}

/** A table: `head` has the names of its columns. The last column is in a colour by what it says, and long digits are in small letters. */
function layTable({ head, rows, mark = "roots" }) {
  const kindAt = (row, at) => (at === row.length - 1 ? row[at].replace(/ /g, "-") : row[at].length >= LEAST_DIGEST ? "digest" : "plain");
  const cells = (row) => row.map((words, at) => made("td", { class: kindAt(row, at), "data-name": head[at] }, words));
  const top = made("thead", {}, made("tr", {}, ...head.map((words) => made("th", { scope: "col" }, words))));
  return made("table", { class: mark }, top, made("tbody", {}, ...rows.map((row) => made("tr", {}, ...cells(row)))));
}

function laySection({ title, mark: word, facts, more }) {
  const head = made("h3", {}, title, ...(word ? [" ", made("span", { class: `mark ${word}` }, word)] : []));
  const parts = more.map(({ title: name, lines }) => made("details", {}, made("summary", {}, name), made("pre", {}, lines.join("\n"))));
  return made("section", {}, head, layFacts(facts), ...parts);
}

function laySections(sections) {
  return made("div", { class: "sides" }, ...sections.map(laySection));
}

function layNote({ words, tone }) {
  return tone === "code" ? made("pre", {}, words) : made("p", { class: `note ${tone}` }, words);
}

/** What is said where there is no answer. */
function layFailure(title, words) {
  return made("section", { class: "answer bad" }, made("h2", {}, title), made("p", {}, words));
}

/** An answer of the library: its name, its text, of which `linkOf` makes a link to the whole, what it means, and what belongs to it. */
function layAnswer(name, answer, linkOf) {
  const { command, status, shown: part, length, words, file, milliseconds, notes, table, sections, isGood } = answer;
  const box = made("section", { class: `answer ${isGood ? "good" : "bad"}` });
  box.append(made("h2", {}, name, made("small", {}, `status ${status}, ${timeOf(milliseconds)}`)));
  if (part) box.append(made("pre", { "data-command": command }, part));
  if (part.length < words.length) {
    const save = made("a", { href: linkOf(file), download: `${command}.txt` }, "Save all of it");
    box.append(made("p", {}, `The first ${withCommas(part.length)} of ${withCommas(length)} bytes. `, save));
  }
  box.append(...notes.map(layNote));
  if (table) box.append(layTable(table));
  if (sections?.length > 0) box.append(laySections(sections));
  return box;
}
