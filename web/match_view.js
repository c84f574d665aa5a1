// The match below the answers: its picture and its report, in which a round or a step can be chosen, and the details of what is chosen.
"use strict";

// The colours of a picture that are no claim's.
const PLAIN_COLOURS = ["#ffffff", "#23272e", "#d9dee6", "#8a8f98", "#c1121f", "#2a7f3f"];

// The match that is shown, and what was in use when its details were opened.
let match = null;
let opener = null;

/** Names the colours of claims in a picture, which in the dark are lighter. */
function nameColours(svg) {
  for (const [attribute, name] of [["stroke", "coloured-line"], ["fill", "coloured-shape"]]) {
    for (const shape of svg.querySelectorAll(`[${attribute}]`)) {
      const colour = shape.getAttribute(attribute);
      if (PLAIN_COLOURS.includes(colour)) continue;
      shape.classList.add(name);
      shape.style.setProperty("--claim", colour);
    }
  }
}

function layMatch(given, linkOf) {
  match = given;
  found("match").hidden = false;
  found("facts").replaceChildren(layFacts(match.facts));
  const drawn = new DOMParser().parseFromString(match.picture, "image/svg+xml").documentElement;
  found("picture").replaceChildren(document.importNode(drawn, true));
  const svg = found("picture").firstElementChild, buttons = match.rows.map(layRow);
  nameColours(svg);
  svg.append(...buttons);
  svg.setAttribute("role", "group");
  walk(buttons);
  found("save-picture").href = linkOf(new Blob([match.picture], { type: "image/svg+xml" }));
  found("save-report").href = linkOf(match.file);
  found("report").replaceChildren(...match.report.map(layLine));
  walk([...found("report").querySelectorAll("button")]);
}

function hideMatch() {
  closeDetails();
  match = null;
  found("match").hidden = true;
}

/** The row of a round in the picture, as a button over it. */
function layRow({ y, height, place, words }) {
  const button = document.createElementNS("http://www.w3.org/2000/svg", "rect");
  const ofButton = { role: "button", "aria-label": words, "aria-pressed": "false", "data-place": place };
  for (const [name, value] of Object.entries({ x: 0, y, width: match.width, height, ...ofButton })) button.setAttribute(name, value);
  button.addEventListener("click", () => openDetails(place));
  button.addEventListener("keydown", (event) => {
    if (event.key !== "Enter" && event.key !== " ") return;
    event.preventDefault();
    openDetails(place);
  });
  return button;
}

/** A line of the report; what it says of an answer is marked. */
function layLine({ words, place }) {
  const isOfAnswers = place !== undefined || words.startsWith("out ");
  const marked = (part, at) => (at % 2 ? made("span", { class: `mark ${part}` }, part) : part);
  const parts = isOfAnswers ? words.split(/\b(proved|refuted|faulty|spent)\b/).map(marked) : [words];
  if (place === undefined) return made("li", {}, ...parts);
  const button = made("button", { type: "button", "aria-pressed": "false", "data-place": place }, ...parts);
  button.addEventListener("click", () => openDetails(place));
  return made("li", {}, button);
}

/** Of these buttons one can be reached by Tab, and arrow keys go from it to the others. */
function walk(buttons) {
  buttons.forEach((button, at) => {
    button.setAttribute("tabindex", at === 0 ? "0" : "-1");
    button.addEventListener("keydown", (event) => {
      const to = { ArrowDown: at + 1, ArrowUp: at - 1, Home: 0, End: buttons.length - 1 }[event.key];
      if (to === undefined || !buttons[to]) return;
      event.preventDefault();
      buttons.forEach((other, place) => other.setAttribute("tabindex", place === to ? "0" : "-1"));
      buttons[to].focus();
    });
  });
}

function markPlace(place) {
  for (const button of document.querySelectorAll("[data-place]")) {
    button.setAttribute("aria-pressed", String(button.dataset.place === String(place)));
  }
}

function openDetails(place) {
  const { title, facts, table, sections } = match.details[place];
  opener = document.activeElement;
  found("details-title").textContent = title;
  const body = [layFacts(facts)];
  if (table) body.push(layTable(table));
  if (sections.length > 0) body.push(laySections(sections));
  found("details-body").replaceChildren(...body);
  found("details").hidden = false;
  found("details").scrollTop = 0;
  markPlace(place);
}

function closeDetails() {
  if (found("details").contains(document.activeElement)) opener?.focus();
  found("details").hidden = true;
  markPlace(null);
}

found("close").addEventListener("click", closeDetails);
document.addEventListener("keydown", (event) => {
  if (event.key === "Escape" && !found("details").hidden) closeDetails();
});
