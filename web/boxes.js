// Boxes for texts. What is long or isn't plain text is held beside its box, so that its bytes are kept and the page isn't held up.
"use strict";

const MOST_BYTES = 16777216;
const SHOWN_IN_BOX = 262144;

/** What a text is, by its first characters; null if they say nothing. */
function kindOf(start) {
  if (/^\s*[{[]/.test(start)) return /"(proof|leads)"/.test(start) ? "ruling" : "case";
  if (/^\s*[0-9]+\s+(0x)?[0-9a-fA-F]{64}(\s|$)/.test(start)) return "ruling";
  return /^(refereed|task|match) /.test(start) ? "audit" : null;
}

/** A box with its own bytes. `take` is called with bytes that come by paste or file, so that they are worked on. */
class Box {
  constructor(id, take) {
    this.id = id;
    this.area = found(id);
    this.line = found(`${id}-held`);
    this.held = null;
    this.area.addEventListener("paste", (event) => {
      const words = event.clipboardData.getData("text");
      if (words.length <= SHOWN_IN_BOX) return;
      event.preventDefault();
      take(new TextEncoder().encode(words), "Pasted text");
    });
  }

  get bytes() {
    return this.held ?? new TextEncoder().encode(this.area.value);
  }

  get isEmpty() {
    return this.held === null && this.area.value.trim() === "";
  }

  /** Shows a text in the box, or holds it beside the box. What it begins with comes back. */
  put(bytes, name) {
    const words = new TextDecoder("utf-8").decode(bytes.subarray(0, SHOWN_IN_BOX + 1));
    const isPlain = bytes.length <= SHOWN_IN_BOX && !/[\r\0\ufffd]/.test(words) && bytes[0] !== 0xef;
    if (isPlain) this.letGo(words);
    else this.hold(bytes, name);
    return words;
  }

  hold(bytes, name) {
    const drop = made("button", { type: "button" }, "Remove");
    drop.addEventListener("click", () => {
      this.letGo("");
      this.area.focus();
    });
    this.held = bytes;
    this.area.value = "";
    this.area.hidden = true;
    this.line.hidden = false;
    this.line.replaceChildren(`${name}: ${withCommas(bytes.length)} bytes. `, drop);
  }

  letGo(words) {
    this.held = null;
    this.area.hidden = false;
    this.line.hidden = true;
    this.area.value = words;
  }
}
