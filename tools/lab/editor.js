// A text with line numbers, colours of its words, a note at a line, and edits that can be undone.
import { Completion } from "./complete.js";
import { make } from "./page.js";
import { kindsOf, partsOf } from "./words.js";

const LINE = 18, PAUSE = 700, MAX_EDITS = 200, MAX_CHARACTERS = 1 << 23, SHOWN_AFTER = 3, FLASH = 1600;
const LEAST_NOTE = 60, EDGE = 16, MAX_COLOURED = 400, SIDE = 8, TOP = 4;

export class Editor {
  /** Calls `onChange` after each change. A text has lines of the kind that `kindOf` gives, or is a scenario. */
  constructor(root, label, onChange, kindOf = null) {
    this.onChange = onChange;
    this.kindOf = kindOf;
    this.edits = [{ text: "", caret: 0 }];
    this.place = 0;
    this.isNew = true;
    this.typedAt = 0;
    this.area = make("textarea", { "aria-label": label, spellcheck: "false", wrap: "off", autocapitalize: "off" });
    this.numbers = make("div");
    this.marks = make("div");
    this.colours = make("div", { class: "colours" });
    root.classList.add("editor");
    root.append(
      make("div", { class: "numbers", "aria-hidden": "true" }, this.numbers),
      make("div", { class: "marks", "aria-hidden": "true" }, this.marks), this.area);
    this.marks.append(this.colours);
    this.completion = new Completion(this);
    this.listen();
  }

  listen() {
    this.area.addEventListener("input", () => this.typed());
    this.area.addEventListener("scroll", () => this.drawSides());
    this.area.addEventListener("keydown", (event) => this.onKey(event));
    this.area.addEventListener("beforeinput", (event) => {
      if (event.inputType !== "historyUndo" && event.inputType !== "historyRedo") return;
      event.preventDefault();
      this.move(event.inputType === "historyUndo" ? -1 : 1);
    });
    new ResizeObserver(() => this.drawSides()).observe(this.area);
  }

  get text() {
    return this.area.value;
  }

  onKey(event) {
    const by = undoKey(event);
    if (!by && !this.completion.takesKey(event)) return;
    event.preventDefault();
    event.stopPropagation();
    if (by) this.move(by);
  }

  /** Writes at the caret, as an edit of its own. */
  insert(words) {
    const at = this.area.selectionStart, end = this.area.selectionEnd, { text } = this;
    this.typedAt = 0;
    this.area.value = text.slice(0, at) + words + text.slice(end);
    this.area.setSelectionRange(at + words.length, at + words.length);
    this.keep({ text: this.text, caret: at + words.length }, false);
    this.changed();
  }

  /** The kind of the line of the caret: "toml", "rule" or "asm". */
  kindAtCaret() {
    this.lineCount();
    return this.kinds[this.lineOf(this.area.selectionStart) - 1];
  }

  /** The place below the caret in the editor, so many letters back. */
  caretPlace(back) {
    const { selectionStart, scrollTop, scrollLeft, offsetLeft } = this.area;
    const before = this.text.slice(0, selectionStart).split("\n"), letters = before.at(-1).length - back;
    const left = offsetLeft + SIDE + letters * this.letterWidth() - scrollLeft;
    return { top: before.length * LINE + TOP - scrollTop, left: Math.max(0, left) };
  }

  letterWidth() {
    this.pen ||= document.createElement("canvas").getContext("2d");
    this.pen.font = getComputedStyle(this.area).font;
    return this.pen.measureText("m").width;
  }

  typed() {
    this.isNew = false;
    const isOneEdit = Date.now() - this.typedAt < PAUSE && this.typedAt > 0;
    this.typedAt = Date.now();
    this.keep({ text: this.text, caret: this.area.selectionStart }, isOneEdit);
    this.changed();
  }

  /** Keeps a text to come back to. What is typed without a pause is one edit. */
  keep(edit, isOneEdit) {
    this.edits.length = this.place + 1;
    if (isOneEdit && this.place > 0) this.edits[this.place] = edit;
    else this.edits.push(edit);
    let size = this.edits.reduce((sum, it) => sum + it.text.length, 0);
    while (this.edits.length > 2 && (this.edits.length > MAX_EDITS || size > MAX_CHARACTERS)) {
      size -= this.edits.shift().text.length;
    }
    this.place = this.edits.length - 1;
  }

  /** Puts another text in place of this one, as an edit of its own, and shows what is new. */
  replace(text, at = 0) {
    const before = this.text;
    if (text === before) return;
    this.open(text, at);
    this.showChange(before, text, at);
  }

  /** The same for a text that is new as a whole. The first one can't be undone. */
  open(text, at = 0) {
    this.typedAt = 0;
    this.area.value = text;
    if (this.isNew) this.edits = [{ text, caret: at }];
    else this.keep({ text, caret: at }, false);
    this.isNew = false;
    this.area.setSelectionRange(at, at);
    this.area.scrollTop = 0;
    this.changed();
  }

  canMove(by) {
    return this.place + by >= 0 && this.place + by < this.edits.length;
  }

  /** Undoes an edit (-1) or does it again (1). */
  move(by) {
    if (!this.canMove(by)) return;
    const before = this.text;
    this.place += by;
    this.typedAt = 0;
    const { text, caret } = this.edits[this.place];
    this.area.value = text;
    this.area.setSelectionRange(caret, caret);
    this.changed();
    this.showChange(before, text, caret);
  }

  changed() {
    this.unmark();
    this.drawSides();
    this.onChange(this.text);
  }

  lineOf(at) {
    return this.text.slice(0, at).split("\n").length;
  }

  /** Scrolls so that a line is seen, without a move of the focus. */
  scrollTo(line) {
    const top = (line - 1) * LINE, high = this.area.clientHeight;
    if (top < this.area.scrollTop || top + LINE * SHOWN_AFTER > this.area.scrollTop + high) {
      this.area.scrollTop = Math.max(0, top - high / 3);
    }
    this.area.scrollLeft = 0;
    this.drawSides();
  }

  showLine(line) {
    const from = this.text.split("\n").slice(0, line - 1).join("\n").length + (line > 1 ? 1 : 0);
    this.area.focus();
    this.area.setSelectionRange(from, from);
    this.scrollTo(line);
  }

  /** Marks for a moment the lines in which a text differs from the one before. */
  showChange(before, after, at) {
    const old = before.split("\n"), now = after.split("\n");
    let first = 0, last = 0;
    while (first < now.length && now[first] === old[first]) first++;
    while (last < now.length - first && last < old.length - first && now.at(-1 - last) === old.at(-1 - last)) last++;
    const count = now.length - last - first;
    this.scrollTo(count > 0 ? first + 1 : this.lineOf(at));
    if (count <= 0 || (first === 0 && last === 0)) return;
    const band = make("div", { class: "new" });
    band.style.top = `${first * LINE}px`;
    band.style.height = `${count * LINE}px`;
    this.marks.append(band);
    setTimeout(() => band.remove(), FLASH);
  }

  /** Shows a note after a line, as much of it as there is room for. */
  mark(line, note) {
    this.unmark();
    const top = `${(line - 1) * LINE}px`, text = this.text.split("\n")[line - 1] || "";
    this.markedBand = make("div", { class: "band" });
    this.markedNote = make("div", { class: "note" }, note);
    this.markedBand.style.top = this.markedNote.style.top = top;
    this.markedNote.style.left = `${text.length + 2}ch`;
    this.marks.append(this.markedBand, this.markedNote);
    const room = this.area.scrollLeft + this.area.clientWidth - this.markedNote.offsetLeft - EDGE;
    this.markedNote.style.maxWidth = `${Math.max(0, room)}px`;
    this.markedNote.style.visibility = room < LEAST_NOTE ? "hidden" : "visible";
    this.markedLine = line;
    this.drawSides();
  }

  unmark() {
    this.markedBand?.remove();
    this.markedNote?.remove();
    this.markedLine = undefined;
  }

  drawSides() {
    const first = Math.floor(this.area.scrollTop / LINE), count = Math.ceil(this.area.clientHeight / LINE) + 1;
    const last = Math.min(first + count, this.lineCount());
    this.numbers.replaceChildren();
    for (let line = first + 1; line <= last; line++) {
      this.numbers.append(make("div", line === this.markedLine ? { class: "wrong" } : {}, line));
    }
    this.drawColours(first, last);
    this.numbers.style.transform = `translateY(${first * LINE - this.area.scrollTop}px)`;
    this.marks.style.transform = `translate(${-this.area.scrollLeft}px, ${-this.area.scrollTop}px)`;
  }

  /** Draws the lines that are seen, from `first` (counted from 0) up to `last`, under the text, which has no ink. */
  drawColours(first, last) {
    const span = ([text, kind]) => (kind ? make("span", { class: kind }, text) : text);
    const lines = this.lines.slice(first, last).map((line, at) => {
      const parts = line.length > MAX_COLOURED ? [[line, ""]] : partsOf(line, this.kinds[first + at]);
      return make("div", {}, ...parts.map(span));
    });
    this.colours.replaceChildren(...lines);
    this.colours.style.top = `${first * LINE}px`;
  }

  lineCount() {
    const kind = this.kindOf?.();
    if (this.countedText !== this.text || this.countedKind !== kind) {
      this.countedText = this.text;
      this.countedKind = kind;
      this.lines = this.text.split("\n");
      this.kinds = kind ? this.lines.map(() => kind) : kindsOf(this.lines);
    }
    return this.lines.length;
  }
}

/** Returns -1 for the keys of undo, 1 for those of redo, and 0 for others. */
export function undoKey(event) {
  if (!(event.ctrlKey || event.metaKey) || event.altKey) return 0;
  const key = event.key.toLowerCase();
  if (key === "z") return event.shiftKey ? 1 : -1;
  return key === "y" ? 1 : 0;
}
