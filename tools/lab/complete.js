// Completion of the word before the caret of an editor: Ctrl+Space lists words, arrows choose, Enter or Tab takes one.
import { make } from "./page.js";
import { wordsFor } from "./words.js";

const MOST = 24, HIGH = 166, KEYS = { ArrowDown: 1, ArrowUp: -1 };

export class Completion {
  constructor(editor) {
    this.editor = editor;
    this.list = make("ul", { class: "completion", role: "listbox", "aria-label": "Words" });
    this.list.hidden = true;
    editor.area.after(this.list);
    editor.area.addEventListener("blur", () => this.close());
    this.list.addEventListener("mousedown", (event) => {
      event.preventDefault();
      const at = [...this.list.children].indexOf(event.target.closest("li"));
      if (at >= 0) this.take(at);
    });
  }

  /** The word before the caret. */
  begun() {
    const { area } = this.editor;
    return /\w*$/.exec(area.value.slice(0, area.selectionStart))[0];
  }

  /** The words that begin so: those of the language, and then those of the text. */
  words(begun) {
    const { area } = this.editor, line = area.value.slice(0, area.selectionStart).split("\n").at(-1);
    const own = this.editor.text.match(/[A-Za-z_]\w{2,}/g) || [];
    const all = [...wordsFor(this.editor.kindAtCaret(), line), ...own];
    return [...new Set(all)].filter((it) => it.startsWith(begun) && it !== begun).slice(0, MOST);
  }

  open() {
    const begun = this.begun(), words = this.words(begun), { area } = this.editor;
    if (words.length === 0) {
      this.close();
      return;
    }
    this.chosen = 0;
    this.list.replaceChildren(...words.map((it) => make("li", { role: "option" }, it)));
    const { top, left } = this.editor.caretPlace(begun.length);
    this.list.style.top = `${Math.max(0, Math.min(top, area.clientHeight - Math.min(HIGH, 20 * words.length)))}px`;
    this.list.style.left = `${left}px`;
    this.list.hidden = false;
    this.show();
  }

  show() {
    [...this.list.children].forEach((it, at) => it.setAttribute("aria-selected", at === this.chosen));
    this.list.children[this.chosen].scrollIntoView({ block: "nearest" });
  }

  close() {
    this.list.hidden = true;
  }

  take(at) {
    const word = this.list.children[at].textContent, rest = word.slice(this.begun().length);
    this.close();
    this.editor.insert(rest);
  }

  /** Handles a key; says whether it was one of the list. */
  takesKey({ key, ctrlKey }) {
    if (key === " " && ctrlKey) this.open();
    else if (this.list.hidden) return false;
    else if (key in KEYS) {
      this.chosen = (this.chosen + KEYS[key] + this.list.children.length) % this.list.children.length;
      this.show();
    } else if (key === "Enter" || key === "Tab") this.take(this.chosen);
    else {
      this.close();
      return key === "Escape";
    }
    return true;
  }
}
