// A program text under the scenario, a rule or assembler, checked as one types; a rejected one is explained at its
// line.
import { Line, NoAnswer, endOfNote, isCancelled, withoutMark } from "./ask.js";
import { Editor } from "./editor.js";
import { get, make, on, state } from "./page.js";
import { RULE_HINT } from "./words.js";

const PAUSE = 350, DEFAULT_SHAPE = { nodes: 4, memory: 8, faults: 1, modulus: 8 };
const TEMPLATES = {
  rule: `# A Byzantine node: sends each node another number.
for j: send (mail[0] + j) % M to j
`,
  asm: `        mov64 r1, 0             # to node 0
        mov64 r2, 1             # the number 1
        call send
        mov64 r0, 0
        exit
`,
};
const line = new Line();
let editor = null, timer = null, shape = DEFAULT_SHAPE, isNew = false;

/** The kind of the text: "rule" or "asm". */
export const kindOfText = () => get("program-kind").value;

function schedule() {
  clearTimeout(timer);
  timer = setTimeout(verify, PAUSE);
}

async function verify() {
  const text = editor.text;
  if (!text.trim()) {
    get("program-said").replaceChildren();
    return;
  }
  try {
    show(await line.ask(kindOfText() === "rule" ? "compile" : "verify", { text, ...shape }));
  } catch (why) {
    if (isCancelled(why)) return;
    if (!(why instanceof NoAnswer)) throw why;
    get("program-said").replaceChildren(make("p", { class: "wrong" }, why.message));
  }
}

/** The line of the text that a verdict is about: that of the last row, or the one that the refusal names. */
function lineOf(rows, verdict) {
  const named = /^refused (?:text|rule) \S+ line (\d+)/.exec(verdict);
  const row = /^line (\d+) slot /.exec(rows.at(-1) || "");
  return named ? Number(named[1]) : row ? Number(row[1]) : 0;
}

function show(answer) {
  const lines = answer.out.trim().split("\n"), rows = lines.filter((it) => /^line \d+ slot /.test(it));
  const said = lines.filter((it) => !rows.includes(it)), isTaken = answer.status === 0 && !answer.ended;
  editor.unmark();
  const parts = said.map((it) => make("p", { class: isTaken ? "right" : "wrong" }, it));
  const note = withoutMark(answer.err.trim()) + answer.ended;
  if (note) parts.push(make("p", { class: "wrong" }, note));
  const at = isTaken ? 0 : lineOf(rows, said[0] || "");
  if (/unknown name/.test(note)) parts.push(make("p", { class: "soft" }, RULE_HINT));
  if (at > 0) editor.mark(at, endOfNote(note || said.at(-1)));
  if (at > 0 && isNew) editor.scrollTo(at);
  isNew = false;
  if (!isTaken && rows.length > 0) parts.splice(1, 0, make("p", { class: "row" }, rows.at(-1)));
  if (rows.length > 0) {
    const all = make("details", {}, make("summary", {}, "What is known at each slot"));
    all.append(make("pre", { tabindex: "0" }, rows.join("\n")));
    parts.push(all);
  }
  get("program-said").replaceChildren(...parts);
}

/** Puts a program here, to be edited. */
export function edit(text, kind = "asm") {
  get("program").open = isNew = true;
  get("program-kind").value = kind;
  editor.open(text);
  get("program").scrollIntoView({ block: "nearest" });
  editor.area.focus();
}

/** Another kind of text: its template, if the text is that of the other kind. */
function changeKind() {
  const kind = kindOfText(), other = kind === "rule" ? "asm" : "rule";
  if (editor.text === TEMPLATES[other]) editor.open(TEMPLATES[kind]);
  else {
    editor.drawSides();
    schedule();
  }
}

function takeShape() {
  const { nodes, memory, faults, modulus } = state.run.frame, words = `${nodes} nodes with ${memory} bytes of memory`;
  if (JSON.stringify(shape) === JSON.stringify({ nodes, memory, faults, modulus })) return;
  shape = { nodes, memory, faults, modulus };
  get("program-shape").textContent = `for ${words}, ${faults} fault${faults === 1 ? "" : "s"} and modulus ${modulus}`;
  schedule();
}

export function begin() {
  editor = new Editor(get("program-editor"), "Program text", schedule, kindOfText);
  get("program-editor").editor = editor;
  editor.open(TEMPLATES.rule);
  get("program-kind").addEventListener("change", changeKind);
  on("copy", edit);
  on("run", takeShape);
}
