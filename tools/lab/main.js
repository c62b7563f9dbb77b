// The page as a whole: the scenario's editor, keys, and which part is shown.
import { NoAnswer, ask, endOfNote, withoutMark } from "./ask.js";
import { Editor, undoKey } from "./editor.js";
import { KEPT } from "./kept.js";
import { button, get, make, on, say, state, tell } from "./page.js";
import { setPalette } from "./colours.js";
import { choose, goTo, schedule } from "./run.js";
import { read, valueOf } from "./toml.js";
import * as bench from "./bench.js";
import * as explore from "./explore.js";
import * as files from "./files.js";
import * as hands from "./hands.js";
import * as next from "./next.js";
import * as node from "./node.js";
import * as program from "./program.js";
import * as properties from "./properties.js";
import * as sizes from "./sizes.js";
import * as spacetime from "./spacetime.js";
import * as steps from "./steps.js";
import * as sweep from "./sweep.js";
import * as timeline from "./timeline.js";
import { RULE_HINT } from "./words.js";

const LINE = /line (\d+)/, LOAD = /^refused scenario (BadText|NotAccepted|BadRule) load\[(\d+)\]\.text/;
const TYPED_IN = "textarea, input:not([type=checkbox]), select";
let editor = null, isOpening = false, pending = "";

function changed(text) {
  pending = "";
  say("");
  files.changed(text);
  get("undo").disabled = !editor.canMove(-1);
  get("redo").disabled = !editor.canMove(1);
  schedule(text, isOpening ? 0 : undefined);
}

/** Opens a text: an edit of its own, shown at pulse 1 or at the pulse that `goTo` finds in its run. */
function open(text, name, goTo = () => 1) {
  isOpening = true;
  state.goTo = goTo;
  say("");
  editor.open(text);
  isOpening = false;
  files.named(name, name ? text : null);
}

/** Makes an edit, and says these words once the program has run the text. */
function change({ text, at }, goToPulse = null, words = "") {
  if (text === editor.text && !state.isStale) {
    if (goToPulse) goTo(goToPulse(state.run));
    say(words || "The text says so already.");
    return;
  }
  state.goTo = goToPulse;
  say("");
  editor.replace(text, at);
  pending = words;
}

/** Says how the edit before ended. */
function conclude(isRun) {
  if (pending) say(isRun ? pending : "This change has no run: see under the text. Ctrl+Z undoes it.", !isRun);
  pending = "";
}

function showGood() {
  conclude(true);
  editor.unmark();
  get("rejected").replaceChildren();
  get("rejected").hidden = true;
  get("stale").hidden = true;
}

/** Shows these parts in the box under the text; the run before, if there is one, is `stale`. */
function showBox(parts, stale) {
  get("rejected").replaceChildren(...parts);
  get("rejected").hidden = false;
  conclude(false);
  get("stale").textContent = stale;
  get("stale").hidden = !state.run;
}

/** Shows why a text has no run that is shown, though it isn't rejected. */
function showEnded(words) {
  editor.unmark();
  showBox([make("p", {}, words)], "This text has no run yet. This is the last run that was finished.");
}

/** Shows what the program says of the text, at the line that it names. */
function showRejected(said) {
  const words = withoutMark(said), lines = words.split("\n"), found = LINE.exec(lines.find((it) => it.startsWith("note: ")) || "");
  const line = found ? Number(found[1]) : 0, parts = lines.map((it) => make("p", {}, it));
  if (line > 0) {
    editor.mark(line, / BadRule /.test(words) ? endOfNote(words) : lines[0]);
    parts.push(button(`Go to line ${line}`, () => editor.showLine(line), { id: "to-line" }));
  }
  const [, name, place] = LOAD.exec(words) ?? [], text = place && textOfLoad(Number(place));
  const edit = () => program.edit(text, name === "BadRule" ? "rule" : "asm");
  if (text) parts.push(button("Explain in the program editor", edit, { id: "explain" }));
  if (/unknown name/.test(words)) parts.push(make("p", { class: "soft" }, RULE_HINT));
  showBox(parts, "The text is rejected. This is the last run that was accepted.");
}

function textOfLoad(place) {
  const load = read(editor.text)?.entries.filter((it) => it.name === "load")[place];
  return load && valueOf(load.keys, "text");
}

// Tabs.

function showTab(id) {
  for (const tab of document.querySelectorAll("[role=tab]")) {
    const isShown = tab.id === id;
    tab.setAttribute("aria-selected", isShown);
    tab.tabIndex = isShown ? 0 : -1;
    get(tab.getAttribute("aria-controls")).hidden = !isShown;
  }
  tell("tab");
}

function listenToTabs() {
  const tabs = [...document.querySelectorAll("[role=tab]")];
  tabs.forEach((tab, at) => {
    tab.addEventListener("click", () => showTab(tab.id));
    tab.addEventListener("keydown", (event) => {
      const by = { ArrowRight: 1, ArrowLeft: -1 }[event.key];
      if (!by) return;
      event.preventDefault();
      event.stopPropagation();
      const next = tabs[(at + by + tabs.length) % tabs.length];
      showTab(next.id);
      next.focus();
    });
  });
}

// Keys.

const KEYS = {
  ArrowRight: () => goTo(state.at + 1), ArrowLeft: () => goTo(state.at - 1),
  PageDown: () => goTo(state.at + 10), PageUp: () => goTo(state.at - 10),
  Home: () => goTo(1), End: () => goTo(Infinity),
  ArrowDown: () => choose(state.node + 1), ArrowUp: () => choose(state.node - 1), " ": timeline.play,
  m: () => get("received").click(),
};

function onKey(event) {
  const undo = undoKey(event), { target } = event;
  if (target.closest("dialog") || target.matches(TYPED_IN)) return;
  if (undo) {
    event.preventDefault();
    editor.move(undo);
    return;
  }
  const isOwn = event.key === " " && target.closest("button, summary, [role=button], input, a");
  const isScrolled = target.closest(".scroll, pre") && event.key !== " ";
  if (event.ctrlKey || event.metaKey || event.altKey || isOwn || isScrolled || !(event.key in KEYS)) return;
  event.preventDefault();
  KEYS[event.key]();
}

function listen() {
  on("open", open);
  on("edit", change);
  on("run", showGood);
  on("refused", showRejected);
  on("ended", showEnded);
  get("undo").addEventListener("click", () => editor.move(-1));
  get("redo").addEventListener("click", () => editor.move(1));
  document.addEventListener("keydown", onKey);
  listenToTabs();
}

/** Keeps the path of this lab in the browser, for a link that is opened at the same port. */
function keepPath() {
  try {
    localStorage.setItem(KEPT, location.pathname);
  } catch {
    // The browser keeps nothing: a link asks for the address of the lab.
  }
}

async function begin() {
  editor = new Editor(get("text"), "Scenario", changed);
  get("text").editor = editor;
  listen();
  const parts = [timeline, bench, node, hands, next, program, properties, spacetime, explore, steps, sizes, sweep];
  for (const part of parts) part.begin();
  showTab("node-tab");
  try {
    const answer = await ask("begin");
    setPalette(answer.colours);
    keepPath();
    await files.begin(answer);
  } catch (why) {
    if (!(why instanceof NoAnswer)) throw why;
    say(why.message, true);
  }
}

// For tools/try_lab.py, which compares what is shown with what the program answers.
window.lab = { state, tell, read, start: files.START };
begin();
