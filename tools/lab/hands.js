// Changes of the chosen node from the pulse shown on. Each is an edit of the scenario's text.
import { get, make, on, say, state, tell } from "./page.js";
import { corrupt, loadNamed, loadNoise, loadRule, loadSay, loadText, setCoin, setRule, topChanges, unload }
  from "./edits.js";
import { kindOfText } from "./program.js";
import { loadAt } from "./programs.js";
import { insideOf, memoryBefore } from "./run.js";
import { valueOf } from "./toml.js";

const MAX_MESSAGE = 4294967295;
const HINTS = {
  text: "Loads the program text, under the scenario, into this node alone: as a Byzantine node's, not as the clock. " +
    "A rule needs version 4 of the scenario: Load sets it.",
  own: "Makes the rule under \"Program text\" the clock: nodes with the clock run it in every pulse, and this node " +
    "from this pulse on.",
  noise: "Messages drawn from the key, anew in each pulse. Noise needs version 4 of the scenario: Load sets it.",
};
/** The parts of the form in which something was typed. */
const touched = new Set();
let shownFor = {};

/** Makes an edit by one of the calls of edits.js. The words are said once the program has run the text. */
function edit(change, words) {
  const { at, node } = state;
  touched.clear();
  tell("edit", change(get("text").editor.text, at, node), null, `${words} Ctrl+Z undoes it.`);
}

/** While a text has no run, the form has nothing to change. */
function enable(isRun) {
  get("change-waits").hidden = isRun;
  for (const it of get("change").elements) it.disabled = !isRun;
}

const valueIn = (field) => (field.value === "" ? null : Number(field.value));
const fields = () => [...get("values").querySelectorAll("input")];
const values = () => fields().map(valueIn);

/** One field for the message to each node; an empty one sends none. */
function drawFields(nodes) {
  const range = { type: "number", min: 0, max: MAX_MESSAGE, step: 1, placeholder: "none" };
  const fieldFor = (to) => make("input", { ...range, "aria-label": `message to node ${to}` });
  const labels = Array.from({ length: nodes }, (_, to) => make("label", {}, `to ${to}`, fieldFor(to)));
  get("values").replaceChildren(...labels);
}

/** Shows the messages of the load that holds in the pulse shown. */
function fillFields(run) {
  const load = run.scenario && loadAt(run.scenario, state.node, state.at);
  const old = (load && valueOf(load.keys, "values")) || [];
  fields().forEach((field, to) => {
    field.value = old[to] >= 0 ? old[to] : "";
  });
}

/** Fills the form for the node and pulse shown. What was typed stays until it is used or another node is chosen. */
function fill(run) {
  const { node, at } = state, { nodes } = run.frame;
  if (fields().length !== nodes) drawFields(nodes);
  if (shownFor.node !== node || shownFor.nodes !== nodes) touched.clear();
  if (!touched.has("values") && (shownFor.node !== node || shownFor.at !== at || shownFor.run !== run)) fillFields(run);
  shownFor = { node, nodes, at, run };
  const before = insideOf(run, at) && memoryBefore(run, at, node);
  if (!touched.has("image")) get("image").value = before ? before.match(/../g).join(" ") : "";
}

/** Says what a load changes at the top of the text beside its entry. */
function toldTop(needsKey) {
  const changes = topChanges(get("text").editor.text, needsKey);
  return changes && ` The scenario has ${changes} for it now.`;
}

/** Loads the text of the program editor. */
function loadProgram(node, at) {
  const { text } = get("program-editor").editor, words = `Node ${node} runs the program text from pulse ${at} on.`;
  if (kindOfText() === "rule") edit((...it) => loadRule(...it, text), words + toldTop(false));
  else edit((...it) => loadText(...it, text), words);
}

/** Makes the rule of the program editor the clock, and has the node run the clock. */
function loadAsClock(node, at) {
  const { text } = get("program-editor").editor, isClock = state.run.pulses[at - 1].ran[node] === "clock";
  if (kindOfText() !== "rule" || !setRule(get("text").editor.text, text)) {
    say(kindOfText() === "rule" ? "The page can't read this scenario: write the rule into its text."
      : "Only a rule can become the clock here: choose \"a rule\" under \"Program text\".", true);
    return;
  }
  const change = (old, ...place) => {
    const ruled = setRule(old, text);
    return isClock ? ruled : loadNamed(ruled.text, ...place, "clock");
  };
  edit(change, `The clock is the program text now; node ${node} runs it from pulse ${isClock ? 1 : at} on.`);
}

function loadChosen() {
  const { node, at } = state, kind = get("kind").value, words = `Node ${node} runs ${kind} from pulse ${at} on.`;
  if (kind === "say") {
    if (!get("change").reportValidity()) return;
    edit((...it) => loadSay(...it, values()), words);
  } else if (kind === "text") {
    loadProgram(node, at);
  } else if (kind === "own") {
    loadAsClock(node, at);
  } else if (kind === "noise") {
    edit(loadNoise, `Node ${node} sends drawn messages from pulse ${at} on.${toldTop(true)}`);
  } else {
    edit((...it) => loadNamed(...it, kind), words);
  }
}

const bytesOf = (hex) => (hex.replace(/\s+/g, "").match(/../g) || []).map((it) => Number.parseInt(it, 16));

function corruptChosen() {
  const { memory } = state.run.frame, hex = get("image").value.replace(/\s+/g, "");
  if (!/^([0-9a-fA-F]{2})+$/.test(hex) || hex.length > 2 * memory) {
    say(`A memory is at most ${memory} bytes, each as two hexadecimal digits.`, true);
    get("image").focus();
    return;
  }
  const bytes = bytesOf(hex.padEnd(2 * memory, "0"));
  edit((...it) => corrupt(...it, bytes), `The memory of node ${state.node} is overwritten before pulse ${state.at}.`);
}

function showKind() {
  const kind = get("kind").value;
  get("values").hidden = kind !== "say";
  get("kind-hint").hidden = !(kind in HINTS);
  get("kind-hint").textContent = HINTS[kind] ?? "";
}

function show() {
  const { run, at, node } = state;
  if (!run) return;
  get("change-name").textContent = `Change node ${node} from pulse ${at} on`;
  fill(run);
  const form = `${run.frame.memory} bytes, each as two hexadecimal digits`;
  get("image").title = `${form}; the first four are the clock, lowest first`;
}

export function begin() {
  get("kind").addEventListener("change", showKind);
  get("change").addEventListener("submit", (event) => {
    event.preventDefault();
    loadChosen();
  });
  const unloaded = () => `Node ${state.node} has no program from pulse ${state.at} on.`;
  get("unload").addEventListener("click", () => edit(unload, unloaded()));
  get("corrupt").addEventListener("click", corruptChosen);
  for (const value of [0, 1]) {
    const words = () => `The coin of node ${state.node} is ${value} in pulse ${state.at}.`;
    get(`coin-${value}`).addEventListener("click", () => edit((...it) => setCoin(...it, value), words()));
  }
  for (const part of ["values", "image"]) get(part).addEventListener("input", () => touched.add(part));
  on("shown", show);
  on("run", () => enable(true));
  for (const event of ["refused", "ended"]) on(event, () => enable(false));
  showKind();
}
