// The chosen node: its memory, messages and program, and the trace of its run in the pulse shown.
import { Line, NoAnswer, isCancelled, wordsOf } from "./ask.js";
import { button, get, make, on, say, state, tell } from "./page.js";
import { isBuiltIn, loadAt, namesAt, ruleOf, textOf } from "./programs.js";
import { sentTerm, stateWords } from "./rule.js";
import { insideOf, memoryBefore, received } from "./run.js";
import * as why from "./why.js";

const WORD_BYTES = 4, MAX_HEARD = 8;
const traces = new Line(), programs = new Line();
let traced = {}, listed = {};

const pairs = (hex) => hex.match(/../g) || [];

/** The text of the rule (by `ruleOf`) or the assembler text (by `textOf`) of a node's program, or null. */
function textAt(run, pulse, node, by) {
  if (!run.scenario || run.pulses[pulse - 1].ran[node] === null) return null;
  return by(run.scenario, loadAt(run.scenario, node, pulse));
}

const ruleAt = (run, pulse, node) => textAt(run, pulse, node, ruleOf);

/** The names of the words of a node's memory: those that its rule gives, or those of the built-in clock. */
function wordsAt(run, pulse, node) {
  const rule = ruleAt(run, pulse, node), isClock = run.pulses[pulse - 1].clocks[node] !== null;
  if (rule !== null) return ["clock", ...stateWords(rule)];
  if (!isClock) return [];
  return isBuiltIn(run) ? ["clock", "mark"] : ["clock"];
}

/** The memory, byte by byte; those that this pulse changed stand out. */
function memory(run, node, words) {
  const inside = insideOf(run, state.at), before = memoryBefore(run, state.at, node);
  if (!inside) return make("p", {}, "..");
  const old = before === null ? [] : pairs(before);
  const bytes = pairs(inside.memory[node]).map((byte, at) => {
    const isNew = old.length > 0 && old[at] !== byte, word = Math.floor(at / WORD_BYTES), part = words[word];
    const place = `byte ${at}${part ? ` of ${part}, lowest first` : ""}`, kind = part ? `word word-${word % 2}` : "";
    const title = `${place}${isNew ? `; ${old[at]} before this pulse` : ""}`;
    return make("code", { class: [kind, isNew ? "changed" : ""].join(" ").trim(), title }, byte);
  });
  return make("div", { id: "bytes" }, ...bytes);
}

/** What the words of the list mean, at a hover. */
const MEANINGS = {
  program: "What the node runs in this pulse. A program named clock is the clock of the scenario.",
  clock: "The first four bytes of the memory, the lowest first.",
  mark: "1 from the pulse on in which the node's clock left 0; 0 after it fell back.",
  settled: "Yes if the node ran the clock in this pulse and in the one before. Agreement is about settled nodes.",
  coin: "The node's random bit of this pulse.",
  steps: "How many instructions the node ran in this pulse.",
};

function fact(name, value) {
  const title = MEANINGS[name] || "A word of the memory that the rule names under state.";
  return make("div", { title }, make("dt", {}, name), make("dd", {}, value));
}

/** The number in the bytes of a word, the lowest first. */
const numberOf = (hex, word) =>
  Number.parseInt(pairs(hex).slice(WORD_BYTES * word, WORD_BYTES * (word + 1)).reverse().join(""), 16);

function facts(run, node, name, words) {
  const pulse = run.pulses[state.at - 1], clock = pulse.clocks[node], inside = insideOf(run, state.at);
  const list = [fact("program", name), fact("clock", clock === null ? "-" : clock)];
  const rest = words.slice(1).map((word, at) => fact(word, inside ? numberOf(inside.memory[node], at + 1) : ".."));
  list.push(...rest);
  list.push(fact("settled", pulse.settled[node] ? "yes" : "no"), fact("coin", pulse.coins[node]));
  list.push(fact("steps", pulse.steps[node]));
  return make("dl", {}, ...list);
}

function row(kind, cells) {
  const text = (it) => (it === null ? "-" : it === undefined ? ".." : it);
  return make("tr", {}, ...cells.map((it) => make(kind, kind === "th" ? { scope: "col" } : {}, text(it))));
}

function mail(run, node) {
  const sent = insideOf(run, state.at)?.sent, rows = [];
  for (let other = 0; other < run.frame.nodes; other++) {
    rows.push(row("td", [other, received(run, state.at, other, node), sent ? sent[node][other] : undefined]));
  }
  const rule = ruleAt(run, state.at, node), term = rule && sentTerm(rule);
  const head = make("thead", {}, row("th", ["node", "received from it", term ? `sent to it: ${term}` : "sent to it"]));
  return make("div", { class: "scroll" }, make("table", { id: "mail" }, head, make("tbody", {}, ...rows)));
}

const doneInWords = (done) =>
  "load" in done ? `node ${done.load} was loaded with ${done.program}`
    : "unload" in done ? `node ${done.unload} was unloaded` : `the memory of node ${done.corrupt} was overwritten`;

function before(run) {
  const { staged } = run.pulses[state.at - 1], shown = staged.slice(0, 6).map(doneInWords);
  if (staged.length > shown.length) shown.push(`${staged.length - shown.length} changes more`);
  return shown.length ? [make("p", { id: "staged" }, `Before pulse ${state.at}: ${shown.join("; ")}.`)] : [];
}

/** The program of the node: its text in the scenario, or what `dis --node` prints. */
function program(run, node) {
  if (run.pulses[state.at - 1].ran[node] === null) return [];
  const rule = ruleAt(run, state.at, node), text = rule ?? textAt(run, state.at, node, textOf);
  const pre = make("pre", { tabindex: "0" }, text ?? ".."), part = make("details", { id: "program-text" });
  const copy = () => tell("copy", pre.textContent, rule === null ? "asm" : "rule");
  part.append(make("summary", {}, rule === null ? "Program" : "Rule"));
  part.append(button("Edit a copy", copy, { id: "copy" }), pre);
  part.open = state.isProgramOpen;
  if (text === null && part.open) list(run, node, pre);
  part.addEventListener("toggle", () => {
    state.isProgramOpen = part.open;
    if (text === null && part.open) list(run, node, pre);
  });
  return [part];
}

/** Fetches the program that the node runs in the pulse shown. */
async function list(run, node, pre) {
  const asked = `${state.at} ${node}`;
  if (listed.run === run && listed.asked === asked) {
    pre.textContent = listed.text;
    return;
  }
  try {
    const answer = await programs.ask("program", { text: run.text, pulse: state.at, node });
    listed = { run, asked, text: answer.status === 0 ? answer.out : wordsOf(answer) };
    pre.textContent = listed.text;
  } catch (error) {
    if (isCancelled(error)) return;
    if (!(error instanceof NoAnswer)) throw error;
    pre.textContent = error.message;
  }
}

function show() {
  const { run, node } = state;
  if (!run) return;
  const name = namesAt(run, state.at)[node], words = wordsAt(run, state.at, node);
  get("node-name").textContent = `Node ${node} after pulse ${state.at}`;
  get("node").replaceChildren(
    facts(run, node, name, words), ...before(run), make("h3", {}, "Memory"), memory(run, node, words),
    make("h3", {}, "Messages"), mail(run, node));
  get("node-program").replaceChildren(...program(run, node));
  showHeard();
  showTrace();
}

// The trace.

/** The messages that a node received in the pulse shown, by their numbers: "4 from nodes 0 and 1; 7 from node 2". */
function heardInWords(run, node) {
  if (state.at === 1) return "In pulse 1 no node receives a message.";
  const nodes = Array.from({ length: run.frame.nodes }, (_, from) => from), senders = new Map();
  for (const from of nodes) {
    const number = received(run, state.at, from, node);
    if (number === undefined) return "";
    senders.set(number, [...(senders.get(number) ?? []), from]);
  }
  const told = (all) => `node${all.length > 1 ? "s" : ""} ${all.join(", ").replace(/, (\d+)$/, " and $1")}`;
  const parts = [...senders].map(([number, all]) => `${number ?? "no message"} from ${told(all)}`);
  return `Node ${node} received what was sent in pulse ${state.at - 1}: ${parts.join("; ")}.`;
}

function showHeard() {
  const { run, at, node } = state, isShort = run.frame.nodes <= MAX_HEARD && run.pulses[at - 1].ran[node] !== null;
  get("heard").textContent = isShort ? heardInWords(run, node) : "";
}

/** Shows the trace of the chosen node in the pulse shown, if that part of the page is open. */
async function showTrace() {
  const { run, at, node } = state;
  const asked = `${at} ${node}`;
  if (traced.asked === asked && traced.run === run) return;
  get("trace").replaceChildren("..");
  traced = {};
  if (!get("why").open) return;
  traced = { asked, run };
  if (run.pulses[at - 1].ran[node] === null) {
    get("trace").replaceChildren(make("p", {}, `Node ${node} has no program in pulse ${at}: nothing runs.`));
    return;
  }
  try {
    const answer = await traces.ask("trace", { text: run.text, pulse: at, node });
    if (answer.status !== 0 || answer.ended) throw new NoAnswer(wordsOf(answer));
    if (traced.asked !== asked) return;
    get("trace").replaceChildren(...why.parts(answer.out, ruleAt(run, at, node), run.frame.modulus));
  } catch (error) {
    if (isCancelled(error)) return;
    if (!(error instanceof NoAnswer)) throw error;
    get("trace").replaceChildren(make("p", { class: "wrong" }, error.message));
    say(error.message, true);
  }
}

export function begin() {
  on("shown", show);
  get("why").addEventListener("toggle", () => state.run && showTrace());
}
