// Asks `explore` for the correct nodes of the scenario. The bound on states grows from question to question, so that
// the page can show how far the program is.
import { Line, NoAnswer, isCancelled } from "./ask.js";
import { button, get, make, on, say, state, tell } from "./page.js";
import { loadAt } from "./programs.js";
import { showFor } from "./steps.js";
import { longText, valueOf } from "./toml.js";

const FIRST_BOUND = 2000, GROWS_BY = 4, VERSION_OF_MANY = 2, MAX_OF_FIRST = 32;
// Statuses of the program.
const HOLDS = 0, VIOLATED = 3, NOT_FINISHED = 4;
const SCENARIO = /^(version|nodes) = /m, MARK = /^# /;
/** What an answer has that no search gave. */
export const BY_THEOREM = ", by the theorem";
const line = new Line();
let ticking = null;

/** The nodes that run the scenario's clock in pulse 1, or else those with any program. */
export function likelyCorrect(run) {
  const { ran } = run.pulses[0], clocks = ran.flatMap((it, node) => (it === "clock" ? [node] : []));
  return clocks.length > 0 ? clocks : ran.flatMap((it, node) => (it === null ? [] : [node]));
}

function drawNodes() {
  const { run } = state, correct = likelyCorrect(run), mine = `${run.frame.nodes} ${correct}`;
  if (get("correct").drawnFor === mine) return;
  get("correct").drawnFor = mine;
  const boxes = Array.from({ length: run.frame.nodes }, (_, node) => {
    const box = make("input", { type: "checkbox", value: node });
    box.checked = correct.includes(node);
    return make("label", {}, box, node);
  });
  get("correct").replaceChildren(...boxes);
}

const chosenNodes = () => [...get("correct").querySelectorAll("input:checked")].map((it) => Number(it.value));

/** The load of a node before pulse 1, as lines of an entry that several nodes may share. */
function loadLines(scenario, node) {
  const load = loadAt(scenario, node, 1), program = load ? valueOf(load.keys, "program") : "clock";
  if (program === "asm" || program === "rule") {
    return `program = "${program}"\ntext = ${longText(valueOf(load.keys, "text"))}`;
  }
  if (program === "say") return `program = "say"\nvalues = [${valueOf(load.keys, "values").join(", ")}]`;
  return `program = "${program}"`;
}

function headOf({ frame, scenario }) {
  const own = ["clock", "rule"].filter((key) => valueOf(scenario.top, key) !== undefined);
  const least = frame.nodes > MAX_OF_FIRST ? VERSION_OF_MANY : 1;
  const version = Math.max(frame.format, least);
  const numbers = ["nodes", "faults", "modulus", "memory", "pulses"].map((it) => `${it} = ${frame[it]}`);
  const head = [...(version > 1 ? [`version = ${version}`] : []), ...numbers, 'coins = "zeros"'];
  return [...head, ...own.map((key) => `${key} = ${longText(valueOf(scenario.top, key))}`)];
}

/** The scenario that is explored: the correct nodes alone, loaded before pulse 1. */
export function exploredText(run, nodes) {
  const byLoad = new Map();
  for (const node of nodes) {
    const lines = loadLines(run.scenario, node);
    byLoad.set(lines, [...(byLoad.get(lines) || []), node]);
  }
  const loads = [...byLoad].map(([lines, its]) => `\n[[load]]\npulse = 1\nnodes = [${its.join(", ")}]\n${lines}\n`);
  return `${headOf(run).join("\n")}\n${loads.join("")}`;
}

function options() {
  const asked = { states: Number(get("most-states").value), ask: get("question").value };
  if (get("depth").value) asked.depth = Number(get("depth").value);
  if (get("odds").value && !get("odds").disabled) asked.odds = Number(get("odds").value);
  if (get("sent").value.trim()) asked.mail = get("sent").value.replace(/\s+/g, "");
  if (get("start").value === "any") {
    const bytes = get("start-bytes").value.replace(/\s+/g, "");
    asked[bytes.includes("=") ? "cells" : "bytes"] = bytes;
  }
  if (get("start").value === "every") asked.start = "every";
  return asked;
}

const log = (words, kind = {}) => get("explored").append(make("p", kind, words));

function tick(began) {
  const show = () => {
    get("explore-time").textContent = `${((Date.now() - began) / 1000).toFixed(1)} s`;
  };
  show();
  ticking = setInterval(show, 200);
}

function finish() {
  clearInterval(ticking);
  get("explore-time").textContent = "";
  get("explore").disabled = false;
  get("explore-cancel").disabled = true;
}

async function start() {
  const { run } = state, nodes = chosenNodes();
  get("explored").replaceChildren();
  if (!run.scenario) {
    log("The lab can't find the programs in this text: write it as docs/SCENARIOS.md does.", { class: "wrong" });
    return;
  }
  if (!get("explore-form").reportValidity()) return;
  get("explore").disabled = true;
  get("explore-cancel").disabled = false;
  tick(Date.now());
  try {
    await search(exploredText(run, nodes), options());
  } catch (why) {
    if (!isCancelled(why) && !(why instanceof NoAnswer)) throw why;
    log(isCancelled(why) ? "cancelled" : why.message, { class: "wrong" });
  } finally {
    finish();
  }
}

/** Asks with a growing bound until the search ends or the last bound is reached, where a theorem may answer. */
async function search(text, asked) {
  const began = Date.now();
  for (let bound = Math.min(FIRST_BOUND, asked.states); ; bound = Math.min(bound * GROWS_BY, asked.states)) {
    const answer = await line.ask("explore", { text, ...asked, states: bound });
    const seconds = ((Date.now() - began) / 1000).toFixed(1), states = /(\d+) states?/.exec(answer.out)?.[1];
    const isCut = answer.status === NOT_FINISHED && answer.out.includes("--states") || answer.out.includes(BY_THEOREM);
    if (!isCut || bound >= asked.states) {
      show(answer, seconds);
      return;
    }
    log(`${states ?? bound} states, ${seconds} s: goes on`);
  }
}

/** The words of an answer, and the answer as a scenario if it has a counterexample: then its words are comments. */
export function parted(out) {
  if (!SCENARIO.test(out)) return { words: out.trim(), text: null };
  const lines = out.split("\n"), words = lines.slice(0, lines.findIndex((it) => !MARK.test(it)));
  return { words: words.map((it) => it.replace(MARK, "")).join("\n"), text: out };
}

/** Where a counterexample is looked at: the first pulse whose clocks don't agree, the loop, or the last pulse. */
function pulseInQuestion(run) {
  const first = run.pulses.find((it) => it.agree === false);
  return run.loop ? run.loop.from : first ? first.pulse : run.frame.pulses;
}

function show(answer, seconds) {
  const { words, text } = parted(answer.out), isWrong = ![HOLDS, VIOLATED].includes(answer.status) || answer.ended;
  for (const it of words.split("\n").filter(Boolean)) log(it, { class: isWrong ? "wrong" : "answer" });
  if (answer.err || answer.ended) log(answer.err + answer.ended, { class: "wrong" });
  log(`${seconds} s`);
  if (text === null) return;
  const open = button("Open the counterexample", () => {
    showFor(text);
    tell("open", text, "", pulseInQuestion);
    say("The counterexample is in the editor; Ctrl+Z brings back your scenario.");
  }, { id: "counterexample" });
  get("explored").append(open);
  open.focus();
}

export function begin() {
  get("explore-form").addEventListener("submit", (event) => {
    event.preventDefault();
    if (state.run) start();
  });
  get("explore-cancel").addEventListener("click", () => line.cancel());
  const showStart = () => {
    get("start-bytes").hidden = get("start-bytes").disabled = get("start").value !== "any";
  };
  get("question").addEventListener("change", () => {
    get("odds").disabled = get("question").value === "agreement";
  });
  get("start").addEventListener("change", showStart);
  showStart();
  on("run", drawNodes);
}

