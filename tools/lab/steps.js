// A counterexample as steps: for each pulse the clocks, what the Byzantine nodes sent, and the line of the rule that
// set each clock.
import { Line, NoAnswer, isCancelled, wordsOf } from "./ask.js";
import { button, get, make, on, say, state } from "./page.js";
import { loadAt, ruleOf } from "./programs.js";
import { choose, goTo } from "./run.js";
import { because } from "./why.js";

const MAX_PULSES = 24, MAX_TRACES = 96;
const line = new Line();
let opened = null;

/** Shows the steps of this text once it has run. */
export function showFor(text) {
  opened = text;
}

const word = (verdict) => (verdict === null ? "none" : verdict ? "yes" : "no");

function sentBy(pulse, node) {
  const parts = pulse.sent[node].flatMap((it, to) => (it === null || to === node ? [] : [`${it} to ${to}`]));
  return parts.length > 0 ? `Node ${node} sends ${parts.join(", ")}.` : `Node ${node} sends nothing.`;
}

/** Adds to the list of a pulse why each of its clocks moved; by the rule of the node, so a built-in clock has none. */
async function addReasons(run, pulse, list) {
  for (const [node, clock] of pulse.clocks.entries()) {
    const rule = clock === null || !run.scenario ? null : ruleOf(run.scenario, loadAt(run.scenario, node, pulse.pulse));
    if (rule === null) continue;
    const answer = await line.ask("trace", { text: run.text, pulse: pulse.pulse, node });
    if (answer.status !== 0 || answer.ended) throw new NoAnswer(wordsOf(answer));
    const reason = because(answer.out, rule, run.frame.modulus);
    if (reason) list.append(make("li", {}, `Node ${node}. ${reason}`));
  }
}

function stepOf(pulse) {
  const clocks = pulse.clocks.map((it) => it ?? "-").join(" ");
  const words = `Pulse ${pulse.pulse}: clocks ${clocks}, agree ${word(pulse.agree)}`;
  const head = button(words, () => {
    goTo(pulse.pulse);
    choose(Math.max(0, pulse.clocks.findIndex((it) => it !== null)));
  }, pulse.agree === false ? { class: "wrong" } : {});
  const list = make("ul", {}), adversaries = pulse.ran.flatMap((it, node) => (it === "clock" ? [] : [node]));
  list.append(...adversaries.map((it) => make("li", {}, sentBy(pulse, it))));
  return { part: make("div", { class: "step" }, head, list), list };
}

async function fill(run) {
  const answer = await line.ask("pulses", { text: run.text, from: 1, until: Math.min(run.frame.pulses, MAX_PULSES) });
  if (answer.status !== 0 || answer.ended) throw new NoAnswer(wordsOf(answer));
  const pulses = answer.out.trim().split("\n").slice(1, -1).map((it) => JSON.parse(it));
  const steps = pulses.map((it) => [it, stepOf(it)]);
  get("steps").replaceChildren(make("h3", {}, "The counterexample, step by step"), ...steps.map(([, it]) => it.part));
  get("steps").scrollIntoView({ block: "nearest" });
  if (pulses.length * run.frame.nodes > MAX_TRACES) return;
  for (const [pulse, { list }] of steps) await addReasons(run, pulse, list);
}

async function show() {
  const { run } = state;
  line.cancel();
  get("steps").replaceChildren();
  if (run.text !== opened) return;
  try {
    await fill(run);
  } catch (error) {
    if (isCancelled(error)) return;
    if (!(error instanceof NoAnswer)) throw error;
    say(error.message, true);
  }
}

export function begin() {
  on("run", show);
}
