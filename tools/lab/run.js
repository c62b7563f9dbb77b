// The run of the text: asked for after a pause, with the memories and messages of the pulses near the one shown.
import { Line, NoAnswer, isCancelled, wordsOf } from "./ask.js";
import { say, state, tell } from "./page.js";
import { read } from "./toml.js";

const PAUSE = 350, NUMBERS_AT_ONCE = 40000, LEAST_NEAR = 16, MAX_PULSES = 1000;
const LOOP = /^# pulses? (\d+)(?: to (\d+))? (?:comes?|repeats?)\b/m;
const runs = new Line(), windows = new Line();
let timer = null, wanted = null;
/** Whether a part of the page has asked for a pulse that wasn't there. */
let isMissed = false;

/**
 * Runs this text after a pause: "run" is the event of a good run, "refused" that of a rejected text, and "ended" that
 * of a run past a limit of the lab.
 */
export function schedule(text, pause = PAUSE) {
  clearTimeout(timer);
  runs.cancel();
  state.isStale = true;
  state.isRunning = true;
  tell("asked");
  timer = setTimeout(() => start(text), pause);
}

async function start(text) {
  try {
    const answer = await runs.ask("run", { text, whole: LEAST_NEAR + 1 });
    state.isRunning = false;
    if (answer.status === 0 && !answer.ended) accept(text, answer);
    else fail(answer.ended ? "ended" : "refused", wordsOf(answer));
  } catch (why) {
    if (isCancelled(why)) return;
    state.isRunning = false;
    if (!(why instanceof NoAnswer)) throw why;
    fail("ended", why.message);
  }
}

function accept(text, { frame, pulses, inside, last }) {
  windows.cancel();
  wanted = null;
  const known = new Map(inside.map((it) => [it.pulse, it])), loop = loopOf(text, frame.pulses);
  state.run = { text, frame, pulses, last, inside: known, scenario: read(text), loop };
  state.isStale = false;
  state.node = Math.min(state.node, frame.nodes - 1);
  state.at = Math.min(state.at, frame.pulses);
  if (state.goTo) state.at = Math.min(frame.pulses, state.goTo(state.run));
  state.goTo = null;
  tell("run");
  tell("shown");
}

function fail(event, words) {
  state.goTo = null;
  tell(event, words);
}

/** The pulses that come again and again, as the scenario of a clock that never agrees says in a comment. */
function loopOf(text, pulses) {
  const found = LOOP.exec(text);
  if (!found) return null;
  const from = Number(found[1]), until = Number(found[2] || found[1]);
  return from >= 1 && from <= until && until <= pulses ? { from, until } : null;
}

/** How many pulses on each side are asked for at once. */
const near = ({ frame }) => Math.max(LEAST_NEAR, Math.floor(NUMBERS_AT_ONCE / frame.nodes ** 2));

/** Returns {memory, sent} of a pulse, or undefined until it is there. A line that was fetched is read when it is shown:
 * to read all of a span at once would delay a step. */
export function insideOf(run, pulse) {
  const found = run.inside.get(pulse);
  if (found === undefined) isMissed = true;
  if (typeof found !== "string") return found;
  const read = JSON.parse(found);
  run.inside.set(pulse, read);
  return read;
}

/** Fetches the pulse shown and those near it, if they are not there. */
export function fetchNear() {
  const { run, at } = state, near_ = near(run), last = run.frame.pulses;
  const isThere = (pulse) => pulse < 1 || pulse > last || run.inside.has(pulse);
  const isUrgent = !isThere(at) || !isThere(at - 1);
  const ahead = isThere(at + near_ / 2 | 0) && isThere(at - near_ / 2 | 0);
  if (!isUrgent && ahead) return;
  const from = Math.max(1, at - near_), until = Math.min(last, MAX_PULSES, at + near_);
  if (wanted && wanted.from <= Math.max(1, at - 1) && at <= wanted.until) return;
  fetchSpan(run, { from, until });
}

async function fetchSpan(run, span) {
  wanted = span;
  try {
    const answer = await windows.ask("pulses", { text: run.text, ...span });
    if (answer.status !== 0 || answer.ended) throw new NoAnswer(wordsOf(answer));
    answer.out.trim().split("\n").slice(1, -1).forEach((it, at) => {
      if (!run.inside.has(span.from + at)) run.inside.set(span.from + at, it);
    });
    if (wanted === span) wanted = null;
    // If nothing was missed, all that is shown is drawn already: to draw it again would delay a step.
    if (run !== state.run || !isMissed) return;
    isMissed = false;
    tell("shown");
  } catch (why) {
    if (wanted === span) wanted = null;
    if (!isCancelled(why)) say(`Messages of pulse ${state.at}: ${why.message}`, true);
  }
}

/** The memory of each node as this pulse begins, or null while it isn't known. */
export function memoryBefore(run, pulse, node) {
  if (pulse === 1) return "00".repeat(run.frame.memory);
  return insideOf(run, pulse - 1)?.memory[node] ?? null;
}

/** What node `from` sent to node `to` in the pulse before, which it receives in this one: undefined if not known. */
export function received(run, pulse, from, to) {
  if (pulse === 1) return null;
  const before = insideOf(run, pulse - 1);
  return before ? before.sent[from][to] : undefined;
}

/** Shows a pulse. */
export function goTo(pulse) {
  if (!state.run) return;
  state.at = Math.max(1, Math.min(state.run.frame.pulses, pulse));
  tell("shown");
}

export function choose(node) {
  if (!state.run) return;
  const { nodes } = state.run.frame;
  state.node = (node + nodes) % nodes;
  tell("shown");
}
