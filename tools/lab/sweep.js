// The distribution of stabilisation times over a span of seeds, asked for in parts so that it grows as one looks.
import { Line, NoAnswer, isCancelled, wordsOf } from "./ask.js";
import { draw, get, make, numberIn, say, state, tell } from "./page.js";
import { setKey } from "./edits.js";

const FIRST_PART = 8, MAX_PART = 512, AIM = 700, MAX_BARS = 24, WIDE = 420, HIGH = 200, FOOT = 34, SIDE = 34, TOP = 14;
const END = 12;
const NEVER = "not synchronised", AXIS = "stabilisation time: pulse from which on the run is synchronised";
const line = new Line();
let rows = [], opened = new Map();

function parse(out) {
  const [names, ...lines] = out.trim().split("\n"), at = names.split(",");
  const [key, since] = [at.indexOf("key"), at.indexOf("in_step_since")];
  return lines.map((line) => {
    const cells = line.split(",");
    return { key: cells[key], since: cells[since] === "" ? null : Number(cells[since]) };
  });
}

/** Bars of equal spans of pulses, and one for the keys that are not synchronised at the end. */
function barsOf(pulses) {
  const times = rows.filter((it) => it.since !== null), last = Math.max(1, ...times.map((it) => it.since));
  const span = Math.max(1, Math.ceil(Math.min(last, pulses) / MAX_BARS)), bars = [];
  for (let from = 1; from <= last; from += span) {
    const keys = times.filter((it) => it.since >= from && it.since < from + span).map((it) => it.key);
    const words = span === 1 ? `pulse ${from}` : `pulses ${from} to ${from + span - 1}`;
    bars.push({ words, label: String(from), keys });
  }
  const never = rows.filter((it) => it.since === null).map((it) => it.key);
  if (never.length > 0) bars.push({ words: NEVER, label: "never", keys: never });
  return bars;
}

/** Opens one of the seeds of a bar: at each click the next one. */
function openSeed({ words, keys }) {
  if (keys.length === 0) return;
  const turn = opened.get(words) || 0, key = keys[turn % keys.length];
  opened.set(words, turn + 1);
  const edit = setKey(get("text").editor.text, key);
  if (!edit) {
    say("The lab can't find the line of the coins in this scenario.", true);
    return;
  }
  const since = rows.find((it) => it.key === key).since;
  const told = `Seed ${key}, one of ${keys.length}: ${since === null ? NEVER : `synchronised from pulse ${since} on`}.`;
  tell("edit", edit, (run) => since ?? run.frame.pulses, told);
}

function barPart(bar, at, count, most) {
  const room = (WIDE - SIDE - END) / count, high = ((HIGH - FOOT - TOP) * bar.keys.length) / most, x = SIDE + at * room;
  const words = `${bar.words}: ${bar.keys.length} seed${bar.keys.length === 1 ? "" : "s"}`;
  const part = draw("g", { class: "bar", role: "button", tabindex: "0", "aria-label": `${words}; opens one of them` });
  part.append(draw("title", {}, words));
  part.append(draw("rect", { x, y: TOP, width: room, height: HIGH - FOOT - TOP, class: "room" }));
  const kind = bar.words === NEVER ? "never" : "some", width = Math.max(1, room - 2);
  part.append(draw("rect", { x: x + 1, y: HIGH - FOOT - high, width, height: high, class: kind }));
  if (bar.words === NEVER || at % Math.ceil(count / 8) === 0) {
    part.append(draw("text", { x: x + room / 2, y: HIGH - FOOT + 13, class: "small" }, bar.label));
  }
  part.addEventListener("click", () => openSeed(bar));
  part.addEventListener("keydown", (event) => {
    if (event.key !== "Enter" && event.key !== " ") return;
    event.preventDefault();
    openSeed(bar);
  });
  return part;
}

function drawPlot() {
  const bars = barsOf(state.run.frame.pulses), most = Math.max(1, ...bars.map((it) => it.keys.length));
  const at = [...get("plot").querySelectorAll(".bar")].indexOf(document.activeElement);
  get("plot").replaceChildren(
    draw("text", { x: SIDE - 6, y: TOP + 4, class: "small end" }, most),
    draw("text", { x: SIDE - 6, y: HIGH - FOOT, class: "small end" }, 0),
    draw("line", { x1: SIDE, x2: WIDE, y1: HIGH - FOOT, y2: HIGH - FOOT, class: "axis" }),
    ...bars.map((bar, place) => barPart(bar, place, bars.length, most)),
    draw("text", { x: WIDE / 2, y: HIGH - 4, class: "small" }, AXIS));
  if (at >= 0) get("plot").querySelectorAll(".bar")[at]?.focus();
}

function report(words, isWrong = false) {
  get("swept").replaceChildren(make("p", isWrong ? { class: "wrong" } : {}, words));
}

async function start() {
  const first = BigInt(get("first-key").value || 1), count = numberIn(get("keys"), 100);
  rows = [];
  opened = new Map();
  get("plot").replaceChildren();
  get("sweep").disabled = true;
  get("sweep-cancel").disabled = false;
  try {
    await sweep(state.run.text, first, count);
  } catch (why) {
    if (!isCancelled(why) && !(why instanceof NoAnswer)) throw why;
    report(isCancelled(why) ? `cancelled after ${rows.length} seeds` : why.message, !isCancelled(why));
  } finally {
    get("sweep").disabled = false;
    get("sweep-cancel").disabled = true;
  }
}

/** Asks for part after part, each of about the time AIM. */
async function sweep(text, first, count) {
  const began = Date.now();
  for (let done = 0, part = FIRST_PART; done < count;) {
    const many = Math.min(part, count - done), from = first + BigInt(done), asked = Date.now();
    const answer = await line.ask("sweep", { text, first: String(from), last: String(from + BigInt(many - 1)) });
    if (answer.status !== 0 || answer.ended) {
      report(wordsOf(answer), true);
      get("draw-coins").hidden = !answer.out.includes("NoKey");
      return;
    }
    rows.push(...parse(answer.out));
    done += many;
    if (Date.now() - asked < AIM) part = Math.min(MAX_PART, part * 2);
    const never = rows.filter((it) => it.since === null).length, seconds = ((Date.now() - began) / 1000).toFixed(1);
    report(`${done} of ${count} seeds, ${seconds} s; ${never} not synchronised at the end`);
    drawPlot();
  }
}

function drawCoins() {
  const edit = setKey(get("text").editor.text, 1);
  if (edit) tell("edit", edit);
  get("draw-coins").hidden = true;
  report("The coins of the scenario are drawn by a seed now: ask again.");
  get("sweep").focus();
}

export function begin() {
  get("sweep-form").addEventListener("submit", (event) => {
    event.preventDefault();
    get("draw-coins").hidden = true;
    if (state.run && get("sweep-form").reportValidity()) start();
  });
  get("sweep-cancel").addEventListener("click", () => line.cancel());
  get("draw-coins").addEventListener("click", drawCoins);
}
