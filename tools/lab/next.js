// What an adversary could send in the pulse shown, and where that leads: the transitions of `explore` from the state
// shown, each with messages and coins that lead there. If `explore` doesn't take the bench, runs with other messages.
import { Line, NoAnswer, isCancelled, wordsOf } from "./ask.js";
import { button, get, make, on, say, state, tell } from "./page.js";
import { loadSay, setCoin } from "./edits.js";
import { insideOf } from "./run.js";

const MAX_CHOICES = 256, MAX_CHARACTERS = 1500000, MAX_RECEIVERS = 7, MAX_ROWS = 64, NONE = null, COINS = [0, 1];
const line = new Line();

/** The node whose messages are chosen: the one shown if it doesn't run the clock, or the first that doesn't. */
function adversaryOf(ran) {
  return ran[state.node] !== "clock" ? state.node : ran.findIndex((it) => it !== "clock");
}

/** How many runs the lab may ask for at once. */
const mostRuns = ({ text }) => Math.min(MAX_CHOICES, Math.floor(MAX_CHARACTERS / text.length));

/** All lists of one of these for each of several. */
const listsOf = (items, length) =>
  Array.from({ length }).reduce((lists) => lists.flatMap((it) => items.map((item) => [...it, item])), [[]]);

/** The messages that are tried: none, what the receivers sent, and 0 to the modulus. If they are too many, those near
 * the clocks shown. */
function messagesFor({ run, at, receivers }, most) {
  const clocks = receivers.map((it) => run.pulses[at - 1].clocks[it]), { modulus } = run.frame;
  const sent = receivers.flatMap((it) => insideOf(run, at)?.sent[it] ?? []).filter((it) => it !== NONE);
  const all = new Set([NONE, ...Array.from({ length: Math.min(modulus + 1, most) }, (_, it) => it), ...sent]);
  if (modulus < most && all.size <= most) return [...all];
  return [...new Set([NONE, ...clocks, 0, ...clocks.map((it) => (it + 1) % modulus), ...sent])].slice(0, most);
}

/** Which nodes choose their messages, and which messages: all that don't run the clock, if they aren't too many. */
function choicesFor(asked, all) {
  const most = mostRuns(asked.run) / COINS.length, free = [asked.node];
  const messages = messagesFor(asked, most), areFew = messages.length ** all.length <= most;
  return { free: areFew ? all : free, messages };
}

/** The edit by which the free nodes send these messages: sent[k][to] is that of the k-th to a node. */
function editOf({ run, at, free }, sent, coins) {
  const loaded = free.reduce(({ text }, node, k) => loadSay(text, at, node, sent[k]), { text: run.text });
  return Object.entries(coins).reduce(({ text }, [node, coin]) => setCoin(text, at + 1, Number(node), coin), loaded);
}

function wordsFor({ free, receivers }, { sent, coins }) {
  const to = (values) => receivers.map((it) => `${values[it] ?? "none"} to ${it}`).join(", ");
  const messages = free.map((node, k) => `node ${node} sends ${to(sent[k])}`);
  const tossed = Object.entries(coins).map(([node, coin]) => `coin ${coin} of node ${node}`);
  return [...messages, ...tossed].join("; ");
}

/** Takes a choice: one edit of the text, which one undo takes back. */
function take(asked, choice) {
  const words = wordsFor(asked, choice), { at } = asked;
  tell("edit", editOf(asked, choice.sent, choice.coins), () => at + 1,
    `${words[0].toUpperCase()}${words.slice(1)}, from pulse ${at} on. Ctrl+Z undoes it.`);
}

/** The pulse after the one shown in a run of each text. */
async function pulsesOf(texts, pulse) {
  const { answers } = await line.ask("next", { texts, pulse });
  const wrong = answers.find((it) => it.status !== 0 || it.ended);
  if (wrong) throw new NoAnswer(wordsOf(wrong));
  return answers.map((it) => JSON.parse(it.out.split("\n")[1]));
}

/** For each receiver its clocks after the pulse, each with messages and a coin that lead there. The first counts: it
 * has the coin of the scenario, if one such leads there. */
async function outcomesOf(asked) {
  const { run, at, free, receivers, messages } = asked, coins = run.pulses[at].coins;
  const tuples = listsOf(messages, free.length), choices = COINS.flatMap((coin) => tuples.map((it) => [it, coin]));
  const all = (value) => Array(run.frame.nodes).fill(value);
  const texts = choices.map(([tuple, coin]) =>
    editOf(asked, tuple.map(all), Object.fromEntries(receivers.map((it) => [it, coin]))).text);
  const pulses = await pulsesOf(texts, at + 1);
  return receivers.map((node) => {
    const isOwn = (it) => choices[it][1] === coins[node], found = new Map();
    const order = [...choices.keys()].sort((one, other) => isOwn(other) - isOwn(one) || one - other);
    for (const it of order) {
      const clock = pulses[it].clocks[node], [tuple, coin] = choices[it];
      if (!found.has(clock)) found.set(clock, { tuple, coin: isOwn(it) ? null : coin });
    }
    return found;
  });
}

/** The choice that leads to these clocks, by one outcome for each receiver. */
function choiceFor({ run, free, receivers }, outcomes, clocks) {
  const sent = free.map(() => Array(run.frame.nodes).fill(NONE)), coins = {};
  receivers.forEach((to, at) => {
    const found = outcomes[at].get(clocks[at]);
    if (!found) throw new NoAnswer(`explore has clock ${clocks[at]} of node ${to}, and no run has it.`);
    found.tuple.forEach((message, k) => {
      sent[k][to] = message;
    });
    if (found.coin !== null) coins[to] = found.coin;
  });
  return { sent, coins };
}

const clocksIn = (pulse, receivers) => receivers.map((it) => pulse.clocks[it]);

function rowFor(asked, pulse, choice) {
  const clocks = clocksIn(pulse, asked.receivers).map((it) => it ?? "-").join(" ");
  const verdict = pulse.agree === null ? "none" : pulse.agree ? "yes" : "no";
  const words = `clocks ${clocks}, agree ${verdict}: ${wordsFor(asked, choice)}`;
  return make("li", {}, button("Take", () => take(asked, choice), { "aria-label": `Take: ${words}` }),
    make("span", { class: pulse.agree === false ? "wrong" : "" }, words));
}

function show(asked, words, rows) {
  const told = asked.messages.map((it) => it ?? "none").join(", "), nodes = asked.free.join(", ");
  const sent = `Nodes that choose: ${nodes}. Messages in pulse ${asked.at}: ${told}.`;
  get("nexts").replaceChildren(...[...words, sent].map((it) => make("p", {}, it)), make("ul", {}, ...rows));
}

/** Shows the transitions of `explore`, each as a run that leads there. */
async function showTransitions(asked, reached) {
  const outcomes = await outcomesOf(asked), differing = (it) => Object.keys(it.coins).length;
  const choices = reached.map((it) => choiceFor(asked, outcomes, it)).map((it, at) => [it, reached[at]]);
  const shown = choices.sort(([one], [other]) => differing(one) - differing(other)).slice(0, MAX_ROWS);
  const pulses = await pulsesOf(shown.map(([it]) => editOf(asked, it.sent, it.coins).text), asked.at + 1);
  const wrong = shown.findIndex(([, clocks], at) => String(clocks) !== String(clocksIn(pulses[at], asked.receivers)));
  if (wrong >= 0) throw new NoAnswer(`explore has the clocks ${shown[wrong][1]}, and the run of its choice hasn't.`);
  const first = shown.length < reached.length ? ` The first ${shown.length} are:` : "";
  const words = `explore has ${reached.length} next state${reached.length > 1 ? "s" : ""} by clocks.${first}`;
  show(asked, [words], shown.map(([choice], at) => rowFor(asked, pulses[at], choice)));
}

/** Shows runs with other messages, with the coins of the scenario; those with the same clocks are one row. */
async function showRuns(asked, why) {
  const { run, receivers, at, node, messages } = asked;
  const few = messages.slice(0, Math.floor(mostRuns(run) ** (1 / receivers.length) + 1e-9));
  const choices = listsOf(few, receivers.length).map((it) => {
    const sent = Array(run.frame.nodes).fill(NONE);
    receivers.forEach((to, k) => {
      sent[to] = it[k];
    });
    return { sent: [sent], coins: {} };
  });
  const own = { ...asked, free: [node], messages: few }, rows = new Map();
  const pulses = await pulsesOf(choices.map((it) => editOf(own, it.sent, it.coins).text), at + 1);
  pulses.forEach((pulse, it) => {
    const key = String(pulse.clocks);
    if (!rows.has(key)) rows.set(key, rowFor(own, pulse, choices[it]));
  });
  show(own, [`These are runs with other messages, and a state may be missing: ${why}.`], [...rows.values()]);
}

async function ask(asked) {
  const { run, at, receivers, free, messages } = asked;
  if (messages.length < 2) throw new NoAnswer("The text is too long for runs of its next states.");
  if (run.pulses[at].staged.length > 0) {
    await showRuns(asked, `the scenario changes a node before pulse ${at + 1}, and explore has no such changes`);
    return;
  }
  const mail = messages.filter((it) => it !== NONE).join(",");
  const answer = await line.ask("transitions", { text: run.text, pulse: at, correct: receivers, free, mail });
  if (answer.why === undefined) throw new NoAnswer(wordsOf(answer));
  if (answer.why) await showRuns(asked, `explore doesn't take this state (${answer.why})`);
  else await showTransitions(asked, answer.clocks);
}

/** Why there are no next states to choose from, or "". */
function obstacle({ run, node, at, receivers }) {
  if (state.isStale) return "The text has no run yet.";
  if (node < 0) return "Every node runs the clock: there is no adversary.";
  if (at === run.frame.pulses) return "This is the last pulse: raise pulses in the text.";
  return receivers.length === 0 || receivers.length > MAX_RECEIVERS
    ? `Next states are for 1 to ${MAX_RECEIVERS} nodes that run the clock.` : "";
}

async function start() {
  const { run, at } = state, { ran } = run.pulses[at - 1], node = adversaryOf(ran);
  const nodes = [...ran.keys()], others = nodes.filter((it) => ran[it] !== "clock");
  const asked = { run, node, at, receivers: nodes.filter((it) => ran[it] === "clock") }, why = obstacle(asked);
  get("nexts").replaceChildren(make("p", {}, why || ".."));
  if (why) return;
  try {
    await ask({ ...asked, ...choicesFor(asked, others) });
  } catch (error) {
    if (isCancelled(error)) return;
    if (!(error instanceof NoAnswer)) throw error;
    get("nexts").replaceChildren(make("p", { class: "wrong" }, error.message));
    say(error.message, true);
  }
}

export function begin() {
  get("next").addEventListener("click", () => state.run && start());
  on("shown", () => {
    line.cancel();
    get("nexts").replaceChildren();
  });
}
