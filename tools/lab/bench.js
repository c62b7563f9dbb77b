// The nodes in a ring, and the messages of the pulse as arrows.
import { draw, get, on, state } from "./page.js";
import { NEUTRAL, colourOf, diverging, equivocates, inkOn, looksOf } from "./colours.js";
import { namesAt } from "./programs.js";
import { choose, fetchNear, insideOf } from "./run.js";

const WIDE = 720, HIGH = 620, MAX_WITH_ALL = 8, MAX_WITH_WORDS = 16, BEND = 0.13, MAX_DIGITS = 5, INSET = 0.1;

const radius = (nodes) => (nodes === 1 ? 0 : nodes <= MAX_WITH_WORDS ? 206 : 270);
const size = (nodes) => Math.max(9, Math.min(32, 600 / nodes));

function place(nodes, node) {
  const angle = (2 * Math.PI * node) / nodes - Math.PI / 2;
  return [WIDE / 2 + radius(nodes) * Math.cos(angle), HIGH / 2 + radius(nodes) * Math.sin(angle)];
}

/** The point beside a node, seen from the middle: so far from its edge along and so far down. */
function beside(nodes, node, along, down) {
  const [x, y] = place(nodes, node), out = radius(nodes), by = size(nodes);
  if (out === 0) return [x, y + by + down];
  return [x + ((x - WIDE / 2) / out) * (by + along), y + ((y - HIGH / 2) / out) * (by + down)];
}

/** A curve from node to node: the point at a share of its way. */
function curve(nodes, from, to) {
  const [x1, y1] = place(nodes, from), [x2, y2] = place(nodes, to), long = Math.hypot(x2 - x1, y2 - y1);
  const middle = [(x1 + x2) / 2 - BEND * (y2 - y1), (y1 + y2) / 2 + BEND * (x2 - x1)];
  const at = (t) => [0, 1].map((k) => (1 - t) ** 2 * [x1, y1][k] + 2 * t * (1 - t) * middle[k] + t ** 2 * [x2, y2][k]);
  const gap = (size(nodes) + 5) / long;
  return { at, middle, begin: at(gap), end: at(1 - gap), before: at(1 - gap - 12 / long) };
}

/** A number as an arrow shows it: among many nodes a long one would hide others. */
const shortened = (number, nodes) =>
  nodes > MAX_WITH_ALL && String(number).length > MAX_DIGITS ? `${String(number).slice(0, 2)}..` : number;

function arrow(nodes, from, to, number, [stroke, dashes], isFaint) {
  const { at, middle, begin, end, before } = curve(nodes, from, to);
  const [dx, dy] = [(end[0] - before[0]) / 2.6, (end[1] - before[1]) / 2.6];
  const head = `M${end}L${[before[0] - dy, before[1] + dx]}L${[before[0] + dy, before[1] - dx]}z`;
  const [x, y] = at(nodes <= MAX_WITH_ALL ? 0.7 : 0.86), kind = nodes > MAX_WITH_ALL ? "number of-many" : "number";
  return draw("g", { class: isFaint ? "arrow faint" : "arrow", "data-from": from, "data-to": to },
    draw("path", { d: `M${begin}Q${middle} ${end}`, class: "line", stroke, "stroke-dasharray": dashes || "none" }),
    draw("path", { d: head, fill: stroke }),
    draw("text", { x, y: y + 5, class: kind, fill: stroke }, shortened(number, nodes)));
}

/** Who sent what to whom in what is shown: messages sent in this pulse, or those received in it. */
function messages(run) {
  if (!state.isReceived) return insideOf(run, state.at)?.sent;
  if (state.at === 1) return run.pulses[0].clocks.map(() => run.pulses[0].clocks.map(() => null));
  return insideOf(run, state.at - 1)?.sent;
}

/** Of many nodes only the chosen one's arrows are drawn whole; senders that equivocate are thin lines. */
function arrows(run, sent) {
  const { nodes } = run.frame, showAll = nodes <= MAX_WITH_ALL, drawn = [], thin = new Map();
  sent.forEach((row, from) => {
    const looks = looksOf(sent, from);
    row.forEach((number, to) => {
      if (number === null || from === to) return;
      const look = looks[to], isFaint = look === NEUTRAL && from !== state.node && to !== state.node;
      if (showAll || state.node === (state.isReceived ? to : from)) {
        drawn.push(arrow(nodes, from, to, number, look, isFaint));
      } else if (look !== NEUTRAL) {
        addThin(thin, look[0], nodes, from, to);
      }
    });
  });
  const lines = [...thin].map(([stroke, parts]) => draw("path", { d: parts.join(""), class: "thin", stroke }));
  return [...lines, ...drawn];
}

function addThin(thin, stroke, nodes, from, to) {
  if (!thin.has(stroke)) thin.set(stroke, []);
  thin.get(stroke).push(`M${place(nodes, from)}L${place(nodes, to)}`);
}

/** Returns what is shown of a node in words, for those who hear the page. */
function inWords(run, node, name, isTwoFaced, isWrong) {
  const { clocks, settled } = run.pulses[state.at - 1], clock = clocks[node];
  const words = [`node ${node}`, name, clock === null ? "no clock" : `clock ${clock}`];
  words.push(settled[node] ? "settled" : "not settled");
  if (isTwoFaced) words.push("equivocates");
  if (isWrong) words.push("violates agreement");
  return words.join(", ");
}

function labels(run, node, name, isTwoFaced) {
  const { nodes } = run.frame;
  if (nodes > MAX_WITH_WORDS) {
    const [x, y] = beside(nodes, node, 13, 13);
    return [draw("text", { x, y: y + 4, class: `small number-only${isTwoFaced ? " two-faced" : ""}` }, node)];
  }
  const [x, y] = beside(nodes, node, isTwoFaced ? 72 : 62, 36), coin = run.pulses[state.at - 1].coins[node];
  const parts = [draw("text", { x, y: y - 4, class: "small" }, `node ${node}`)];
  parts.push(draw("text", { x, y: y + 12, class: "small" }, `${name}, coin ${coin}`));
  if (isTwoFaced) parts.push(draw("text", { x, y: y + 28, class: "small two-faced" }, "equivocates"));
  return parts;
}

function circle(run, node, name, isWrong, isTwoFaced) {
  const { nodes, modulus } = run.frame, pulse = run.pulses[state.at - 1], r = size(nodes);
  const [cx, cy] = place(nodes, node), clock = pulse.clocks[node], fill = colourOf(run, state.at, node);
  const classes = ["node", name === "empty" && "empty", pulse.settled[node] && "settled", isWrong && "diverging"];
  const words = inWords(run, node, name, isTwoFaced, isWrong);
  const attributes = { class: classes.filter(Boolean).join(" "), "data-node": node, role: "img", "aria-label": words };
  const part = draw("g", attributes, draw("title", {}, words));
  if (node === state.node) part.append(draw("circle", { cx, cy, r: r + 6, class: "chosen" }));
  if (isTwoFaced) part.append(draw("circle", { cx, cy, r: r + 3, class: "two-faced" }));
  part.append(draw("circle", { cx, cy, r, fill, class: "body" }));
  if (pulse.settled[node]) part.append(draw("circle", { cx, cy, r: r * (1 - INSET), class: "inner" }));
  const text = clock === null ? (r > 16 ? name : "") : clock >= modulus ? "!" : clock;
  const kind = r <= 16 ? "clock little" : clock === null ? "clock of-name" : "clock";
  part.append(draw("text", { x: cx, y: cy + 4, fill: inkOn(fill), class: kind }, text));
  part.append(...labels(run, node, name, isTwoFaced));
  return part;
}

function show() {
  const { run } = state;
  if (!run) return;
  fetchNear();
  const sent = messages(run), names = namesAt(run, state.at), wrong = diverging(run, run.pulses[state.at - 1]);
  const parts = sent ? arrows(run, sent) : [draw("text", { x: WIDE / 2, y: HIGH / 2, class: "small" }, "messages ..")];
  for (let node = 0; node < run.frame.nodes; node++) {
    parts.push(circle(run, node, names[node], wrong[node], Boolean(sent) && equivocates(sent, node)));
  }
  get("ring").replaceChildren(...parts);
  get("ring").classList.toggle("stale", state.isStale);
  get("received").checked = state.isReceived;
}

export function begin() {
  get("ring").addEventListener("click", (event) => {
    const node = event.target.closest(".node");
    if (node) choose(Number(node.dataset.node));
  });
  get("received").addEventListener("change", (event) => {
    state.isReceived = event.target.checked;
    show();
  });
  on("shown", show);
  on("asked", () => get("ring").classList.add("stale"));
}
