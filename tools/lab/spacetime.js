// The messages of the chosen node in time: a line for each node, a column for each pulse, and an arrow for each
// message, from the pulse in which it is sent to the next, in which it arrives.
import { colourOf, inkOn, looksOf } from "./colours.js";
import { draw, get, numberIn, on, state } from "./page.js";
import { choose, goTo, insideOf } from "./run.js";

const LEFT = 54, COLUMN = 64, TOP = 26, FOOT = 12, DOT = 11, LEAST_ROW = 22, MOST_ROW = 56, HIGHEST = 640;
const HEAD = 8, HEAD_HALF = 3.5;
/** Where the number of a message is on its arrow: away from the chosen node, where arrows are apart. */
const ALONG = { sent: 0.74, received: 0.24 };

const rowOf = ({ frame }) => Math.max(LEAST_ROW, Math.min(MOST_ROW, HIGHEST / frame.nodes));

/** The first and the last pulse that are drawn: so many before the one shown, and as many after it. */
function spanOf(run) {
  const many = numberIn(get("time-pulses"), 6), last = run.frame.pulses - many + 1;
  const from = Math.max(1, Math.min(state.at - (many >> 1), last));
  return [from, Math.min(run.frame.pulses, from + many - 1)];
}

function placer(run, from) {
  const row = rowOf(run);
  return (pulse, node) => [LEFT + (pulse - from + 0.5) * COLUMN, TOP + (node + 0.5) * row];
}

/** An arrow, and its number, which is drawn over all arrows. */
function arrow([x1, y1], [x2, y2], number, { look: [stroke, dashes], along }) {
  const long = Math.hypot(x2 - x1, y2 - y1), [dx, dy] = [(x2 - x1) / long, (y2 - y1) / long];
  const [bx, by] = [x1 + dx * (DOT + 1), y1 + dy * (DOT + 1)], [ex, ey] = [x2 - dx * (DOT + 2), y2 - dy * (DOT + 2)];
  const [hx, hy] = [ex - HEAD * dx, ey - HEAD * dy], [wx, wy] = [HEAD_HALF * dy, HEAD_HALF * dx];
  const head = `M${ex} ${ey}L${hx - wx} ${hy + wy}L${hx + wx} ${hy - wy}z`;
  const [tx, ty] = [bx + (ex - bx) * along, by + (ey - by) * along];
  const line = { d: `M${bx} ${by}L${ex} ${ey}`, class: "line", stroke, "stroke-dasharray": dashes || "none" };
  const shape = draw("g", { class: "message" }, draw("path", line), draw("path", { d: head, fill: stroke }));
  return [shape, draw("text", { x: tx, y: ty + 4, class: "number", fill: stroke }, number)];
}

/** The messages of a pulse that the chosen node sends or that are sent to it, as pairs of an arrow and its number. */
function arrowsOf(run, pulse, at) {
  const sent = insideOf(run, pulse)?.sent, found = [];
  if (!sent) return found;
  sent.forEach((row, from) => {
    const looks = looksOf(sent, from);
    row.forEach((number, to) => {
      if (number === null || (from !== state.node && to !== state.node)) return;
      const along = from === state.node ? ALONG.sent : ALONG.received;
      found.push(arrow(at(pulse, from), at(pulse + 1, to), number, { look: looks[to], along }));
    });
  });
  return found;
}

function dot(run, pulse, node, [cx, cy]) {
  const clock = run.pulses[pulse - 1].clocks[node], fill = colourOf(run, pulse, node);
  const words = `node ${node}, pulse ${pulse}: ${clock === null ? "no clock" : `clock ${clock}`}`;
  const isEmpty = run.pulses[pulse - 1].ran[node] === null, isChosen = pulse === state.at && node === state.node;
  const kind = ["event", isEmpty ? "empty" : "", isChosen ? "chosen" : ""].join(" ").trim();
  const part = draw("g", { class: kind, role: "img", "aria-label": words, "data-pulse": pulse, "data-node": node });
  part.append(draw("title", {}, words), draw("circle", { cx, cy, r: DOT, fill }));
  const text = clock >= run.frame.modulus ? "!" : clock ?? "";
  part.append(draw("text", { x: cx, y: cy + 4, fill: inkOn(fill) }, text));
  return part;
}

function show() {
  const { run } = state;
  if (!run || get("time-part").hidden) return;
  const [from, until] = spanOf(run), at = placer(run, from), { nodes } = run.frame;
  const back = [], numbers = [], front = [];
  const wide = LEFT + (until - from + 1) * COLUMN, high = TOP + nodes * rowOf(run) + FOOT;
  for (let node = 0; node < nodes; node++) {
    const [, y] = at(from, node);
    back.push(draw("line", { x1: LEFT, x2: wide, y1: y, y2: y, class: "life" }));
    back.push(draw("text", { x: LEFT - 8, y: y + 4, class: "end" }, `node ${node}`));
  }
  for (let pulse = from; pulse <= until; pulse++) {
    const [x] = at(pulse, 0);
    back.push(draw("text", { x, y: 14, class: pulse === state.at ? "now" : "small" }, `pulse ${pulse}`));
    for (const [shape, number] of pulse < until ? arrowsOf(run, pulse, at) : []) {
      back.push(shape);
      numbers.push(number);
    }
    for (let node = 0; node < nodes; node++) front.push(dot(run, pulse, node, at(pulse, node)));
  }
  get("time").setAttribute("viewBox", `0 0 ${wide} ${high}`);
  get("time-name").textContent = `Messages of node ${state.node}, pulses ${from} to ${until}`;
  get("time").replaceChildren(...back, ...numbers, ...front);
}

export function begin() {
  get("time").addEventListener("click", (event) => {
    const found = event.target.closest(".event");
    if (!found) return;
    choose(Number(found.dataset.node));
    goTo(Number(found.dataset.pulse));
  });
  get("time-pulses").addEventListener("input", show);
  on("shown", show);
  on("tab", show);
}
