// The picture of all pulses, which is the slider too, and the buttons that play them.
import { get, make, on, state } from "./page.js";
import { EMPTY, colourOf, diverging, inkOn } from "./colours.js";
import { goTo } from "./run.js";

const HIGHEST = 150, BAR = 6, MARKS = 9, LEAST_GAP = 5, AT_ONE = 700, LEAST_NUMBER = 34, LEAST_ROW = 9, END = 14;
const LEAST_STAGED = 24, LEAST_CLOCK = 24, LEAST_HIGH = 12, INK = "#222222", RED = "#b3001b";
const STAGED = {
  load: ["M0 0h7l-3.5 6z", INK], unload: ["M0 0h7l-3.5 6z", "#ffffff"],
  corrupt: ["M3.5 0l3.5 3.5l-3.5 3.5l-3.5 -3.5z", "#ffe100"],
};
const DARK = matchMedia("(prefers-color-scheme: dark)");
let timer = null, wide = 0;

const rowHeight = ({ frame }) => Math.max(2, Math.min(16, Math.floor(HIGHEST / frame.nodes)));

/** The left end of a pulse's column, in whole points of the screen. */
const left = (run, pulse) => Math.round(((pulse - 1) * wide) / run.frame.pulses);

function sized(canvas, wide, high) {
  const scale = window.devicePixelRatio || 1;
  canvas.width = Math.round(wide * scale);
  canvas.height = Math.round(high * scale);
  canvas.style.height = `${high}px`;
  const pen = canvas.getContext("2d");
  pen.scale(scale, scale);
  return pen;
}

function drawPicture() {
  const { run } = state;
  if (!run) return;
  const canvas = get("picture"), high = rowHeight(run);
  const pen = sized(canvas, wide, MARKS + high * run.frame.nodes + BAR + 2);
  const style = getComputedStyle(document.body);
  const ink = style.getPropertyValue("--ink"), red = style.getPropertyValue("--wrong");
  const isNarrow = wide / run.frame.pulses < LEAST_GAP;
  if (isNarrow) drawNarrow(pen, run, high);
  for (const pulse of run.pulses) {
    const x = left(run, pulse.pulse), width = Math.max(1, left(run, pulse.pulse + 1) - x);
    if (!isNarrow) drawColumn(pen, run, pulse, { x, width, high });
    if (pulse.agree === false) {
      pen.fillStyle = red;
      pen.fillRect(x, MARKS + high * run.frame.nodes + 1, Math.max(width - 1, 2), BAR);
    }
    if (pulse.staged.length > 0) drawMark(pen, ink, x, width);
    if (width >= LEAST_STAGED && high >= LEAST_ROW) drawStaged(pen, pulse, x, high);
  }
}

/** A colour #rrggbb as the four bytes of a point, the lowest first; white is the paper. */
function point(colour) {
  if (colour === EMPTY) return 0;
  const [red, green, blue] = colour.match(/[0-9a-f]{2}/g).map((it) => Number.parseInt(it, 16));
  return ((255 << 24) | (blue << 16) | (green << 8) | red) >>> 0;
}

/** Many pulses at once: a point for each cell, made as wide and high as there is room. */
function drawNarrow(pen, run, high) {
  const { nodes, pulses } = run.frame, image = new ImageData(pulses, nodes), points = new Map();
  const cells = new Uint32Array(image.data.buffer);
  for (let node = 0; node < nodes; node++) {
    for (let at = 0; at < pulses; at++) {
      const colour = colourOf(run, at + 1, node);
      if (!points.has(colour)) points.set(colour, point(colour));
      cells[node * pulses + at] = points.get(colour);
    }
  }
  const small = make("canvas", { width: pulses, height: nodes });
  small.getContext("2d").putImageData(image, 0, 0);
  pen.imageSmoothingEnabled = false;
  pen.drawImage(small, 0, MARKS, wide, high * nodes);
  if (high < LEAST_GAP) return;
  for (let node = 1; node <= nodes; node++) pen.clearRect(0, MARKS + node * high - 1, wide, 1);
}

function drawColumn(pen, run, pulse, { x, width, high }) {
  const wrong = diverging(run, pulse), line = high >= LEAST_GAP ? 1 : 0;
  const hasClocks = width >= LEAST_CLOCK && high >= LEAST_HIGH;
  for (let node = 0; node < run.frame.nodes; node++) {
    const y = MARKS + node * high, colour = colourOf(run, pulse.pulse, node);
    pen.fillStyle = colour;
    if (colour !== EMPTY) pen.fillRect(x, y, width - 1, high - line);
    if (pulse.settled[node] && line) outline(pen, wrong[node] ? RED : INK, x, y, width - 1, high - line);
    if (hasClocks) drawClock(pen, run, pulse.clocks[node], colour, x + width / 2, y + high / 2);
  }
}

/** The clock in its cell. */
function drawClock(pen, run, clock, colour, x, y) {
  if (clock === null) return;
  pen.font = "11px system-ui, sans-serif";
  pen.textAlign = "center";
  pen.textBaseline = "middle";
  pen.fillStyle = inkOn(colour);
  pen.fillText(clock >= run.frame.modulus ? "!" : clock, x, y);
}

/** In the cells, as in the pictures: a load is a full triangle, an unload an open one, a corruption a diamond. */
function drawStaged(pen, pulse, x, high) {
  const drawn = new Map();
  for (const done of pulse.staged) {
    const kind = Object.keys(STAGED).find((it) => it in done), node = done[kind], turn = drawn.get(node) || 0;
    drawn.set(node, turn + 1);
    pen.save();
    pen.translate(x + 1 + 8 * turn, MARKS + node * high + 1);
    const shape = new Path2D(STAGED[kind][0]);
    pen.fillStyle = STAGED[kind][1];
    pen.fill(shape);
    pen.strokeStyle = INK;
    pen.stroke(shape);
    pen.restore();
  }
}

/** The edge of a cell, within it: its fill is light in the dark theme too. */
function outline(pen, colour, x, y, width, high) {
  const inset = high >= LEAST_ROW ? 1.5 : 0.5;
  pen.strokeStyle = colour;
  pen.strokeRect(x + inset, y + inset, width - 2 * inset, high - 2 * inset);
}

/** A mark over a pulse before which something was loaded, unloaded or corrupted. */
function drawMark(pen, ink, x, width) {
  const half = Math.min(3.5, Math.max(1, width / 2));
  pen.fillStyle = ink;
  pen.beginPath();
  pen.moveTo(x, 1);
  pen.lineTo(x + 2 * half, 1);
  pen.lineTo(x + half, 7);
  pen.fill();
}

/** The numbers of the nodes beside their rows, if there is room for them. */
function drawRows() {
  const { run } = state, high = rowHeight(run), rows = get("rows");
  rows.replaceChildren();
  if (high < LEAST_ROW) return;
  rows.style.paddingTop = `${MARKS}px`;
  for (let node = 0; node < run.frame.nodes; node++) {
    const row = make("span", {}, node);
    row.style.height = row.style.lineHeight = `${high}px`;
    rows.append(row);
  }
}

function drawNumbers() {
  const { run } = state, numbers = get("numbers");
  const step = [1, 2, 5, 10, 20, 50, 100, 200, 500].find((it) => (it * wide) / run.frame.pulses >= LEAST_NUMBER) || 500;
  numbers.replaceChildren();
  for (let pulse = 1; pulse <= run.frame.pulses; pulse += pulse === 1 && step > 1 ? step - 1 : step) {
    const number = make("span", {}, pulse);
    number.style.left = `${Math.min(wide - END, (left(run, pulse) + left(run, pulse + 1)) / 2)}px`;
    numbers.append(number);
  }
}

function showPlace() {
  const { run, at } = state, slider = get("timeline"), cursor = get("cursor");
  const x = left(run, at);
  cursor.style.left = `${x - 1}px`;
  cursor.style.width = `${Math.max(3, left(run, at + 1) - x + 1)}px`;
  slider.setAttribute("aria-valuemax", run.frame.pulses);
  slider.setAttribute("aria-valuenow", at);
  slider.setAttribute("aria-valuetext", `pulse ${at} of ${run.frame.pulses}`);
  get("where").textContent = `pulse ${at} of ${run.frame.pulses}`;
  get("back").disabled = get("first").disabled = at === 1;
  get("on").disabled = get("last").disabled = at === run.frame.pulses;
  showVerdict();
}

const word = (verdict) => (verdict === null ? "none" : verdict ? "yes" : "no");

function showVerdict() {
  const { run, at } = state, pulse = run.pulses[at - 1], verdict = get("verdict");
  verdict.textContent = `agree ${word(pulse.agree)}` + ("counts" in pulse ? `, counts ${word(pulse.counts)}` : "");
  verdict.classList.toggle("wrong", pulse.agree === false);
  const { agreed, of, in_step_since: since } = run.last;
  const loop = run.loop ? `. Pulses ${run.loop.from} to ${run.loop.until} repeat forever: play goes round` : "";
  const synchronised = since === null ? "not synchronised at the end" : `synchronised from pulse ${since} on`;
  get("summary").textContent = `${agreed} of ${of} pulses agree; ${synchronised}${loop}`;
}

/** Offers the first pulse whose clocks do not agree. */
function showViolation() {
  const first = state.run.pulses.find((it) => it.agree === false);
  get("violation").hidden = !first;
  if (first) get("violation").textContent = `Go to pulse ${first.pulse}: agree no`;
}

/** The next pulse of a play; a run that repeats goes round. */
function next() {
  const { run, at } = state;
  return run.loop && at === run.loop.until ? run.loop.from : at + 1;
}

function stop() {
  clearInterval(timer);
  timer = null;
  get("play").textContent = "Play";
}

export function play() {
  if (timer) {
    stop();
    return;
  }
  if (!state.run) return;
  if (state.at === state.run.frame.pulses && !state.run.loop) goTo(1);
  get("play").textContent = "Stop";
  timer = setInterval(() => {
    const pulse = next(), last = state.run.frame.pulses;
    if (pulse <= last) goTo(pulse);
    if (pulse > last || (pulse === last && !state.run.loop)) stop();
  }, AT_ONE / Number(get("speed").value));
}

function pulseAt(event) {
  const box = get("timeline").getBoundingClientRect();
  return 1 + Math.floor(((event.clientX - box.left) / box.width) * state.run.frame.pulses);
}

function listenToSlider() {
  const slider = get("timeline");
  slider.addEventListener("pointerdown", (event) => {
    if (!state.run) return;
    slider.setPointerCapture(event.pointerId);
    goTo(pulseAt(event));
  });
  slider.addEventListener("pointermove", (event) => {
    if (state.run && slider.hasPointerCapture(event.pointerId)) goTo(pulseAt(event));
  });
}

export function begin() {
  listenToSlider();
  const steps = {
    first: () => goTo(1), back: () => goTo(state.at - 1), on: () => goTo(state.at + 1), last: () => goTo(Infinity),
  };
  for (const [id, act] of Object.entries(steps)) get(id).addEventListener("click", act);
  get("play").addEventListener("click", play);
  get("violation").addEventListener("click", () => goTo(state.run.pulses.find((it) => it.agree === false).pulse));
  get("speed").addEventListener("change", () => {
    if (timer) {
      stop();
      play();
    }
  });
  const redraw = () => {
    if (!state.run) return;
    drawRows();
    // Kept, so that a step doesn't wait for the layout of the page.
    wide = get("timeline").clientWidth;
    drawPicture();
    drawNumbers();
    showPlace();
  };
  on("run", () => {
    stop();
    redraw();
    showViolation();
  });
  on("shown", showPlace);
  DARK.addEventListener("change", redraw);
  new ResizeObserver(redraw).observe(get("timeline"));
}
