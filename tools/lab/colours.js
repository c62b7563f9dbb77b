// Colours of clocks and messages. A clock has the colour of its phase, the clock less the number of the pulse: what is
// synchronised and counts on keeps one colour.

const PAST = "#222222", RESTING = "#fbf3d9", OTHER = "#c9c9c9";
export const EMPTY = "#ffffff";
/** Colours and dashes of the values of one sender, so that they differ without colours too. */
const VALUES = [
  ["var(--value-1)", ""], ["var(--value-2)", "7 4"], ["var(--value-3)", "2 4"], ["var(--value-4)", "11 3 2 3"],
  ["var(--value-5)", "4 2"],
];
export const NEUTRAL = ["var(--arrow)", ""];
let palette = ["#56b4e9"];

export const setPalette = (colours) => {
  palette = colours;
};

/** Whether a node is at 0 and didn't come there by counting. */
function isResting(run, pulse, node) {
  const before = pulse > 1 ? run.pulses[pulse - 2].clocks[node] : null;
  return run.pulses[pulse - 1].clocks[node] === 0 && before !== run.frame.modulus - 1;
}

const phase = (run, pulse, node) => {
  const { modulus } = run.frame;
  return (((run.pulses[pulse - 1].clocks[node] - pulse) % modulus) + modulus) % modulus;
};

function phases(run) {
  const count = new Map();
  for (const { pulse, clocks } of run.pulses) {
    clocks.forEach((clock, node) => {
      if (clock === null || clock >= run.frame.modulus || isResting(run, pulse, node)) return;
      const it = phase(run, pulse, node);
      count.set(it, (count.get(it) || 0) + 1);
    });
  }
  const byCount = [...count].sort(([one, times], [other, more]) => more - times || one - other);
  return new Map(byCount.map(([it], rank) => [it, palette[rank % palette.length]]));
}

/** Returns the colour of a node after a pulse. */
export function colourOf(run, pulse, node) {
  run.phases ||= phases(run);
  const { clocks, ran } = run.pulses[pulse - 1], clock = clocks[node];
  if (clock === null) return ran[node] === null ? EMPTY : OTHER;
  if (clock >= run.frame.modulus) return PAST;
  return isResting(run, pulse, node) ? RESTING : run.phases.get(phase(run, pulse, node));
}

/** The ink that is read on this colour. */
export const inkOn = (colour) => (colour === PAST ? "#ffffff" : "#111111");

/** Whether a node told other nodes different things, or some of them nothing. */
export const equivocates = (sent, from) => new Set(sent[from].filter((_, to) => to !== from)).size > 1;

/** The nodes whose clocks violate agreement in a pulse, as far as the verdict says that some do. */
export function diverging({ frame }, pulse) {
  const { agree, clocks, settled } = pulse;
  if (agree !== false) return clocks.map(() => false);
  if (frame.clock !== "own" || frame.zero_agrees) return clocks.map((clock, node) => settled[node] && clock !== 0);
  const told = new Set(clocks.filter((_, node) => settled[node]));
  return clocks.map((clock, node) => settled[node] && (told.size > 1 || clock >= frame.modulus));
}

/** For each receiver the colour and dashes of what this node sent: one for each value, if it equivocates. */
export function looksOf(sent, from) {
  if (!equivocates(sent, from)) return sent[from].map(() => NEUTRAL);
  const told = sent[from].filter((it, to) => it !== null && to !== from);
  const values = [...new Set(told)].sort((one, other) => one - other);
  return sent[from].map((value) => VALUES[Math.max(0, values.indexOf(value)) % VALUES.length]);
}
