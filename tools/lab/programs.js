// The program of a node, by the loads of the scenario.
import { valueOf } from "./toml.js";

/** The last load of a node up to a pulse, as an entry of the scenario, or undefined. */
export function loadAt(scenario, node, pulse) {
  const pulseOf = (it) => valueOf(it.keys, "pulse");
  const isOf = (it) => it.name === "load" && pulseOf(it) <= pulse && valueOf(it.keys, "nodes")?.includes(node);
  return scenario.entries.filter(isOf).sort((one, other) => pulseOf(one) - pulseOf(other)).at(-1);
}

/** The rule that a load puts into its nodes, or null. */
export function ruleOf(scenario, load) {
  const program = load && valueOf(load.keys, "program");
  if (program === "rule") return valueOf(load.keys, "text") ?? null;
  return program === "clock" ? valueOf(scenario.top, "rule") ?? null : null;
}

/** The assembler text that the scenario has for a load, or null. */
export function textOf(scenario, load) {
  const program = load && valueOf(load.keys, "program");
  if (program === "asm") return valueOf(load.keys, "text") ?? null;
  return program === "clock" ? valueOf(scenario.top, "clock") ?? null : null;
}

/** Whether the clock of a run is judged as the built-in one. */
export const isBuiltIn = ({ frame }) => frame.clock !== "own";

/** For each node the name of its program in a pulse; the run tells whether there is one, and the loads its name. */
export function namesAt(run, pulse) {
  const names = run.names ||= namesOf(run);
  return names[pulse - 1];
}

function namesOf(run) {
  const loaded = Array.from({ length: run.frame.nodes }, () => "other");
  return run.pulses.map((pulse) => {
    for (const done of pulse.staged) if ("load" in done) loaded[done.load] = done.program;
    return pulse.ran.map((ran, node) => (ran === null ? "empty" : ran === "clock" ? "clock" : loaded[node]));
  });
}
