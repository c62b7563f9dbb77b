// Edits of a scenario's text: each takes the text and returns the new one, with the place of what it wrote.
import { longText, read, valueOf } from "./toml.js";

const VERSION = "4";

/** The nodes that an entry changes. */
function nodesOf(entry) {
  const nodes = valueOf(entry.keys, entry.name === "load" ? "nodes" : "node");
  return Array.isArray(nodes) ? nodes : [nodes];
}

/** The entries of this kind that change the node before this pulse. */
function changesOf(text, kind, pulse, node) {
  const isOf = (it) => it.name === kind && valueOf(it.keys, "pulse") === pulse && nodesOf(it).includes(node);
  return (read(text)?.entries || []).filter(isOf);
}

const cut = (text, from, to, put = "") => text.slice(0, from) + put + text.slice(to);

/** The text without the entries of this kind that change this node alone. */
function without(text, kind, pulse, node) {
  const alone = changesOf(text, kind, pulse, node).filter((it) => nodesOf(it).length === 1);
  const end = (it) => it.to + /^\n*/.exec(text.slice(it.to))[0].length;
  return alone.reverse().reduce((rest, it) => cut(rest, it.from, end(it)), text);
}

/** Replaces the node's last entry of this kind before this pulse, or puts the new one at the end. */
function put(text, kind, pulse, node, lines) {
  const written = [`[[${kind}]]`, `pulse = ${pulse}`, ...lines].join("\n") + "\n";
  const last = changesOf(text, kind, pulse, node).at(-1);
  if (last && nodesOf(last).length === 1) return { text: cut(text, last.from, last.to, written), at: last.from };
  const front = text.trimEnd() + "\n\n";
  return { text: front + written, at: front.length };
}

function load(text, pulse, node, lines) {
  return put(without(text, "unload", pulse, node), "load", pulse, node, [`nodes = [${node}]`, ...lines]);
}

export const loadNamed = (text, pulse, node, name) => load(text, pulse, node, [`program = "${name}"`]);

export const loadSay = (text, pulse, node, values) =>
  load(text, pulse, node, ['program = "say"', `values = [${values.map((it) => it ?? -1).join(", ")}]`]);

export const loadText = (text, pulse, node, program) =>
  load(text, pulse, node, ['program = "asm"', `text = ${longText(program)}`]);

/** Loads a rule, for which the scenario has version 4. */
export const loadRule = (text, pulse, node, rule) =>
  load(withVersion(text), pulse, node, ['program = "rule"', `text = ${longText(rule)}`]);

/** Makes a rule the clock of the scenario, which has version 4 then. Returns null if the text can't be read. */
export function setRule(text, rule) {
  const versioned = withVersion(text), old = read(versioned)?.top.clock;
  const bare = old ? cut(versioned, old.from, versioned.indexOf("\n", old.valueTo) + 1) : versioned;
  return setTop(bare, "rule", longText(rule), "key" in (read(bare)?.top ?? {}) ? "key" : "coins");
}

export const unload = (text, pulse, node) =>
  put(without(text, "load", pulse, node), "unload", pulse, node, [`node = ${node}`]);

export const corrupt = (text, pulse, node, bytes) =>
  put(text, "corrupt", pulse, node, [`node = ${node}`, `image = [${bytes.join(", ")}]`]);

export const setCoin = (text, pulse, node, value) =>
  put(text, "coin", pulse, node, [`node = ${node}`, `value = ${value}`]);

/** Sets a key of the top, which follows the key `after` if it is new. Returns null if the text can't be read. */
export function setTop(text, name, value, after) {
  const top = read(text)?.top;
  if (!top) return null;
  if (name in top) return { text: cut(text, top[name].valueFrom, top[name].valueTo, value), at: top[name].from };
  if (!(after in top)) return null;
  const end = text.indexOf("\n", top[after].valueTo);
  const at = end < 0 ? text.length : end + 1;
  return { text: cut(text, at, at, `${end < 0 ? "\n" : ""}${name} = ${value}\n`), at };
}

const isOfVersion = (text) => valueOf(read(text)?.top ?? {}, "version") === Number(VERSION);

/** The text with the version that rules and noise need. */
const withVersion = (text) => (isOfVersion(text) ? text : (setTop(text, "version", VERSION, "nodes")?.text ?? text));

/** What a load of a rule or of noise changes at the top of the text, in words; "" if nothing. */
export function topChanges(text, needsKey) {
  const changes = isOfVersion(text) ? [] : [`version ${VERSION}`];
  if (needsKey && !("key" in (read(text)?.top ?? {}))) changes.push("a key");
  return changes.join(" and ");
}

/** Loads noise, for which the scenario has version 4 and a key. */
export function loadNoise(text, pulse, node) {
  const versioned = withVersion(text);
  const hasKey = "key" in (read(versioned)?.top ?? {});
  const keyed = hasKey ? versioned : (setTop(versioned, "key", "1", "coins")?.text ?? versioned);
  return loadNamed(keyed, pulse, node, "noise");
}

/** Draws the coins by this key. */
export function setKey(text, key) {
  const coins = setTop(text, "coins", '"chacha"', "pulses");
  return coins && setTop(coins.text, "key", String(key), "coins");
}
