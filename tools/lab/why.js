// Why a node did what it did in a pulse: the steps that `run --trace` prints, folded by the lines of its rule, and one
// sentence on the line that decided. All numbers are those of the trace.
import { make } from "./page.js";
import { Rule } from "./rule.js";

const STEP = /^step (\d+) slot (\d+) (.*?)(?: #(?: (.+?))??(?: -> (.*))?)?$/, LINE = /^line (\d+) (.*)$/;
const STORE = /^st(?:xw|w) \[r6\+(\d+)\], (\S+)$/, LOAD = /^ldxw \w+, \[r6\+(\d+)\]$/;
const BRANCH = /^j(\w\w)(?:32)? (\w+), (\S+),/;
const COMPARED = /^(?:el)?if (.+?) (==|!=|<=|>=|<|>) (.+?):/, PARTS = /\b(?:and|or|not|if|count|least|sorted)\b|[[<>]|[=!]=/;
const OF_BRANCH = { eq: "==", ne: "!=", lt: "<", le: "<=", gt: ">", ge: ">=" };
const OPPOSITE = { "==": "!=", "!=": "==", "<": ">=", ">=": "<", ">": "<=", "<=": ">" };
const NONE = "4294967295";
const MIRRORED = { "==": "==", "!=": "!=", "<": ">", ">": "<", "<=": ">=", ">=": "<=" };
const HEADS = { memory: /^memory (\w+)$/, coin: /^coin (\d)$/ };

/** The values in a part of a step, as "r1 = 2, r2 = 3". */
const valuesIn = (part) => new Map((part || "").split(", ").map((it) => it.split(" = ")));

const stepOf = ([, ...cells]) =>
  ({ cells, what: cells[2], reads: valuesIn(cells[3]), writes: valuesIn(cells[4]) });

/** Returns the runs of lines of a trace, each with its steps, and the lines at its ends. */
function parse(out) {
  const visits = [], ends = [], heads = {};
  for (const text of out.trim().split("\n")) {
    const line = LINE.exec(text), step = STEP.exec(text);
    if (line) visits.push({ line: Number(line[1]), words: line[2], steps: [] });
    else if (text === "end") visits.push({ line: 0, words: "", steps: [] });
    else if (!step) ends.push(text);
    else visitOf(visits).steps.push(stepOf(step));
  }
  for (const [name, form] of Object.entries(HEADS)) heads[name] = ends.map((it) => form.exec(it)?.[1]).find(Boolean);
  return { visits, ends, heads };
}

function visitOf(visits) {
  if (visits.length === 0) visits.push({ line: 0, words: "", steps: [] });
  return visits.at(-1);
}

/** The number of an operand, a register or a constant, as a rule counts: without a sign. */
const valueOf = (operand, reads) => reads.get(operand) ?? String(Number(operand) >>> 0);

/** What a step stores in the memory: the word's byte and the value. */
function storeOf({ what, reads }) {
  const found = STORE.exec(what);
  return found && { byte: Number(found[1]), value: valueOf(found[2], reads) };
}

/** Adds to each run of a line what its steps gave the names, and the values of all names after it. */
function evaluate(visits, rule, coin) {
  const known = new Map([["coin", coin]]);
  for (const visit of visits) {
    const names = visit.line ? rule.names(visit.line) : new Map();
    visit.set = new Map();
    visit.before = new Map(known);
    for (const step of visit.steps) {
      const store = storeOf(step), load = LOAD.exec(step.what);
      if (store && rule.wordOf(store.byte)) visit.set.set(rule.wordOf(store.byte), store.value);
      if (load && rule.wordOf(Number(load[1]))) known.set(rule.wordOf(Number(load[1])), [...step.writes.values()][0]);
      for (const [register, value] of step.writes) if (names.has(register)) visit.set.set(names.get(register), value);
    }
    for (const [name, value] of visit.set) known.set(name, value);
  }
}

/** Whether a term may have this number: a number is itself, and a name has the value that it had before the line. */
const mayBe = (term, value, before) => (/^\d+$/.test(term) ? term : before.get(term) ?? value) === value;

/** The two terms that a line compares with their numbers, if its condition is one comparison that the trace has. */
function compared({ words, steps, before }) {
  const found = COMPARED.exec(words.trim()), step = steps.find((it) => BRANCH.test(it.what));
  if (!found || !step || PARTS.test(found[1]) || PARTS.test(found[3])) return null;
  const [, kind, ...operands] = BRANCH.exec(step.what), sides = operands.map((it) => valueOf(it, step.reads));
  const asked = [found[2], OPPOSITE[found[2]]], jumps = OF_BRANCH[kind];
  if (!asked.includes(jumps) && !asked.includes(MIRRORED[jumps])) return null;
  const [one, other] = asked.includes(jumps) ? sides : sides.reverse(), terms = [[found[1], one], [found[3], other]];
  return terms.every(([term, value]) => mayBe(term, value, before)) ? terms : null;
}

/** A number as a rule writes it. */
const told = (value) => (String(value) === NONE ? "none" : value);

/** Terms with their numbers, as "support is 1 and n - f is 2"; numbers as they stand are left out. */
function asWords(terms) {
  const words = terms.filter(([term]) => !/^\d+$/.test(term)).map(([term, value]) => `${term} is ${told(value)}`);
  return words.length > 1 ? `${words.slice(0, -1).join(", ")} and ${words.at(-1)}` : words.join("");
}

/** The names in these words that have a value. */
const namesIn = (words, known) =>
  [...new Set(words.match(/\w+/g) || [])].filter((it) => known.get(it) !== undefined).map((it) => [it, known.get(it)]);

const assignedIn = (words) => words.replace(/^(?:if|elif|else)\b.*?:\s*/, "");

/** The line whose condition led to a line: itself or the nearest around it; 0 if there is none. */
const conditionOf = (rule, line) =>
  [line, ...rule.around(line)].find((it) => /^(?:if|elif|else)\b/.test(rule.wordsAt(it))) ?? 0;

const conditionAt = (rule, line) => /^(?:el)?if (.*?):(?:\s|$)/.exec(rule.wordsAt(line))?.[1] ?? rule.wordsAt(line);

/** The numbers that the condition of a line compared, in words; those of a loop may be of another turn. */
function comparedAt(rule, line, visits) {
  const terms = loopOf(rule, line) === 0 && visits.filter((it) => it.line === line).map(compared).findLast(Boolean);
  return terms ? asWords(terms) : "";
}

/** Why the run came to an "else": the conditions before it, with the numbers that they compared. */
function failed(rule, line, visits) {
  const cases = rule.casesOf(line), [first] = cases, because = cases.map((it) => comparedAt(rule, it, visits));
  const numbers = [...new Set(because.filter(Boolean))].join(", and ");
  const what = cases.length === 1 ? `${conditionAt(rule, first)} doesn't hold` : 'no condition above "else" holds';
  return `${what}${numbers && `, as ${numbers}`}`;
}

/** The line that decided, its condition, and the numbers that this compared. */
function decided(visit, visits, rule) {
  const line = conditionOf(rule, visit.line), words = rule.wordsAt(line);
  const given = asWords(namesIn(assignedIn(rule.wordsAt(visit.line)).replace(/^[^=]*=/, ""), visit.before));
  const where = given && `, where ${given}`;
  if (line === 0) return `Line ${visit.line} of the rule sets the clock: ${rule.wordsAt(visit.line)}${where}.`;
  const head = `Line ${line} of the rule`;
  if (words.startsWith("else")) return `${head}: ${failed(rule, line, visits)}${given && `, and ${given}`}.`;
  const because = comparedAt(rule, line, visits);
  return `${head}: ${conditionAt(rule, line)} holds${because && `, as ${because}`}.`;
}

/** Where the clock went. */
function moved(from, to, modulus) {
  if (from === to) return `The clock stays at ${told(to)}.`;
  if (to === 0 && from !== modulus - 1) return `So the clock falls back from ${told(from)} to 0.`;
  return `So the clock goes from ${told(from)} to ${told(to)}.`;
}

/** One sentence on the line that set the clock last. */
function sentence({ visits, heads }, rule, modulus) {
  const last = visits.findLast((it) => it.set.has("clock"));
  const from = Number.parseInt(heads.memory.slice(0, 8).match(/../g).reverse().join(""), 16);
  if (!last) return `No line sets the clock. It stays at ${told(from)}.`;
  return `${decided(last, visits, rule)} ${moved(from, Number(last.set.get("clock")), modulus)}`;
}

/** What a run of a line found, in short. */
function found(visit, next, rule, isInLoop) {
  if (visit.steps.every((it) => it.what.startsWith("ja "))) return "goes on after the cases";
  const parts = [...visit.set].map(([name, value]) => `${name} = ${told(value)}`);
  const calls = visit.steps.filter((it) => it.what === "call send");
  const sends = calls.map(({ reads }) => [reads.get("r1"), reads.get("r2")]);
  const isToAll = sends.length > 1 && new Set(sends.map(([, it]) => it)).size === 1;
  if (isToAll) parts.push(`sends ${told(sends[0][1])} to all`);
  else if (sends.length > 0) parts.push(`sends ${sends.map(([to, it]) => `${told(it)} to ${to}`).join(", ")}`);
  if (!isInLoop && /^\s*(?:el)?if\b/.test(visit.words)) parts.unshift(answerOf(visit, next, rule));
  return parts.join("; ");
}

/** Whether the condition of a line holds: the run is in its block after it. */
function answerOf(visit, next, rule) {
  const isInside = !BRANCH.test(visit.steps.at(-1).what) || rule.around(next.line || 1).includes(visit.line);
  const terms = compared(visit), because = terms && asWords(terms);
  return `${isInside ? "yes" : "no"}${because ? `: ${because}` : ""}`;
}

function stepTable(steps) {
  const cell = (kind, it) => make(kind, kind === "th" ? { scope: "col" } : {}, it ?? "");
  const row = (kind, cells) => make("tr", {}, ...cells.map((it) => cell(kind, it)));
  const head = make("thead", {}, row("th", ["step", "slot", "instruction", "reads", "writes"]));
  const table = make("table", { class: "steps" }, head, make("tbody", {}, ...steps.map((it) => row("td", it.cells))));
  return make("div", { class: "scroll", tabindex: "0" }, table);
}

function fold(line, words, told, ...inside) {
  const number = make("span", { class: "line" }, line || ""), code = make("code", {}, words);
  const head = make("summary", {}, number, code, ...(told ? [make("span", { class: "found" }, told)] : []));
  return make("details", { class: "of-line" }, head, ...inside);
}

/** The outermost loop that a line is in, or 0. */
const loopOf = (rule, line) => (line ? rule.around(line).findLast((it) => /^for\b/.test(rule.wordsAt(it))) ?? 0 : 0);

/** What a loop gave to names that live on after it. */
function foundByLoop(visits, loop, rule) {
  const names = [...rule.names(loop).values(), ...rule.words];
  const set = new Map(visits.flatMap((it) => [...it.set]).filter(([name]) => names.includes(name)));
  return [...set].map(([name, value]) => `${name} = ${told(value)}`).join(", ");
}

/** The runs of lines as parts to open; those inside a loop are in one part. */
function folds(visits, rule) {
  const parts = [], wordsOf = (it) => it.words || (it === visits[0] ? "start" : "end");
  const one = (it, next, isInLoop) =>
    fold(it.line, wordsOf(it), found(it, next, rule, isInLoop), stepTable(it.steps));
  for (let at = 0; at < visits.length; at++) {
    const loop = loopOf(rule, visits[at].line), from = at;
    if (loop === 0) {
      parts.push(one(visits[at], visits[at + 1], false));
      continue;
    }
    while (loopOf(rule, visits[at + 1]?.line) === loop) at++;
    const inside = visits.slice(from, at + 1).map((it) => one(it, null, true));
    parts.push(fold(loop, rule.wordsAt(loop), foundByLoop(visits.slice(from, at + 1), loop, rule), ...inside));
  }
  return parts;
}

/** A trace with the values of names after each line; its rule is null if the lines aren't those of the text. */
function read(out, text) {
  const trace = parse(out), { visits } = trace, rule = text === null ? null : new Rule(text);
  const isLine = (it) => it.line === 0 || rule?.has(it.line, it.words);
  const isOfRule = visits.some((it) => it.line > 0) && visits.every(isLine);
  if (isOfRule) evaluate(visits, rule, trace.heads.coin);
  return { trace, rule: isOfRule ? rule : null };
}

/** Returns the sentence on the line of a rule that set the clock, by a trace; "" if its lines are of another text. */
export function because(out, text, modulus) {
  const { trace, rule } = read(out, text);
  return rule ? sentence(trace, rule, modulus) : "";
}

/** Returns a trace as parts of the page: by the lines of the rule, or step by step if the program has none. */
export function parts(out, text, modulus) {
  const { trace, rule } = read(out, text), steps = trace.visits.flatMap((it) => it.steps);
  const ends = trace.ends.map((it) => make("p", { class: "mono" }, it));
  if (!rule) return [stepTable(steps), ...ends];
  const head = make("summary", {}, `All ${steps.length} steps`);
  const all = make("details", { class: "all" }, head, stepTable(steps), ...ends);
  return [make("p", { id: "because" }, sentence(trace, rule, modulus)), ...folds(trace.visits, rule), all];
}
