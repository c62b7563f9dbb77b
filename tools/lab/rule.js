// The lines of a rule: which names have a value at a line, and in which blocks it is. What the rule means is the
// program's to say, in its trace.

const STATE = /^state\s+(.+)$/, LET = /^let\s+(\w+)\s*=/, WORD_BYTES = 4;
/** The registers that hold the names of `let`, in the order in which these are in scope (docs/RULES.md). */
const REGISTERS = ["r7", "r8", "r9"];

const withoutComment = (line) => line.replace(/#.*/, "").trimEnd();
const depthOf = (line) => (line.match(/[([]/g) || []).length - (line.match(/[)\]]/g) || []).length;

/** Returns for each line its indent and words; a line that goes on inside brackets has none. */
function linesOf(rule) {
  let depth = 0;
  return rule.split("\n").map((line) => {
    const whole = withoutComment(line), words = depth === 0 ? whole.trim() : "";
    depth += depthOf(whole);
    return { indent: whole.length - whole.trimStart().length, words };
  });
}

/** Returns the names of the words of the memory after the clock. */
export const stateWords = (rule) =>
  linesOf(rule).flatMap(({ words }) => STATE.exec(words)?.[1].split(",").map((it) => it.trim()) ?? []);

/** Returns the term that a rule sends to every node, if it has only one such line. */
export function sentTerm(rule) {
  const sends = linesOf(rule).flatMap(({ words }) => /\bsend\s+(.+)$/.exec(words)?.slice(1) ?? []);
  return sends.length === 1 && !/\bto\b/.test(sends[0]) ? sends[0] : null;
}

/** A rule, for questions about its lines, counted from 1. */
export class Rule {
  constructor(text) {
    this.lines = linesOf(text);
    this.words = ["clock", ...stateWords(text)];
  }

  wordsAt(line) {
    return this.lines[line - 1]?.words ?? "";
  }

  /** Whether a line has these words. */
  has(line, words) {
    return this.wordsAt(line) !== "" && this.wordsAt(line) === withoutComment(words).trim();
  }

  /** The lines in whose blocks this line is, the innermost first. */
  around(line) {
    let { indent } = this.lines[line - 1];
    const found = [];
    for (let at = line - 1; at >= 1 && indent > 0; at--) {
      const { words, indent: its } = this.lines[at - 1];
      if (words === "" || its >= indent) continue;
      found.push(at);
      indent = its;
    }
    return found;
  }

  /** The lines of "if" and "elif" that an "else" belongs to. */
  casesOf(line) {
    const { indent } = this.lines[line - 1], found = [];
    for (let at = line - 1; at >= 1; at--) {
      const { words, indent: its } = this.lines[at - 1];
      if (words === "" || its > indent) continue;
      found.unshift(at);
      if (!words.startsWith("elif")) break;
    }
    return found;
  }

  /** The name that each register holds at a line, its own `let` included. */
  names(line) {
    const scope = [];
    for (const { indent, words } of this.lines.slice(0, line)) {
      if (words === "") continue;
      while (scope.length > 0 && scope.at(-1).indent > indent) scope.pop();
      const found = LET.exec(words);
      if (found) scope.push({ indent, name: found[1] });
    }
    return new Map(scope.map(({ name }, at) => [REGISTERS[at], name]));
  }

  /** The name of the word of the memory at this byte, if it has one. */
  wordOf(byte) {
    return byte % WORD_BYTES === 0 ? this.words[byte / WORD_BYTES] : undefined;
  }
}
