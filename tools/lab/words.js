// The words of scenarios, rules and assembler texts, for their colours and for completion.

const each = (words, ...ends) => words.split(" ").flatMap((it) => ends.map((end) => it + end));
const ASSEMBLER = [
  ...each("add sub mul div sdiv or and lsh rsh mod smod xor mov arsh neg", "32", "64"),
  ...each("jeq jgt jge jset jne jsgt jsge jlt jle jslt jsle", "", "32"),
  ...each("ldxb ldxh ldxw ldxdw ldsxb ldsxh ldsxw stxb stxh stxw stxdw stb sth stw stdw lddw", ""),
  ...each("sx8_32 sx16_32 sx8_64 sx16_64 sx32_64 le16 le32 le64 be16 be32 be64 swap16 swap32 swap64", ""),
  ...each("ja jal call exit id recv send coin", ""),
];
const TERMS = each("count least sorted mail clock coin none me and or not if else", "");
const RULE = each("state table let if elif else for send to", "");
const SCENARIO = each("version nodes faults modulus memory pulses coins key clock rule load unload corrupt coin pulse" +
  " node program text values image value say echo asm noise chacha zeros ones", "");
const WORDS = { toml: SCENARIO, rule: RULE, asm: ASSEMBLER };
/** What an unknown name in a rule may have meant. */
export const RULE_HINT = "A rule knows: count j: .., least j: .., sorted[f] j: .., for j: .., mail[j], clock, coin, none, me, " +
  "n, f, M, and the names of let, state and table. Ctrl+Space lists words.";

/** Returns the words of a language, those first that fit behind this part of a line. */
export function wordsFor(kind, before) {
  if (kind !== "rule") return WORDS[kind];
  return /^\s*\w*$/.test(before) ? [...RULE, ...TERMS] : [...TERMS, ...RULE];
}

/** `least` is a word if a name follows it. */
const LEAST = "least(?=\\s+(?!(?:if|else|and|or|to)\\b)[A-Za-z_])";
const RULE_WORDS = `state|table|let|if|elif|else|for|send|to|count|sorted|${LEAST}|and|or|not`;
/** For each kind of line the forms of its parts; of those that fit at a place the first counts. */
const FORMS = {
  toml: [
    [/#.*/y, "comment"], [/\[\[.*?\]\]/y, "head"], [/"[^"]*"?|'''|'[^']*'?/y, "string"], [/[\w-]+(?=\s*=)/y, "name"],
    [/-?\d[\w]*/y, "number"], [/[\w-]+/y, ""],
  ],
  rule: [
    [/#.*/y, "comment"], [new RegExp(`(?:${RULE_WORDS})\\b`, "y"), "name"],
    [/(?:n|f|M|me|coin|none|clock|mail)\b/y, "head"], [/\d+/y, "number"], [/\w+/y, ""],
  ],
  asm: [
    [/#.*/y, "comment"], [/\w+:/y, "head"], [/r(?:10|\d)\b/y, "string"], [/[a-z]\w*/y, "name"],
    [/[-+]?\d\w*/y, "number"],
  ],
};
const OPENS = /^\s*(\w+)\s*=\s*'''/, PROGRAM = /^\s*program\s*=\s*"(\w+)"/, QUOTES = "'''";

/** Returns the parts of a line, each with its kind; "" is plain. */
export function partsOf(line, kind) {
  const parts = [];
  for (let at = 0; at < line.length;) {
    const [text, name] = partAt(line, at, FORMS[kind]);
    if (name === "" && parts.at(-1)?.[1] === "") parts.at(-1)[0] += text;
    else parts.push([text, name]);
    at += text.length;
  }
  return parts;
}

function partAt(line, at, forms) {
  for (const [form, name] of forms) {
    form.lastIndex = at;
    const found = form.exec(line);
    if (found) return [found[0], name];
  }
  return [line[at], ""];
}

/** Returns the kind of each line of a scenario: a long text is that of a rule or assembler. */
export function kindsOf(lines) {
  let inside = null, program = "";
  return lines.map((line) => {
    const kind = inside ?? "toml", opens = inside === null && OPENS.exec(line);
    program = PROGRAM.exec(line)?.[1] ?? program;
    if (inside !== null && line.includes(QUOTES)) inside = null;
    else if (opens && line.split(QUOTES).length === 2) {
      inside = opens[1] === "rule" || (opens[1] === "text" && program === "rule") ? "rule" : "asm";
    }
    return kind === "toml" || line.includes(QUOTES) ? "toml" : kind;
  });
}
