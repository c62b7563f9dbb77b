// Reads the text of a scenario with the places of its keys and entries, for edits and programs. What the scenario means
// is the program's to say; a text in a form that this reader doesn't know gives null.

const BARE = /[A-Za-z0-9_-]+/y, BLANKS = /[ \t]*/y, INTEGER = /[+-]?(0x[0-9A-Fa-f_]+|0o[0-7_]+|0b[01_]+|[0-9][0-9_]*)/y;
const ESCAPES = { b: "\b", t: "\t", n: "\n", f: "\f", r: "\r", '"': '"', "\\": "\\" };

class Unknown extends Error {}

class Reader {
  constructor(text) {
    this.text = text;
    this.at = 0;
  }

  match(rule) {
    rule.lastIndex = this.at;
    const found = rule.exec(this.text);
    if (!found) return null;
    this.at = rule.lastIndex;
    return found[0];
  }

  take(word) {
    if (!this.text.startsWith(word, this.at)) return false;
    this.at += word.length;
    return true;
  }

  need(word) {
    if (!this.take(word)) throw new Unknown(`${word} at ${this.at}`);
  }

  skipComment() {
    this.match(BLANKS);
    if (this.text[this.at] === "#") this.at = this.lineEnd();
  }

  lineEnd() {
    const end = this.text.indexOf("\n", this.at);
    return end < 0 ? this.text.length : end;
  }

  /** Passes blanks, comments and ends of lines. */
  skip() {
    let before;
    do {
      before = this.at;
      this.skipComment();
      this.match(/[\r\n]*/y);
    } while (this.at !== before);
  }

  name() {
    const name = this.match(BARE);
    if (name === null) throw new Unknown(`a name at ${this.at}`);
    return name;
  }

  value() {
    if (this.take("'''")) return this.literal("'''", true);
    if (this.take('"""')) return this.escaped('"""', true);
    if (this.take("'")) return this.literal("'", false);
    if (this.take('"')) return this.escaped('"', false);
    if (this.take("[")) return this.array();
    const truth = this.match(/true|false/y);
    if (truth !== null) return truth === "true";
    const number = this.match(INTEGER);
    if (number === null) throw new Unknown(`a value at ${this.at}`);
    const bare = number.replaceAll("_", "").replace("+", ""), value = Number(bare);
    return Number.isSafeInteger(value) ? value : BigInt(bare);
  }

  literal(quote, isLong) {
    if (isLong) this.match(/\r?\n/y);
    const from = this.at, end = this.text.indexOf(quote, from);
    if (end < 0) throw new Unknown("the end of a text");
    this.at = end + quote.length;
    // Up to two quotes may stand before the three that end a long text.
    if (isLong) this.match(/'{0,2}/y);
    return this.text.slice(from, this.at - quote.length);
  }

  escaped(quote, isLong) {
    if (isLong) this.match(/\r?\n/y);
    let text = "";
    while (!this.take(quote)) {
      const next = this.text[this.at++];
      if (next === undefined || (next === "\n" && !isLong)) throw new Unknown("the end of a text");
      text += next === "\\" ? this.escape(isLong) : next;
    }
    return isLong ? text + this.match(/"{0,2}/y) : text;
  }

  escape(isLong) {
    if (isLong && this.match(/[ \t]*\r?\n[ \t\r\n]*/y) !== null) return "";
    const kind = this.text[this.at++];
    if (kind === "u" || kind === "U") {
      const digits = this.match(kind === "u" ? /[0-9A-Fa-f]{4}/y : /[0-9A-Fa-f]{8}/y);
      if (digits === null) throw new Unknown("an escape");
      return String.fromCodePoint(Number.parseInt(digits, 16));
    }
    if (!(kind in ESCAPES)) throw new Unknown("an escape");
    return ESCAPES[kind];
  }

  array() {
    const items = [];
    for (;;) {
      this.skip();
      if (this.take("]")) return items;
      items.push(this.value());
      this.skip();
      if (!this.take(",")) {
        this.need("]");
        return items;
      }
    }
  }

  /** A key with the places of its line and of its value. */
  pair(keys) {
    const from = this.at, name = this.name();
    this.match(BLANKS);
    this.need("=");
    this.match(BLANKS);
    const valueFrom = this.at, value = this.value(), valueTo = this.at;
    keys[name] = { value, from, valueFrom, valueTo };
    this.endLine();
  }

  endLine() {
    this.skipComment();
    this.match(/\r/y);
    if (this.at < this.text.length) this.need("\n");
  }

  header() {
    const from = this.at;
    this.need("[[");
    this.match(BLANKS);
    const name = this.name();
    this.match(BLANKS);
    this.need("]]");
    this.endLine();
    return { name, from, to: this.at, keys: {} };
  }

  whole() {
    const top = {}, entries = [];
    let keys = top;
    for (this.skip(); this.at < this.text.length; this.skip()) {
      if (this.text[this.at] === "[") {
        entries.push(this.header());
        keys = entries.at(-1).keys;
      } else {
        this.pair(keys);
      }
      if (entries.length) entries.at(-1).to = this.at;
    }
    return { top, entries };
  }
}

/** Returns {top, entries} of a scenario: keys with values and places, and entries in their order. Or null. */
export function read(text) {
  try {
    return new Reader(text).whole();
  } catch (why) {
    if (why instanceof Unknown || why instanceof RangeError) return null;
    throw why;
  }
}

/** Returns the value of a key of an entry or of the top, or undefined. */
export const valueOf = (keys, name) => (Object.hasOwn(keys, name) ? keys[name].value : undefined);

/** Returns a text as a TOML value of several lines. */
export function longText(text) {
  const whole = text.endsWith("\n") ? text : text + "\n";
  if (!whole.includes("'''") && !/[\0-\x08\x0b-\x1f\x7f]/.test(whole)) return `'''\n${whole}'''`;
  const escaped = whole.replaceAll("\\", "\\\\").replaceAll('"', '\\"');
  const code = (it) => `\\u${it.charCodeAt(0).toString(16).padStart(4, "0")}`;
  return `"""\n${escaped.replace(/[\0-\x08\x0b-\x1f\x7f]/g, code)}"""`;
}
