// Questions to tools/lab.py, which answers each by a run of clockbed.

/** An answer that the lab has refused to give, or that didn't arrive. */
export class NoAnswer extends Error {
  constructor(text, status = 0) {
    super(text);
    this.status = status;
  }
}

/** Returns the lab's answer. `signal` cancels the question, and so ends its process. */
export async function ask(what, body = {}, signal = undefined) {
  const words = { method: "POST", headers: { "Content-Type": "application/json" }, body: JSON.stringify(body), signal };
  let answer;
  try {
    answer = await fetch(what, words);
  } catch (why) {
    if (why.name === "AbortError") throw why;
    throw new NoAnswer("The lab doesn't answer: start tools/lab.py again, and open the address that it prints.");
  }
  if (!answer.ok) throw new NoAnswer((await answer.text()).trim(), answer.status);
  return answer.json();
}

export const isCancelled = (why) => why.name === "AbortError";

/** Returns everything that the program said, for people; or why the lab ended it. */
export const wordsOf = ({ status, out, err, ended }) =>
  ended || [out, err].map((it) => it.trim()).filter(Boolean).join("\n") || `clockbed ended with status ${status}`;

/** What is said without the marked line below a note: the editor marks the line itself. */
export const withoutMark = (words) => words.replace(/^(note: .*)\n.*\n[ \t]*\^$/m, "$1");

/** The end of a note, which says what is wrong; before it is the place, and in a scenario the line as it stands. */
export const endOfNote = (words) => {
  const note = withoutMark(words);
  return /; (?=[^;]*$)(.*)$/.exec(note)?.[1] ?? note.replace(/^[^]*note: (line \d+(, column \d+)?: )?/, "");
};

/** One question at a time: a new one cancels the one before. */
export class Line {
  constructor() {
    this.control = null;
  }

  cancel() {
    if (this.control) this.control.abort();
    this.control = null;
  }

  async ask(what, body) {
    this.cancel();
    this.control = new AbortController();
    const mine = this.control;
    try {
      return await ask(what, body, mine.signal);
    } finally {
      if (this.control === mine) this.control = null;
    }
  }
}
