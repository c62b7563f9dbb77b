// Properties of the run: the verdicts of `run --claims` on each, as rows under the clocks.
import { Line, NoAnswer, isCancelled, wordsOf } from "./ask.js";
import { get, make, on, state } from "./page.js";
import { goTo } from "./run.js";

const PAUSE = 350;
/** The colour of a verdict, its top in two rows of points, and its height: a no is higher, for those who see no colours. */
const CELLS = { yes: ["#3a9d5d", 1, 1], no: ["#d1344b", 0, 2] };
const line = new Line();
let timer = null;

function answerOf({ answer, judged, violated, last, nodes, from }) {
  if (answer === "none") return "no pulse was judged";
  if (from !== undefined) return `holds from pulse ${from} on`;
  if (answer === "holds") return `holds in ${judged} pulses`;
  return `violated in ${violated} of ${judged} pulses, last in pulse ${last} by nodes ${nodes.join(" and ")}`;
}

/** The row of a property: a cell for each pulse, empty if the property wasn't judged there. A click shows the pulse. */
function rowOf(property, verdicts) {
  const title = `line ${property.line}: ${property.claim}\n${answerOf(property)}`;
  const row = make("canvas", { width: verdicts.length, height: 2, title, role: "img", "aria-label": title });
  const pen = row.getContext("2d");
  verdicts.forEach((it, at) => {
    if (!(it in CELLS)) return;
    const [colour, top, high] = CELLS[it];
    pen.fillStyle = colour;
    pen.fillRect(at, top, 1, high);
  });
  row.addEventListener("click", (event) => goTo(1 + Math.floor((event.offsetX / row.clientWidth) * verdicts.length)));
  return row;
}

/** Shows a row for each property of these lines of JSON, and the words. */
function show(out, words) {
  const lines = out.trim().split("\n").filter(Boolean).map((it) => JSON.parse(it));
  const pulses = lines.filter((it) => "claims" in it), properties = lines.filter((it) => "claim" in it);
  get("judged").replaceChildren(...properties.map((it, at) => rowOf(it, pulses.map(({ claims }) => claims[at]))));
  get("judged-lines").replaceChildren(...properties.map((it) => make("span", {}, it.line)));
  get("properties-said").textContent = words;
}

/** Judges the run that is shown by the properties of the field. */
async function judge() {
  const { run } = state, claims = get("properties").value;
  line.cancel();
  if (!run || !claims.trim()) {
    show("", "");
    return;
  }
  try {
    const answer = await line.ask("properties", { text: run.text, claims });
    const isJudged = answer.status === 0 && !answer.ended;
    show(isJudged ? answer.out : "", isJudged ? "" : wordsOf(answer));
  } catch (why) {
    if (isCancelled(why)) return;
    if (!(why instanceof NoAnswer)) throw why;
    show("", why.message);
  }
}

export function begin() {
  get("properties").addEventListener("input", () => {
    clearTimeout(timer);
    timer = setTimeout(judge, PAUSE);
  });
  on("properties", (text) => {
    get("properties").value = text;
    get("properties-part").open = text !== "";
  });
  on("run", judge);
}
