// What holds for all sizes: the theorem of the built-in clock, by `explore`, and claims about a rule, by
// tools/all_sizes.py and z3.
import { Line, NoAnswer, isCancelled } from "./ask.js";
import { BY_THEOREM, exploredText, likelyCorrect } from "./explore.js";
import { button, get, make, on, say, state, tell } from "./page.js";
import { loadAt, ruleOf } from "./programs.js";

const HOLDS = 0, NO_SEARCH = 1, UNWRITTEN = /^all_sizes\.py: no step is refuted, .*\n?/m;
const FIRST_CLAIMS = `assume n > 3 * f
set Agree: p.clock == 0 or q.clock == 0 or p.clock == q.clock
step any -> Agree
`;
const NO_THEOREM = "No theorem covers this bench. It is about the built-in clock (program = \"clock\", and no rule or " +
  "clock in the scenario), n > 3f, and at most f other nodes. Explore the bench, or decide claims about its rule.";
const NO_RULE = "The clock of this scenario has no rule in the text, and claims are about a rule. Open an example " +
  "with a rule, or write one (docs/RULES.md).";
const line = new Line();

const show = (id, words, kind = "") => get(id).append(make("p", { class: kind }, words));

/** The rule that the first node with the clock runs in pulse 1, or null. */
function ruleShown({ scenario, pulses }) {
  const node = pulses[0].ran.indexOf("clock");
  return scenario && node >= 0 ? ruleOf(scenario, loadAt(scenario, node, 1)) : null;
}

/** Asks `explore` without a search: only a theorem can answer then. */
async function askTheorem() {
  const { run } = state, correct = likelyCorrect(run);
  const text = exploredText(run, correct);
  const { out } = await line.ask("explore", { text, states: NO_SEARCH, ask: "both" });
  const lines = out.trim().split("\n");
  if (!out.includes(BY_THEOREM)) show("theorem-said", NO_THEOREM);
  else for (const it of lines) show("theorem-said", it, "answer");
}

/** A note that scenarios of refuted steps aren't written is no news on the page. */
const notesOf = (err) => err.replace(UNWRITTEN, "").trim();

async function decide(rule) {
  const { status, out, err, ended, scenario } = await line.ask("claims", { rule, claims: get("claims").value });
  for (const it of out.trim().split("\n")) show("decided", it, status === HOLDS ? "answer" : "");
  const wrong = [notesOf(err), ended].filter(Boolean).join("\n");
  if (wrong) show("decided", wrong, "wrong");
  if (scenario === null) return;
  get("decided").append(button("Open the counterexample", () => {
    tell("open", scenario, "", ({ frame }) => frame.pulses);
    say("The counterexample is in the editor; Ctrl+Z brings back your scenario.");
  }, { id: "refutation" }));
}

/** Does this, and says in its place why it has no answer. */
async function answerIn(id, act) {
  get(id).replaceChildren(make("p", {}, ".."));
  get("decide-cancel").disabled = false;
  try {
    const done = act();
    get(id).replaceChildren();
    await done;
  } catch (why) {
    if (!isCancelled(why) && !(why instanceof NoAnswer)) throw why;
    show(id, isCancelled(why) ? "cancelled" : why.message, "wrong");
  } finally {
    get("decide-cancel").disabled = true;
  }
}

export function begin() {
  get("claims").value = FIRST_CLAIMS;
  get("theorem").addEventListener("click", () => {
    if (!state.run) return;
    if (state.run.scenario) answerIn("theorem-said", askTheorem);
    else get("theorem-said").replaceChildren(make("p", { class: "wrong" }, "The lab can't read the text."));
  });
  get("claims-form").addEventListener("submit", (event) => {
    event.preventDefault();
    const rule = state.run && ruleShown(state.run);
    if (rule) answerIn("decided", () => decide(rule));
    else if (state.run) get("decided").replaceChildren(make("p", {}, NO_RULE));
  });
  get("decide-cancel").addEventListener("click", () => line.cancel());
  on("run", () => {
    line.cancel();
    get("theorem-said").replaceChildren();
  });
}
