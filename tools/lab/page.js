// What all parts of the page share: elements, the state that is shown, and events when it changes.

const SVG = "http://www.w3.org/2000/svg";

export const get = (id) => document.getElementById(id);

function filled(made, attributes, children) {
  for (const [name, value] of Object.entries(attributes)) made.setAttribute(name, value);
  // A string becomes text, never elements: a scenario may hold anything.
  made.append(...children.map((it) => (it instanceof Node ? it : String(it))));
  return made;
}

/** Returns a new element with these attributes and children. */
export const make = (name, attributes = {}, ...children) => filled(document.createElement(name), attributes, children);

/** Returns a new element of a drawing. */
export const draw = (name, attributes = {}, ...children) =>
  filled(document.createElementNS(SVG, name), attributes, children);

/** Returns a new button that does this. */
export function button(text, onClick, attributes = {}) {
  const made = make("button", { type: "button", ...attributes }, text);
  made.addEventListener("click", onClick);
  return made;
}

/** What is shown: the last good run, the pulse, the node, and whether messages are those received. */
export const state = { run: null, at: 1, node: 0, isReceived: false, isStale: false };

const listeners = new Map();

/** Calls `act` each time when `tell` names this event. */
export function on(event, act) {
  listeners.set(event, [...(listeners.get(event) || []), act]);
}

export function tell(event, ...what) {
  for (const act of listeners.get(event) || []) act(...what);
}

/** Shows a sentence in the status line. */
export function say(text, isWrong = false) {
  get("said").textContent = text;
  get("said").classList.toggle("wrong", isWrong);
}

/** Returns the number in a field, or the default if it has none. */
export function numberIn(field, otherwise) {
  const value = Number.parseInt(field.value, 10);
  return Number.isNaN(value) ? otherwise : Math.min(Number(field.max), Math.max(Number(field.min), value));
}
