// Scenarios that are opened, saved, downloaded, and sent as an address.
import { NoAnswer, ask } from "./ask.js";
import { get, make, say, state, tell } from "./page.js";

const KEY = "scenario=", MAX_TEXT = 1 << 20, DEFAULT_NAME = "mine.toml";
export const START = `# Three nodes, one fault allowed.
# Nodes 0 and 1 run the clock: its rule
# is here, to edit. Node 2 is yours:
# click it, and load a program into it.
version = 4
nodes = 3
faults = 1
modulus = 8
memory = 8
pulses = 14
coins = "chacha"
key = 119
rule = '''
state mark
let v = clock if clock < M else 0
let support = count j: mail[j] == v
if support < n - f: clock, mark = 0, 0
elif v != 0:        clock, mark = (v + 1) % M, 1
elif mark != 0:     clock, mark = 1, 1
else:               clock, mark = coin, coin
send clock
'''

[[load]]
pulse = 1
nodes = [0, 1]
program = "clock"
`;
let name = "", savedText = null, openedText = null, changes = 0;

/** Names the file that is open, and keeps what is saved of it. */
export function named(newName, text) {
  name = newName;
  savedText = text;
  showName();
}

function showName() {
  const isSaved = savedText === null || savedText === get("text").editor.text;
  get("name").textContent = name + (name && !isSaved ? " (changed)" : "");
}

function fill(select, first, groups) {
  const options = groups.map(([words, items]) =>
    make("optgroup", { label: words }, ...items.map(([value, text]) => make("option", { value }, text))));
  select.replaceChildren(make("option", { value: "" }, first), ...options.filter((it) => it.children.length > 0));
}

function showFiles(folder, files) {
  fill(get("files"), "Open ..", [[folder, files.map((it) => [it, it])]]);
}

/** Fills the menu of examples by their groups, which come in order. */
function showExamples(examples) {
  const words = ({ name: it, caption }) => [it, `${it.replace(/\.toml$/, "")}: ${caption}`];
  const groups = new Map([["Start", [["start", "three nodes, one of them yours"]]]]);
  for (const it of examples) groups.set(it.group, [...(groups.get(it.group) || []), words(it)]);
  fill(get("examples"), "Examples ..", [...groups]);
}

/** Opens a text with the properties of its run. Its menu goes on to name it until it is changed. */
function openFrom(place, file, text, claims = "") {
  openedText = text;
  tell("properties", claims);
  tell("open", text, place === "folder" ? file : "");
  get("files").value = place === "folder" ? file : "";
  get("examples").value = place === "folder" ? "" : file;
}

/**
 * Opens a file of the folder or an example; the text before it can be had again by an undo. A file that arrives after
 * another choice or a change of the text is dropped.
 */
async function open(place, file) {
  const mine = ++changes;
  try {
    const { text, claims } = await ask("open", { place, name: file });
    if (mine === changes) openFrom(place, file, text, claims);
  } catch (why) {
    if (!(why instanceof NoAnswer)) throw why;
    say(`${file}: ${why.message}`, true);
  }
}

async function save(replace) {
  const text = get("text").editor.text, file = get("save-name").value.trim();
  try {
    const { files } = await ask("save", { name: file.endsWith(".toml") ? file : `${file}.toml`, text, replace });
    named(file.endsWith(".toml") ? file : `${file}.toml`, text);
    showFiles(state.folder, files);
    get("save-dialog").close();
    say(`${name} is saved in ${state.folder}.`);
  } catch (why) {
    if (!(why instanceof NoAnswer)) throw why;
    get("save-said").textContent = why.status === 409 ? `${why.message}: replace it?` : why.message;
    get("save-replace").hidden = why.status !== 409;
    if (why.status === 409) get("save-replace").focus();
  }
}

function showSave() {
  get("save-name").value = name || DEFAULT_NAME;
  get("save-folder").textContent = state.folder;
  get("save-said").textContent = "";
  get("save-replace").hidden = true;
  get("save-dialog").showModal();
  get("save-name").select();
}

function download() {
  const file = new Blob([get("text").editor.text], { type: "application/toml" });
  const link = make("a", { href: URL.createObjectURL(file), download: (name || DEFAULT_NAME).split("/").at(-1) });
  link.click();
  setTimeout(() => URL.revokeObjectURL(link.href), 10000);
}

// An address that holds a scenario.

async function packed(text) {
  const stream = new Blob([text]).stream().pipeThrough(new CompressionStream("deflate-raw"));
  const bytes = new Uint8Array(await new Response(stream).arrayBuffer());
  let letters = "";
  for (const byte of bytes) letters += String.fromCharCode(byte);
  return btoa(letters).replaceAll("+", "-").replaceAll("/", "_").replaceAll("=", "");
}

/** Returns the text in an address, or null; no more than a scenario may have is unpacked. */
export async function unpacked(address) {
  const at = address.indexOf(KEY);
  if (at < 0) return null;
  try {
    const letters = atob(address.slice(at + KEY.length).trim().replaceAll("-", "+").replaceAll("_", "/"));
    const bytes = Uint8Array.from(letters, (it) => it.charCodeAt(0));
    const reader = new Blob([bytes]).stream().pipeThrough(new DecompressionStream("deflate-raw")).getReader();
    const parts = [];
    for (let size = 0; ;) {
      const { done, value } = await reader.read();
      if (done) return await new Blob(parts).text();
      parts.push(value);
      size += value.length;
      if (size > MAX_TEXT) return null;
    }
  } catch {
    return null;
  }
}

async function showLink() {
  // Without the token of this lab: whoever gets the address pastes it into a lab of their own.
  get("link-text").value = `${location.origin}/#${KEY}${await packed(get("text").editor.text)}`;
  get("link-said").textContent = "";
  get("link-dialog").showModal();
  get("link-text").select();
}

async function copyLink() {
  get("link-text").select();
  try {
    await navigator.clipboard.writeText(get("link-text").value);
    get("link-said").textContent = "Copied.";
  } catch {
    get("link-said").textContent = "The browser doesn't let the page copy: press Ctrl+C.";
  }
}

async function openLink() {
  const text = await unpacked(get("open-text").value);
  if (text === null) {
    get("open-said").textContent = "This address holds no scenario: it needs #scenario= and what follows it.";
    return;
  }
  get("open-dialog").close();
  tell("open", text, "");
}

async function openFragment() {
  if (!location.hash.includes(KEY)) return false;
  const text = await unpacked(location.hash);
  history.replaceState(null, "", location.pathname);
  if (text === null) say("The address holds no scenario that can be read.", true);
  else tell("open", text, "");
  return text !== null;
}

function listen() {
  const openers = {
    examples: (it) => (it === "start" ? openFrom("examples", it, START) : open("examples", it)),
    files: (it) => open("folder", it),
  };
  for (const [id, act] of Object.entries(openers)) {
    get(id).addEventListener("change", (event) => {
      if (event.target.value) act(event.target.value);
    });
  }
  const buttons = { save: showSave, download, link: showLink, "copy-link": copyLink, "save-replace": () => save(true) };
  for (const [id, act] of Object.entries(buttons)) get(id).addEventListener("click", act);
  get("open-link").addEventListener("click", () => {
    get("open-text").value = get("open-said").textContent = "";
    get("open-dialog").showModal();
  });
  const forms = { "save-form": () => save(false), "open-form": openLink };
  for (const [id, act] of Object.entries(forms)) {
    get(id).addEventListener("submit", (event) => {
      event.preventDefault();
      act();
    });
  }
  for (const it of document.querySelectorAll("dialog .close")) {
    it.addEventListener("click", () => it.closest("dialog").close());
  }
  addEventListener("hashchange", openFragment);
}

/** Opens the first scenario: that of the address, the one before a reload, the one of the command line, or a start. */
export async function begin({ folder, files, examples, opened }) {
  state.folder = folder;
  showFiles(folder, files);
  showExamples(examples);
  listen();
  const kept = sessionStorage.getItem(location.pathname);
  if (await openFragment()) return;
  if (kept !== null) tell("open", kept, "");
  else if (opened) await open(opened.place, opened.name);
  else openFrom("examples", "start", START);
}

/** Keeps the text for a reload of the page. */
export function changed(text) {
  changes += 1;
  showName();
  if (text !== openedText) get("files").value = get("examples").value = "";
  try {
    sessionStorage.setItem(location.pathname, text);
  } catch {
    // The browser keeps nothing: a reload begins anew.
  }
}
