"""Does the class of docs/LAB.md on the page of the lab, word by word; try_lab.py uses it.

Each line of the class that begins with "- " has sentences of the forms in FORMS. One of another form is an error.
"""
import json
import re

from built_program import TOP

PAGE = TOP / "docs/LAB.md"
CLASS = re.compile(r"^## A class of .*?(?=^## )", re.MULTILINE | re.DOTALL)
LINE = re.compile(r"^- (.*(?:\n  .*)*)", re.MULTILINE)
BOLD = r"\*\*(.+?)\*\*"
# Marks the first part of the page that is shown, has this selector and is named so; says whether there is one.
MARK = """((selector, part, name, isWhole) => {
  document.querySelectorAll('[data-step]').forEach((it) => it.removeAttribute('data-step'));
  const isNamed = (it) => isWhole ? it.textContent.trim() === name : it.textContent.trim().startsWith(name);
  const found = [...document.querySelectorAll(selector)].find((it) => it.checkVisibility() && isNamed(it));
  (part ? found?.querySelector(part) : found)?.setAttribute('data-step', '');
  return Boolean(found);
})"""
MARKED = "[data-step]"
# What the page shows as text: neither what can be pressed or chosen nor the text of the editors.
SHOWN = """(() => {
  const walk = document.createTreeWalker(document.body, NodeFilter.SHOW_TEXT), found = [];
  while (walk.nextNode()) {
    const { parentElement: it, data } = walk.currentNode;
    if (it.checkVisibility() && !it.closest('button, option, textarea, script')) found.push(data);
  }
  return found.join('\\n');
})()"""
# The bar with the most seeds.
HIGHEST = """(() => {
  const seeds = (it) => Number(/: (\\d+) seed/.exec(it.getAttribute('aria-label'))[1]);
  const bars = [...document.querySelectorAll('#plot .bar')].sort((one, other) => seeds(other) - seeds(one));
  bars[0].querySelector('.room').setAttribute('data-step', '');
})()"""


def sentences():
    """The sentences of the class's lines, in order."""
    found = CLASS.search(PAGE.read_text(encoding="utf-8"))
    lines = [" ".join(it.split()) for it in LINE.findall(found[0])] if found else []
    return [it for line in lines for it in re.split(r"(?<=\.) (?=[A-Z])", line)]


def marked(page, selector, name, part="", is_whole=False):
    """Marks a part of the page, to be clicked; says whether it is there."""
    words = ", ".join(map(json.dumps, (selector, part, name, is_whole)))
    return page.until(f"({MARK})({words})")


def click(page, selector, name, part="", is_whole=False):
    if not marked(page, selector, name, part, is_whole):
        return False
    page.click(MARKED)
    return True


def press(page, name):
    return click(page, "button:not([role=tab]):not(:disabled)", name, is_whole=True)


def click_node(page, node):
    page.click(f"#ring .node[data-node='{node}'] .body")
    return page.until(f"lab.state.node === {node}")


def write(page, value, name):
    is_there = marked(page, "label", name, "input")
    if is_there:
        page.put(MARKED, value)
    return is_there


def choose(page, name, menu):
    """Chooses an example, and waits until its text is open."""
    value = page.value(f"[...document.querySelectorAll('select')].find((it) => it.ariaLabel === {json.dumps(menu)})"
                       f"?.querySelector('option[value=' + CSS.escape({json.dumps(name + '.toml')}) + ']')?.value")
    page.choose(f"select[aria-label={json.dumps(menu)}]", value or "")
    text = json.dumps((TOP / "examples" / f"{name}.toml").read_text(encoding="utf-8"))
    return page.until(f"lab.state.run?.text === {text}") and page.is_shown()


def open_part(page, name):
    return click(page, "[role=tab]", name) if name in ("Explore", "Sweep", "Node") else click(page, "summary", name)


def tick(page, name):
    return click(page, "label", name, "input[type=checkbox]")


def show(page, pulse):
    return page.show(int(pulse), page.value("lab.state.node"))


def change(page, old, new):
    text = page.scenario()
    page.edit(text.replace(old, new))
    return old in text and page.until(f"lab.state.run.text.includes({json.dumps(new)})")


def click_highest(page):
    page.value(HIGHEST)
    page.click(MARKED)
    return True


def see(page, words):
    page.is_shown()
    return page.until(f"{SHOWN}.includes({json.dumps(words)})")


FORMS = {
    rf"Press {BOLD}\.": press,
    r"Click node (\d+)\.": click_node,
    rf"Write (\S+) into {BOLD}\.": write,
    rf"Choose `(.+?)` under {BOLD}\.": choose,
    rf"Open {BOLD}\.": open_part,
    rf"Tick {BOLD}\.": tick,
    r"Show pulse (\d+)\.": show,
    r"Change `(.+?)` to `(.+?)` in the text\.": change,
    r"Click the highest bar\.": click_highest,
    rf"You see {BOLD}\.": see,
    rf"Wait for {BOLD}\.": see,
}


def do(page, sentence):
    """Does what a sentence says; says whether that was possible."""
    for form, act in FORMS.items():
        found = re.fullmatch(form, sentence)
        if found:
            return act(page, *found.groups())
    return False


def try_class(trial, page):
    """The class, from a page that was just opened; the trial ends at the first sentence that can't be done."""
    steps = sentences()
    trial.holds("the class has steps", len(steps) > 20, steps)
    for sentence in steps:
        is_done = do(page, sentence)
        trial.holds(f"the class: {sentence}", is_done, " ".join(page.text("#stage").split()))
        if not is_done:
            break
    page.click("#node-tab")
    page.value("document.getElementById('why').open = false")
    page.value("lab.state.isReceived = false")
