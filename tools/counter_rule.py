"""A counter's tables as a rule (docs/RULES.md) and as a scenario to explore; tools/find.py uses it.

The rule keeps the node's state in the word `mine`. It reads the states that it hears as the digits of one number, its
own first. That number is the place in the table. A table is written in one of two ways, whichever has fewer slots: as
ranges of places for each new state, or as numbers whose digits are the new states of consecutive places.
"""
import itertools

WORD = 1 << 32
RANGES_IN_A_LINE = 6
FRONT = "    "


def ranges_of(cells, state):
    """The ranges of places that have this state."""
    found, place = [], 0
    for value, run in itertools.groupby(cells):
        length = len(list(run))
        if value == state:
            found.append((place, place + length - 1))
        place += length
    return found


def test_of(low, high, last):
    if low == high:
        return f"all == {low}"
    if low == 0:
        return f"all <= {high}"
    return f"all >= {low}" if high == last else f"all >= {low} and all <= {high}"


def by_ranges(cells, states):
    """Statements that set `now` to the new state, by ranges of places."""
    usual = max(range(states), key=cells.count)
    lines, word = [f"now = {usual}"], "if"
    for state in range(states):
        found = [] if state == usual else ranges_of(cells, state)
        for at in range(0, len(found), RANGES_IN_A_LINE):
            tests = " or ".join(test_of(*it, len(cells) - 1) for it in found[at : at + RANGES_IN_A_LINE])
            lines.append(f"{word} {tests}: now = {state}")
            word = "elif"
    return lines


def digits_in_a_word(states):
    """The greatest power of two of digits in base STATES that are below 2^32."""
    digits = 1
    while states ** (2 * digits) <= WORD:
        digits *= 2
    return digits


def by_digits(cells, states):
    """Statements that set `now` to a number with the new state as a digit, and then to that digit."""
    digits = digits_in_a_word(states)
    words = [
        (at + digits, sum(cell * states**place for place, cell in enumerate(cells[at : at + digits])))
        for at in range(0, len(cells), digits)
    ]
    merged = [list(run)[-1] for _, run in itertools.groupby(words, key=lambda it: it[1])]
    lines = [f"now = {merged[-1][1]}"]
    for number, (end, value) in enumerate(merged[:-1]):
        lines.append(f"{'elif' if number else 'if'} all < {end}: now = {value}")
    step = digits // 2
    while step:
        test = f"all % {2 * step} >= {step}" if step > 1 else "all % 2 == 1"
        lines.append(f"if {test}: now = now / {states**step}")
        step //= 2
    return [*lines, f"now = now % {states}"]


def shown(counter, name):
    """The count that a state shows, as a term."""
    term = name
    for state in range(counter.states - 1, -1, -1):
        if counter.shows[state] != state:
            term = f"{counter.shows[state]} if {name} == {state} else {term}"
    return term


def lookup(counter, tables, write):
    """Statements that set `now` by the table of this node."""
    if len(tables) == 1:
        return write(tables[0], counter.states)
    lines = []
    for node, cells in enumerate(tables):
        test = f"me % {len(tables)} == {node}" if len(tables) < counter.nodes else f"me == {node}"
        lines.append(f"{'elif' if node else 'if'} {test}:")
        lines += [FRONT + it for it in write(cells, counter.states)]
    return lines


def reading(digit, below, states):
    """Statements that set `all` to what is heard of one layer, as digits in base STATES."""
    return [
        "for j:",
        f"{FRONT}now = mine if j == 0 else mail[(me + j) % n]",
        f"{FRONT}all = {states} * all + ({digit} if now < {below} else 0)",
    ]


def rule_of(counter, tables, write, layers=1):
    """The text of the rule of one layer, or of two."""
    if layers == 2:
        return layered_rule(counter, tables, write)
    lines = ["state mine", "let all = 0", "let now = 0", *reading("now", counter.states, counter.states)]
    lines += [*lookup(counter, tables, write), "mine = now", f"clock = {shown(counter, 'now')}", "send mine", ""]
    return "\n".join(lines)


def layered_rule(counter, tables, write):
    """Two layers: the second one takes a step whenever the first one shows its last count. A node's state has both, as
    the two digits of `mine`. The word `clock` keeps the new state of the first layer until the other one is known."""
    states, modulus = counter.states, counter.modulus
    is_last = " or ".join(f"mine % {states} == {it}" for it in range(states) if counter.shows[it] == modulus - 1)
    lines = ["state mine", "let all = 0", "let now = 0", *reading(f"now % {states}", states**2, states)]
    lines += [*lookup(counter, tables, write), "clock = now", f"if mine >= {states**2}: mine = 0"]
    lines += [f"now = mine / {states}", f"if {is_last}:", f"{FRONT}all = 0"]
    lines += [FRONT + it for it in [*reading(f"now / {states}", states**2, states), *lookup(counter, tables, write)]]
    lines += [f"mine = {states} * now + clock"]
    lines += [f"clock = ({shown(counter, 'clock')}) + {modulus} * ({shown(counter, 'now')})"]
    return "\n".join([*lines, "send mine", ""])


def scenario_of(counter, rule, title, modulus, correct=None):
    """A scenario whose correct nodes, the first ones unless they are named, run the rule. The others have no program, so
    they are Byzantine."""
    return f"""# {title}
# Ask: explore --ask stabilisation --mail all --start every
version = 4
nodes = {counter.nodes}
faults = {counter.faults}
modulus = {modulus}
memory = 8
pulses = 12
coins = "zeros"
rule = '''
{rule}'''

[[load]]
pulse = 1
nodes = {correct or list(range(counter.nodes - counter.faults))}
program = "clock"
"""
