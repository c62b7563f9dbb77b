#!/usr/bin/env python3
"""Holds each line of `run --json` against docs/lines.schema.json: tools/check_schema.py [PROGRAM]

The lines are those of all examples and outside scenarios (check_json.py), and those of `run --json --claims` of the
examples of properties. The schema must refuse lines with a seeded fault. It needs Python's jsonschema, which is installed as Debian's python3-jsonschema where it is missing and that can
be done; otherwise a line says that nothing was tried. PROGRAM is as for check_rows.py.
"""
import copy
import importlib.util
import json
import os
import subprocess
import sys

sys.dont_write_bytecode = True
from built_program import TOP, answer, named_program, on_all_processors, tell
from check_json import scenarios
from check_properties import EXAMPLES

SCHEMA = TOP / "docs/lines.schema.json"
DEBIAN_PYTHON = "/usr/bin/python3"
DEBIAN_HAS_IT = [DEBIAN_PYTHON, "-c", "import jsonschema"]
INSTALL = [str(TOP / "tools/need_packages.sh"), "python3-jsonschema"]
FAULTS = [
    lambda frame, pulse, last: frame.pop("nodes"),
    lambda frame, pulse, last: frame.update(format=4),
    lambda frame, pulse, last: frame.update(format=1, clock="own"),
    lambda frame, pulse, last: pulse.pop("sent"),
    lambda frame, pulse, last: pulse.update(more=1),
    lambda frame, pulse, last: pulse["coins"].append(2),
    lambda frame, pulse, last: pulse["ran"].append("clocks"),
    lambda frame, pulse, last: pulse["memory"].append("0"),
    lambda frame, pulse, last: pulse["staged"].append({"load": 0}),
    lambda frame, pulse, last: pulse["sent"].append([4294967296]),
    lambda frame, pulse, last: last.update(in_step_since=0),
    lambda frame, pulse, last: last.pop("of"),
]
CLAIMS_FAULTS = [
    lambda pulse, told: pulse.pop("pulse"),
    lambda pulse, told: pulse["claims"].append("maybe"),
    lambda pulse, told: told.pop("line"),
    lambda pulse, told: told.update(answer="yes"),
    lambda pulse, told: told.pop("nodes"),
    lambda pulse, told: told.update(violated=0),
]


def succeeds(words):
    try:
        return subprocess.run(words, capture_output=True, check=False).returncode == 0
    except FileNotFoundError:
        return False


def need_jsonschema():
    """Goes on by a Python that has jsonschema, or ends."""
    if importlib.util.find_spec("jsonschema"):
        return
    if sys.executable != DEBIAN_PYTHON and (succeeds(DEBIAN_HAS_IT) or (succeeds(INSTALL) and succeeds(DEBIAN_HAS_IT))):
        os.execv(DEBIAN_PYTHON, [DEBIAN_PYTHON, *sys.argv])
    print("check_schema: left out, since Python's jsonschema is missing and can't be installed")
    sys.exit(0)


def line_differences(validator, name, lines):
    for number, line in enumerate(lines, 1):
        wrong = next(validator.iter_errors(json.loads(line)), None)
        if wrong:
            yield f"{name}: line {number}: {wrong.message[:200]}"


def claims_runs(program):
    """The name and the answer of `run --json --claims` for each example of properties."""
    for name, (scenario, _status) in EXAMPLES.items():
        words = ["run", "--json", "--claims", str(TOP / "examples/properties" / f"{name}.claims")]
        yield f"{name}.claims", answer(program, words, (TOP / "examples" / scenario).read_bytes())


def fault_differences(validator, name, lines, faults):
    """The seeded faults of these lines that the schema lets through."""
    whole = [json.loads(it) for it in lines]
    for number, fault in enumerate(faults):
        some = copy.deepcopy(whole)
        fault(*some)
        if all(validator.is_valid(it) for it in some):
            yield f"{name}: the schema takes the seeded fault {number}"


def main():
    need_jsonschema()
    import jsonschema

    program = named_program()
    schema = json.loads(SCHEMA.read_text(encoding="utf-8"))
    jsonschema.Draft202012Validator.check_schema(schema)
    validator = jsonschema.Draft202012Validator(schema)
    runs = on_all_processors(lambda one: [(one[0], answer(program, ["run", "--json"], one[1]))], list(scenarios()))
    told = [(name, it.out.decode().splitlines()) for name, it in runs if it.status == 0]
    judged = {name: it.out.decode().splitlines() for name, it in claims_runs(program)}
    found = [it for name, lines in [*told, *judged.items()] for it in line_differences(validator, name, lines)]
    name, lines = told[0]
    found += fault_differences(validator, name, [lines[0], lines[1], lines[-1]], FAULTS)
    violated = judged["vote.claims"]
    found += fault_differences(validator, "vote.claims", [violated[0], violated[-1]], CLAIMS_FAULTS)
    counted = sum(len(lines) for lines in [*dict(told).values(), *judged.values()])
    return tell("check_schema", {"lines": counted, "seeded faults": len(FAULTS) + len(CLAIMS_FAULTS)}, found)


if __name__ == "__main__":
    sys.exit(main())
