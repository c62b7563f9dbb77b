"""The toolchain's name, for the scripts that compare it.

`rt version` prints a kit with its revision, as `rattle-kit-13b logic SUM`. Revisions of one kit have one built logic, by
whose sum they are told apart from others. So the product names the kit and the sum: `rattle-kit-13 logic SUM`.
"""
import re
import shutil
import subprocess

NAME = re.compile(r"(rattle-kit-\d+)[a-z]* (logic [0-9a-f]+)")


def without_revision(name):
    """The name of a toolchain without the revision of its kit."""
    return NAME.sub(r"\1 \2", name)


def toolchain_here():
    """The name of the toolchain here, without its revision, or None if there is no `rt`."""
    if not shutil.which("rt"):
        return None
    return without_revision(subprocess.run(["rt", "version"], capture_output=True, text=True, check=True).stdout.strip())
