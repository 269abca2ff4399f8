"""The scripts of examples/, the contract of each, and what programs are run with."""
import glob
import os
import re

TOP = os.path.dirname(os.path.dirname(os.path.realpath(__file__)))
EXAMPLES = f"{TOP}/examples"
# Where a program is built without proofs, its faults of memory end with 70.
ENVIRONMENT = {**os.environ, "ASAN_OPTIONS": "exitcode=70:detect_leaks=0"}


def all_scripts():
    """Gives all scripts, in order of their names."""
    return sorted(glob.glob(f"{EXAMPLES}/*.script"))


def contract_of(script):
    """Gives the contract that a script names, or else the one with the longest name with which its own begins."""
    with open(script, encoding="latin-1") as file:
        named = re.search(r"//! on (\S+)", file.read())
    if named:
        return f"{EXAMPLES}/{named[1]}"
    found = [it for it in glob.glob(f"{EXAMPLES}/*.nomos") if script.startswith(it[: -len(".nomos")])]
    return max(found, key=len)
