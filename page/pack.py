"""Writes the page as one file: the scripts and styles of this folder, CodeMirror of Debian, the program, the examples,
and what the pages of docs/ say."""
import base64
import gzip
import html
import json
import os
import re
import sys

HERE = os.path.dirname(os.path.realpath(__file__))
TOP = os.path.dirname(HERE)
sys.path.insert(0, TOP)

import chapters  # noqa: E402
from explaining.causes import rows_of  # noqa: E402
from explaining.grammar import Grammar  # noqa: E402

EDITOR = "/usr/share/javascript/codemirror"
OF_EDITOR = ("codemirror.js", "addon/mode/simple.js", "addon/edit/matchbrackets.js")
SCRIPTS = (
    "asking", "reading", "answers", "held", "mends", "svg", "states", "accounts", "codes", "tale", "chart", "panes",
    "link", "steps", "page",
)
# The classes of CodeMirror for the names of a TextMate grammar, by what these begin with.
CLASSES = (
    ("comment", "comment"), ("constant.other.amount", "number"), ("constant.numeric", "number"),
    ("constant.language", "atom"), ("variable.language", "atom"), ("storage.type", "type"),
    ("support.constant", "type"), ("keyword.operator.symbol", "operator"), ("keyword.other.instruction", "builtin"),
    ("keyword.control.last", "builtin"), ("keyword", "keyword"), ("storage.modifier", "keyword"),
)
KINDS = {True: "the proved program itself", False: "the program itself, in a build that is not proved"}
PROVED = {
    True: "The program on this page is the proved one: it was proved and built for this page, over the proved libraries"
    " of its crates. What is proved of its answers stands in its README.",
    False: "The program on this page is <strong>not proved</strong>: it was built for a trial, with checks at run time"
    " in place of the proofs.",
}


def read(name):
    with open(name, encoding="utf-8") as file:
        return file.read()


def missing():
    """Says what is missing for a page, if something is."""
    if not os.path.isfile(f"{EDITOR}/{OF_EDITOR[0]}"):
        return "CodeMirror is missing: `apt-get install libjs-codemirror`"
    return ""


def examples():
    """Gives the contracts of examples/, each with a script of its own name, or with none, and further scripts."""
    names = sorted(os.listdir(f"{TOP}/examples"))
    contracts = [it[: -len(".nomos")] for it in names if it.endswith(".nomos")]
    found = {it: {"contract": read(f"{TOP}/examples/{it}.nomos"), "script": ""} for it in contracts}
    for name in (it[: -len(".script")] for it in names if it.endswith(".script")):
        script = read(f"{TOP}/examples/{name}.script")
        on = re.search(r"//! on (\w+)\.nomos", script)
        near = [it for it in contracts if name.startswith(it)]
        contract = on[1] if on else max(near, key=len) if near else None
        if contract:
            found[name] = {"contract": found[contract]["contract"], "script": script}
    return dict(sorted(found.items()))


def class_of(name):
    return next(kind for start, kind in CLASSES if name.startswith(start))


def mode(name):
    """Gives the rules of a mode from a TextMate grammar of editors/."""
    patterns = json.loads(read(f"{TOP}/editors/textmate/{name}.tmLanguage.json"))["patterns"]
    return [{"match": it["match"], "token": class_of(it["name"])} for it in patterns]


def known(module):
    """Gives what the scripts know by name."""
    causes = rows_of(read(f"{TOP}/docs/CAUSES.md"))
    return {
        "PACKED": base64.b64encode(gzip.compress(module.bytes, 9, mtime=0)).decode("ascii"),
        "HOST": read(f"{HERE}/host.js"),
        "EXAMPLES": examples(),
        "CAUSES": {cause: [it.means, it.rule, it.page] for cause, it in causes.items()},
        "MENDS": json.loads(read(f"{TOP}/explaining/mends.json")),
        "WORDS": sorted(Grammar(read(f"{TOP}/docs/LANGUAGE.md")).reserved),
        "MODES": {"nomos": mode("nomos"), "nomos-script": mode("script")},
        "CHAPTERS": chapters.steps(read(f"{TOP}/docs/TUTORIAL.md")),
    }


def version():
    return re.search(r"^## ([0-9.]+)", read(f"{TOP}/CHANGELOG.md"), re.MULTILINE)[1]


def page(module):
    """Gives the text of the page."""
    data = "".join(f"const {name} = {json.dumps(it)};\n" for name, it in known(module).items())
    ours = "\n".join(read(f"{HERE}/{name}.js") for name in SCRIPTS)
    editor = "\n".join(read(f"{EDITOR}/{name}") for name in OF_EDITOR)
    script = f"{editor}\n(() => {{\n'use strict';\n{data}{ours}}})();"
    script = re.sub(r"<(?=/script|!--)", r"\\x3c", script, flags=re.IGNORECASE)
    style = f"{read(f'{EDITOR}/codemirror.css')}\n{read(f'{HERE}/page.css')}"
    filled = {
        "STYLE": style, "SCRIPT": script, "PROVED": PROVED[module.is_proved], "VERSION": version(),
        "KIND": KINDS[module.is_proved], "SUM": html.escape(module.sum[:16]),
    }
    return re.sub(r"@([A-Z]+)@", lambda it: filled[it[1]], read(f"{HERE}/page.html"))
