"""What other crates cite of a crate: laws and definitions, the clauses of public functions, and who calls these.

It goes by names alone. A law is cited where it is imported. A function is called where its name stands before a `(` in
a function of a crate that names this crate. A clause is cited where the proof of such a caller has its name behind
`.ensures`; one without a name where `.ensures` has no name, or a number, behind it. So of a method with a usual name,
and of a clause whose name another call of the same caller has too, more may be told than cite it, and seldom fewer:
what the check's tactics take without a name is not seen.
"""
import collections
import pathlib
import re

ITEM = re.compile(r"^pub ([^\s:(]+)", re.M)
IMPORT = re.compile(r"^(?:ghost )?use Rattle\.(\w+)\.(specs|proofs)\.([\w.]+?)\.\{([^}]*)\}", re.M)
FUNCTION = re.compile(r"^ *pub fn (\w+)(.*?)^ *(?:\{|[^\n]*;)$", re.M | re.S)
ANY_FUNCTION = re.compile(r"^ *(?:pub(?:\(\w+\))? )?fn (\w+)", re.M)
CLAUSE = re.compile(r"^ *ensures (\w*) ?\{", re.M)
ENSURES = re.compile(r"\.ensures\b(?:\.(\w+))?")


def read(folder, kind):
    """Gives the text of each file of a kind below a folder, by its path."""
    paths = (path for path in sorted(folder.rglob(f"*.{kind}")) if "out" not in path.parts)
    return {path: path.read_text(encoding="utf-8") for path in paths}


def imported(crate, others):
    """Gives for each item of the crate that is imported, by its part and module, the crates and modules that do so."""
    found = collections.defaultdict(set)
    for path, text in others.items():
        for owner, part, module, names in IMPORT.findall(text):
            for name in re.split(r",\s*", names.strip()) if owner == crate else ():
                found[part, module, name.split(" as ")[0]].add(place(path))
    return found


def place(path):
    """Gives in words which file of which crate this is."""
    parts = path.with_suffix("").parts
    at = parts.index("crates")
    inside = [it for it in parts[at + 2 :] if it not in ("src", "specs", "proofs", "Answers", "Invariants")]
    return f"{parts[at + 1]} {'/'.join(inside)}"


def functions(code):
    """Gives each function of these files: its crate, its module, its name, and its text up to the next one."""
    for path, text in code.items():
        heads = [*ANY_FUNCTION.finditer(text)]
        ends = [it.start() for it in heads[1:]] + [len(text)]
        for head, end in zip(heads, ends):
            yield place(path).split()[0], path.stem, head[1], text[head.end() : end]


def named_clauses(proofs):
    """Gives for each crate, module and function the names of clauses that its proof has, with the places."""
    found = collections.defaultdict(set)
    for path, text in proofs.items():
        parts = path.parts[path.parts.index("crates") + 1 :]
        # crate, "proofs", the module with the folders in it, the types, the function, the file
        for module in parts[2:-2]:
            for it in ENSURES.findall(text):
                found[parts[0], module, parts[-2]].add(("" if it.isdigit() else it, place(path)))
    return found


def listed(top, crate):
    """Gives the lines on a crate."""
    folder = pathlib.Path(top, "crates", crate)
    away = [it for it in sorted(folder.parent.iterdir()) if it.name != crate and (it / "src").is_dir()]
    proofs = {path: text for it in away for path, text in read(it, "antt").items()}
    code = {path: text for it in away for path, text in read(it, "rt").items()}
    lines = [f"{'law' if part == 'proofs' else 'definition'} {module}.{name}: {', '.join(sorted(those))}"
             for (part, module, name), those in sorted(imported(crate, {**proofs, **code}).items())]
    using = {place(path).split()[0] for path, text in code.items() if re.search(rf"\b{crate}\b", text)}
    near = [it for it in functions(code) if it[0] in using]
    named = named_clauses(proofs)
    for path, text in read(folder / "src", "rt").items():
        for name, head in FUNCTION.findall(text):
            call = re.compile(rf"\b{name}(?:::<[^(]*>)?\(")
            callers = [(owner, module, it) for owner, module, it, body in near if call.search(body)]
            calls = {f"{owner} {module}" for owner, module, _ in callers}
            lines.append(f"function {path.stem}::{name}: {', '.join(sorted(calls)) or 'nobody'}")
            there = {it for caller in callers for it in named[caller]}
            for clause in CLAUSE.findall(head):
                cited = {where for what, where in there if what == clause}
                lines.append(f"  clause {clause or 'without a name'}: {', '.join(sorted(cited)) or 'nobody'}")
    return lines
