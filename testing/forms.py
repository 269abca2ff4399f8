"""What the parts of a comment may say: their forms, of a contract and of a script."""
import difflib
import re

NAME, GAS = "[A-Za-z_][A-Za-z_0-9]*", "[0-9]+(?:/[0-9]+)?"
VALUE = r"-?[0-9]+|true|false|\[[-0-9a-z,\[\]]*\]"
FORM = "label|case|send|recv|put|take|pay|get|work|wait|accept|detach|acquire|release|spawn|let|emit|if|close|fwd|call"
CAUSES = (
    "TooLong|NotAscii|Limit(?: (?:Name|Number|Nesting|Nodes|Stars))?|Syntax|Name|Cost|Contractive|Mode|NotSync|TermType"
    f"|ProcType(?: (?:{FORM}|empty|add|match))?|NoPotential"
)
REASONS = (
    f"TooMuchGas|(?:NoAccount|NoProcess|BadArguments|NameTaken)(?: {NAME})?"
    f"|NoGas(?: {NAME}(?: has {GAS}(?: needs {GAS})?)?)?"
)
FAULTS = "Overflow|DivideByZero|TermSteps|ListLength|Depth"
OPTION = "--policy (?:first|round)|--(?:workers|steps) [1-9][0-9]*"

# The kinds of what is due, each with its form; a part is of the first kind whose form it has.
OF_CONTRACT = {
    "answer": f"accepted|refused (?:{CAUSES})|unsolved (?:Pivots|Large)(?: [0-9]+)?",
    "fact": f"bound {NAME} = {GAS}|star [0-9]+ = {GAS}|unit {GAS}",
}
OF_SCRIPT = {
    "end": f"deposited|committed|blocked|steps(?: [0-9]+)?|aborted (?:{FAULTS})|refused (?:{REASONS})",
    "result": f"result (?:{VALUE})",
    "fact": f"account {NAME} {GAS}|contract {NAME} gas {GAS}(?: (?:free|held))?|(?:stored|spent|deposits) {GAS}"
            f"|{NAME} owns [0-9]+",
    "contract": r"on \S.*\.nomos",
    "options": f"with(?: (?:{OPTION}))+",
    "evening": r"behind \S.*\.script",
    "threads": "pooled [1-8]",
}
# The kinds that stand above all lines of a script.
HEADS = ("contract", "options", "evening", "threads")
# The words that parts begin with, each with the form that is said of it where the others do not fit.
SHOWN_OF_CONTRACT = {
    "accepted": "accepted", "refused": "refused CAUSE [WORD]", "unsolved": "unsolved Pivots | Large", "unit": "unit G",
    "bound": "bound NAME = G", "star": "star N = G",
}
SHOWN_OF_SCRIPT = {
    "deposited": "deposited", "committed": "committed", "blocked": "blocked", "steps": "steps [N]",
    "aborted": "aborted FAULT", "refused": "refused CAUSE [WORDS]", "result": "result VALUE", "spent": "spent G",
    "account": "account NAME G", "contract": "contract NAME gas G [free | held]", "owns": "NAME owns N",
    "stored": "stored G", "deposits": "deposits G", "on": "on FILE.nomos",
    "with": "with [--policy first | round] [--workers N] [--steps N]", "behind": "behind FILE.script",
    "pooled": "pooled N",
}


def plain(said):
    """Gives the words of a part with one blank between two of them, and none in a list."""
    words = said.split() if said.split()[:1] in (["on"], ["behind"]) else said.replace("=", " = ").split()
    return f"result {''.join(words[1:])}" if words[:1] == ["result"] and len(words) > 1 else " ".join(words)


def kind_of(words, forms):
    """Gives the kind of a part, or none where it has no form."""
    return next((kind for kind, form in forms.items() if re.fullmatch(form, words)), None)


def is_near(word, shown):
    return difflib.get_close_matches(word, shown, 1, 0.7)


def no_form(words, shown):
    """Says of a part without a form which one may be meant."""
    first = words.split()[0]
    if first in shown:
        return f"this has another form than `{shown[first]}`"
    near = is_near(first, shown)
    if near:
        return f"no part begins with `{first}`; did you mean `{near[0]}`?"
    return f"no part begins with `{first}`, but with {', '.join(f'`{it}`' for it in shown if it != 'owns')}"
