"""Functions that other languages have, and a contract writes for itself: of numbers and of lists of numbers."""
from .amounts import closing
from .mends import mend
from .shapes import HEADS

# How each is written, with its own name, and the names that others have for it.
WRITTEN = {
    "fn {0}(l: list int): int = match l {{ nil => 0 | h :: t => 1 + {0}(t) }};": "length len size count_of card",
    "fn {0}(l: list int): int = match l {{ nil => 0 | h :: t => h + {0}(t) }};": "sum total add_up",
    "fn {0}(l: list int): int = match l {{ nil => 0 | h :: t => h }};": "head first car top peek",
    "fn {0}(l: list int): list int = match l {{ nil => nil int | h :: t => t }};": "tail rest cdr pop drop_first",
    "fn {0}(l: list int): int = match l {{ nil => 0 | h :: t => if {0}(t) < h then h else {0}(t) }};": "maximum max_of "
    "largest",
    "fn {0}(l: list int): bool = match l {{ nil => true | h :: t => false }};": "is_empty empty isEmpty null",
    "fn {0}(l: list int, n: int): bool = match l {{ nil => false | h :: t => h = n or {0}(t, n) }};": "contains has "
    "includes member elem",
    "fn {0}(l: list int, n: int): int = match l {{ nil => 0 | h :: t => if n < 1 then h else {0}(t, n - 1) }};":
    "nth at get index element_at",
    "fn {0}(a: list int, b: list int): list int = match a {{ nil => b | h :: t => h :: {0}(t, b) }};": "append concat "
    "joined join extend",
    "fn {0}(a: int, b: int): int = if a < b then b else a;": "max larger",
    "fn {0}(a: int, b: int): int = if a < b then a else b;": "min smaller",
    "fn {0}(a: int, b: int): int = a % b;": "mod modulo rem",
    "fn {0}(n: int): int = if n < 0 then 0 - n else n;": "abs absolute magnitude",
}
BY_NAME = {name: text for text, names in WRITTEN.items() for name in names.split()}


def written(names, at, program):
    """Gives a line for a function that is declared nowhere, and is one of these by its name, where the check goes on
    past it then."""
    token, tokens = names.tokens[at], names.tokens
    if token.text not in BY_NAME or names.used(at) != "function":
        return []
    said = BY_NAME[token.text].format(token.text)
    head = next(it for it in tokens if it.text in HEADS)
    edit = (head.at, head.at, f"{said}\n")
    after = program.check(names.text.edited(edit))
    start, end = token.at + len(edit[2]), tokens[closing(tokens, at + 1)].end + len(edit[2])
    is_stuck = after.is_cause("ProcType") or after.is_cause("TermType")
    is_past = after.is_cause("Name") and after.offset > start or is_stuck and not start <= after.offset < end
    does = after.is_accepted or after.is_cause("NoPotential") or is_past
    return [mend(f"write `{said}` before all others", edit)] if does else []
