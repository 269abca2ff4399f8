"""The rows of docs/CAUSES.md."""
import re
from typing import NamedTuple


class Row(NamedTuple):
    """What a cause means, the heading of the rule, and the page that this stands on."""

    means: str
    rule: str
    page: str


def rows_of(page):
    """Gives the rows of the page by their causes. A table names the page of its rules in the head of its last column,
    where that is another one than docs/LANGUAGE.md."""
    found, rules = {}, "LANGUAGE"
    for line in page.splitlines():
        parts = line.replace("\\|", "\0").strip().strip("|").split(" | ")
        cause = re.fullmatch(r" ?`([^`]+)`", parts[0])
        head = re.fullmatch(r"rule(?: in `docs/(\w+)\.md`)?", parts[-1].strip())
        if head and len(parts) == 3:
            rules = head[1] or "LANGUAGE"
        if cause and len(parts) == 3:
            found[cause[1]] = Row(*(it.replace("\0", "|").strip() for it in parts[1:]), rules)
    return found
