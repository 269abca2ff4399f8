"""What the program answers, in the words of comments: without offsets, and numbers of processes and of firings."""
from typing import NamedTuple

GOOD = ("deposited", "committed", "show")


class Facts(NamedTuple):
    """What became of a line or a batch, the values that it emitted, and what else is said of it."""

    end: str
    results: list
    others: list

    @property
    def is_good(self):
        return self.end in GOOD

    @property
    def all(self):
        """All that a comment may say of it."""
        end = [self.end] if self.end == "deposited" or not self.is_good else []
        return end + self.results + self.others


def end_of(words):
    """Gives the end that the first line of an entry says, of its words behind the number of the line."""
    if words[0] == "aborted":
        return f"aborted {words[2]}"
    if words[0] == "refused":
        return f"refused {' '.join(words[3:])}"
    return " ".join(words) if words[0] == "steps" else words[0]


def owners(entry):
    """Gives how many channels each contract has."""
    names = {it[3]: it[1] for it in entry if it[0] == "contract"}
    owned = [names.get(it[3]) for it in entry if it[0] == "channel"]
    return [f"{it} owns {owned.count(it)}" for it in names.values()]


def of_entry(entry):
    """Gives the facts of an entry of a report."""
    words, behind = entry[0][2:], entry[1:]
    others = [f"spent {words[-1]}"] if words[0] == "committed" else []
    others += [" ".join(it) for it in behind if it[0] == "account"]
    others += [f"contract {it[1]} gas {it[5]} {it[6]}" for it in behind if it[0] == "contract"]
    others += owners(behind)
    others += [" ".join(it) for it in behind if it[0] in ("stored", "spent", "deposits")]
    return Facts(end_of(words), [f"result {it[2]}" for it in behind if it[0] == "result"], others)


def line_of(entry):
    """Gives the line that an entry is about: where a line of a batch is refused, that line."""
    words = entry[0]
    return int(words[4] if words[2] == "refused" else words[1])


def of_check(answer):
    """Gives what is answered to a contract."""
    words = answer.words
    if words[0] == "refused":
        words = [it for it in words if not it.isdigit()]
    others = [" ".join(it) for it in answer.lines if it[:1] in (["unit"], ["star"], ["bound"])]
    return Facts(" ".join(words), [], others if answer.is_accepted else [])


def key(words):
    """Gives that in words which names what they are about."""
    words = words.split()
    if len(words) == 3 and words[1] == "owns":
        return words[0], "owns"
    return tuple(words[: 2 if words[0] in ("account", "contract", "bound", "star") else 1])


def agrees(wanted, found):
    """Whether a fact is the one that is wanted, or begins with its words."""
    return f"{found} ".startswith(f"{wanted} ")
