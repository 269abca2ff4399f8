"""What reads of a contract that is being written: each declaration by itself, and the one at the cursor up to there."""
from explaining.held import Types
from explaining.names import MOST_TOKENS, Names
from explaining.shapes import HEADS
from explaining.texts import Text

# What is raised where instructions that are read do not fit the types, or names that nothing declares stand in them.
LOST = (StopIteration, LookupError, TypeError, AttributeError, ValueError, RecursionError)
MOST_KEPT = 2000
# Which { of the rule `last` begins what: the two codes of an `if`, and the branches.
THEN, ELSE, CASE, MATCH = range(4)
CODES = (THEN, ELSE)


def pieces(tokens):
    """Gives from which token to which what stands before the declarations goes, and each declaration."""
    starts = [0, *(at for at, it in enumerate(tokens) if at and it.text in HEADS)]
    return [it for it in zip(starts, [*starts[1:], len(tokens)]) if it[0] < it[1]]


class Leaves:
    """The leaves that tokens are read as, which are kept for each declaration. It stands in the place of a grammar."""

    def __init__(self, grammar):
        self.grammar, self.kept = grammar, {}

    def of_piece(self, tokens):
        """Gives the leaves of a declaration, or of what stands before all, or nothing where it does not read."""
        key = tuple(it.text for it in tokens)
        if key not in self.kept:
            if len(self.kept) >= MOST_KEPT:
                self.kept.clear()
            self.kept[key] = self.grammar.leaves(tokens)
        return self.kept[key]

    def leaves(self, tokens):
        found = [self.of_piece(tokens[start:end]) for start, end in pieces(tokens)]
        return None if None in found else [it for row in found for it in row]

    def readable(self, text):
        """Gives a text with blanks in place of the declarations that do not read, so that places stay."""
        edits = []
        for start, end in pieces(text.tokens):
            if self.of_piece(text.tokens[start:end]) is None:
                first, behind = text.tokens[start].at, text.tokens[end - 1].end
                edits.append((first, behind, " " * (behind - first)))
        return Text(text.name, text.edited(*edits)) if edits else text


def types_of(text, leaves):
    """Gives the types of what reads of a text, or nothing where that cannot be had."""
    if len(text.tokens) > MOST_TOKENS:
        return None
    try:
        return Types(leaves.readable(text), leaves)
    except LOST:
        return None


def reached(types, process, offset):
    """Gives the instruction of a process at a byte, and what is held there, or nothing where no instruction is."""
    held, step = types.start(process), process.first
    while True:
        first, last = types.tokens[step.at], types.tokens[step.end - 1]
        if first.at <= offset < last.end:
            return step, held
        ways = [it for it in step.behind if types.tokens[it[1].at].at <= offset]
        if not ways:
            return None
        types.behind(held, step, ways[-1][0])
        step = ways[-1][1]


def process_at(types, offset):
    """Gives the process in which a byte stands, if it does in one."""
    heads = [at for at, it in enumerate(types.tokens) if it.text in HEADS and it.at <= offset]
    return next((it for it in types.processes.values() if heads and it.at == heads[-1] + 2), None)


class Read(Names):
    """Tokens with the leaves that they are read as."""

    def __init__(self, tokens, leaves):
        self.tokens, self.leaves = tokens, leaves


class Front:
    """The declaration at a byte of a text, up to there: its tokens, the leaves of these, and what may come behind."""

    def __init__(self, text, leaves, offset):
        self.text, self.leaves, self.offset = text, leaves, offset
        before = [it for it in text.tokens if it.end <= offset]
        start = next((at for at in range(len(before) - 1, -1, -1) if before[at].text in HEADS), None)
        self.tokens = before[start or 0 :]
        grammar, rule = leaves.grammar, "file" if start is None else "decl"
        count, self.ways = grammar.read(self.tokens, rule)
        self.is_read = count == len(self.tokens)
        self.read = list(self.stack(self.ways[0].read))[::-1] if self.is_read else []
        self.next = grammar.next(self.ways) if self.is_read else []
        self.may_end = self.is_read and grammar.may_end(self.ways)

    @staticmethod
    def stack(read):
        while read:
            leaf, read = read
            yield leaf

    def begins(self, at):
        """Whether an instruction begins behind a token."""
        text, rule = self.tokens[at].text, self.read[at].rule
        if text == "{" and rule == "last":
            return self.read[at].number in CODES
        is_head = text == "=" and rule == "decl" and self.tokens[0].text == "proc"
        return is_head or text == "=>" and rule in ("branch", "last") or text == ";" and rule == "code"

    def first(self):
        """Gives the number of the token with which the instruction at the end begins, or nothing in a head."""
        found = next((at for at in range(len(self.tokens) - 1, -1, -1) if self.begins(at)), None)
        return None if found is None else found + 1

    def open_braces(self, end):
        """Gives the numbers of the braces of branches that are open before a token."""
        found = []
        for at in range(end):
            if self.read[at].rule == "last" and self.tokens[at].text == "{":
                found.append(at)
            elif self.read[at].rule == "last" and self.tokens[at].text == "}":
                found.pop()
        return found

    def closed(self, end):
        """Gives what closes the braces that are open before a token, the last one first."""
        words = ""
        for at in reversed(self.open_braces(end)):
            number = self.read[at].number
            if number == MATCH and not any(it.text == "|" for it, _ in self.within(at, end)):
                words += " | n :: m => close"
            words += " } else { close }" if number == THEN else " }"
        return words

    def within(self, start, end):
        """Gives what stands behind a brace, up to a token, but for what inner braces have."""
        depth = 0
        for at in range(start + 1, end):
            text = self.tokens[at].text if self.read[at].rule == "last" else ""
            depth += (text == "{") - (text == "}")
            if depth == 0:
                yield self.tokens[at], self.read[at]

    def bound(self, kind):
        """Gives the names that are bound as this in the declaration, on a way that leads to its end."""
        names, first = Read(self.tokens, self.read), self.first()
        places = range(len(self.tokens) if first is None else first)
        places = [at for at in places if names.declared(at) == kind]
        return dict.fromkeys(self.tokens[at].text for at in places if names.leads(at, len(self.tokens)))

    def held(self, first):
        """Gives the types of the text that ends before a token of the declaration, which begins an instruction, and
        what is held there, or nothing where that cannot be had."""
        at = self.tokens[first].at if first < len(self.tokens) else self.offset
        later = [it.at for it in self.text.tokens if it.text in HEADS and it.at >= max(self.offset, at)]
        behind = self.text.data[later[0] :] if later else b""
        data = self.text.data[:at] + f" close{self.closed(first)};\n".encode() + behind
        types = types_of(Text(self.text.name, data), self.leaves)
        try:
            found = reached(types, process_at(types, at), at + 1)
        except LOST:
            return None
        return found and (types, found[1])
