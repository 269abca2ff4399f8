"""A script that is open: its names, what became of its lines, and which words may stand at a place."""
import glob
import os
import re

from explaining.scripts import Script

from .contracts import offered
from .places import Places

ON = re.compile(r"^//! *on +(\S+\.nomos)", re.MULTILINE)
CONTRACT, ACCOUNT = 13, 20
# As what a name is used, by its rule in the grammar of scripts and by which NAME of that rule it is.
USED = {("deposit", 0): "account", ("invocation", 0): "account", ("invocation", 1): "process"}
USED[("invocation", 2)] = USED[("invocation", 3)] = USED[("create", 0)] = "contract"


def contract_file(file, data):
    """Gives the file of the contract that a script is for: the one that a comment `//! on FILE.nomos` names, or that
    beside it of which the name is the longest one that the script's begins with; or nothing."""
    folder, name = os.path.split(file)
    named = ON.search(data.decode("latin-1"))
    if named:
        return os.path.normpath(os.path.join(folder, os.fsdecode(named[1].encode("latin-1"))))
    found = [os.path.basename(it)[: -len(".nomos")] for it in glob.glob(f"{glob.escape(folder)}/*.nomos")]
    fits = [it for it in found if it and name.startswith(it)]
    return os.path.join(folder, f"{max(fits, key=len)}.nomos") if fits else None


class OpenScript:
    """A version of a script: its text, the grammar of its lines, and the answer to it, if there is one. It is told how
    the contract that it is for is had, which may be none."""

    is_script = True

    def __init__(self, uri, name, data, grammar, contract):
        self.uri, self.text, self.grammar = uri, Script(name, data), grammar
        self.places, self.answer, self.found, self.contract = Places(self.text), None, [], contract

    def row(self, offset):
        return next(it for it in reversed(self.text.rows) if it.at <= offset)

    def leaves(self, row):
        """Gives the tokens of a line with the leaves that they are read as, as far as they are."""
        count, ways = self.grammar.read(row.tokens, "line")
        read, found = ways[0].read, []
        while read:
            found.append(read[0])
            read = read[1]
        return list(zip(row.tokens[:count], found[::-1]))

    @staticmethod
    def used(leaf):
        return USED.get((leaf.rule, leaf.number)) if leaf.text == "NAME" else None

    def named(self, position):
        """Gives the name at a place, and as what it is used, or nothing."""
        offset = self.places.offset(position)
        for token, leaf in self.leaves(self.row(offset)):
            if token.at <= offset <= token.end and self.used(leaf):
                return token, self.used(leaf)
        return None

    def uses(self, name, kind):
        """Gives the tokens that stand for an account or a contract."""
        rows = [it for it in self.text.rows if name in [token.text for token in it.tokens]]
        pairs = [it for row in rows for it in self.leaves(row)]
        return [token for token, leaf in pairs if (token.text, self.used(leaf)) == (name, kind)]

    def made(self, name, before):
        """Gives the line that makes a contract of this name, the last one before a byte."""
        rows = [it for it in self.text.rows if it.word == "let" and len(it.tokens) > 5 and it.tokens[1].text == name]
        return next((it for it in reversed(rows) if it.at <= before), None)

    def hover(self, position):
        """Gives what the name at a place is, or what became of the line that begins with the word there."""
        found = self.named(position)
        if found is None:
            return self.became(self.places.offset(position))
        token, kind = found
        contract = self.contract()
        if kind == "process":
            return contract.told(token.text, kind) if contract and contract.types else None
        if kind == "account":
            known = self.text.accounts(len(self.text.rows) + 1)
            number = known.index(token.text) if token.text in known else None
            return f"the account `{token.text}`" + ("" if number is None else f", of number {number}")
        row = self.made(token.text, token.at)
        process = contract.types.processes.get(row.process.text) if row and contract and contract.types else None
        return process and f"`{token.text}` is at `{process.offers}`, made by line {row.number}"

    def became(self, offset):
        """Gives the lines of the report on the line at a byte."""
        row = self.row(offset)
        entries = self.answer.entries if self.answer and self.answer.status in (0, 3) else []
        is_first = row.tokens and row.tokens[0].at <= offset <= row.tokens[0].end
        found = [it for it in entries if is_first and it[0][1] == str(row.number)]
        return "\n".join(" ".join(words) for it in found for words in it) or None

    def place(self, token):
        return {"uri": self.uri, "range": self.places.range(token.at, token.end)}

    def definition(self, position):
        """Gives where the name at a place comes from: a deposit, a line that makes a contract, or a process."""
        found = self.named(position)
        if found is None:
            return []
        token, kind = found
        if kind == "process":
            contract = self.contract()
            names = contract.types.places(token.text) if contract and contract.types else []
            return [contract.place(at) for at, what in names if what == kind][:1]
        row = self.made(token.text, token.at)
        if kind == "contract":
            return [self.place(row.contract)] if row else []
        return [self.place(it) for it in self.uses(token.text, kind)[:1]]

    def references(self, position, is_whole=True):
        """Gives where the name at a place stands in the script."""
        found = self.named(position)
        tokens = self.uses(found[0].text, found[1]) if found else []
        origin = self.definition(position)
        places = [self.place(it) for it in tokens]
        return [it for it in places if is_whole or it not in origin]

    def symbols(self):
        """Gives the accounts and the contracts, each where it comes first."""
        found, seen = [], set()
        for row in self.text.rows:
            kind = {"deposit": ACCOUNT, "let": CONTRACT}.get(row.word)
            name = row.tokens[1] if kind and len(row.tokens) > 1 else None
            if name and name.kind == "word" and (name.text, kind) not in seen:
                seen.add((name.text, kind))
                where = {"range": self.places.range(row.tokens[0].at, row.tokens[-1].end)}
                where["selectionRange"] = self.places.range(name.at, name.end)
                found.append({"name": name.text, "kind": kind, **where})
        return found

    def completion(self, position):
        """Gives the words that may stand at a place of a line."""
        offset = self.places.offset(position)
        row = self.row(offset)
        if "//" in self.text.text[row.at : offset]:
            return []
        tokens = [it for it in row.tokens if it.end < offset or it.end == offset and it.kind == "symbol"]
        count, ways = self.grammar.read(tokens, "line")
        if count < len(tokens):
            return []
        leaves = self.grammar.next(ways)
        words = sorted({it.text for it in leaves} & (self.grammar.reserved | {"begin", "end"}))
        words += ["begin", "end"] if not tokens else []
        kinds = dict.fromkeys(self.used(it) for it in leaves)
        return [it for kind in kinds for it in self.names(kind, row)] + [offered(it, "word") for it in words]

    def names(self, kind, row):
        """Gives the names that may stand for such a thing in a line."""
        if kind == "account":
            return [offered(it, kind) for it in self.text.accounts(len(self.text.rows) + 1)]
        if kind == "contract":
            rows = [it for it in self.text.rows[: row.number - 1] if it.word == "let" and len(it.tokens) > 1]
            return [offered(it.tokens[1].text, "channel") for it in rows]
        contract = self.contract() if kind == "process" else None
        mode = {"let": "S", "exec": "T"}.get(row.word)
        known = contract.types.processes.values() if contract and contract.types else ()
        return [offered(it.name, kind, contract.head(it).partition("\n")[0]) for it in known if it.mode == mode]
