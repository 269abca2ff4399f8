"""What is wrong with a snapshot that is not loaded, or a ledger that is not saved."""
from .found import Found
from .mends import mend
from .texts import Text

# What the first lines of a snapshot are, and the form of each further line by its first word.
FIRST = ("nomos-ledger 1", "unit D", "next OBJECT NAME", "spent GAS")
FORMS = {
    "account": "account WORD GAS", "contract": "contract WORD NAME", "name": "name NAME TYPE",
    "process": "process PID MODE PLACE offers NAME base BASE purse GAS payer ACCOUNT", "value": "value VARIABLE VALUE",
    "list": "list VARIABLE GAS LIST", "chan": "chan VARIABLE NAME",
    "message": "message NUMBER WAY NAME NEXT PAYLOAD purse GAS",
}
MARK = "\xef\xbb\xbf"


class Snapshot:
    """A snapshot with what asks the program whether another text is loaded."""

    def __init__(self, text, contract, ask):
        self.text, self.contract, self.ask = text, contract, ask

    def row(self, number):
        """Gives where a line begins and ends; behind the last one where there is none."""
        lines = self.text.text.split("\n")
        at = sum(len(it) + 1 for it in lines[: number - 1])
        return (at, at + len(lines[number - 1])) if number <= len(lines) else (self.text.size, self.text.size)

    def slips(self, number):
        """Gives edits by which a text has the form of a snapshot again, each in words."""
        text, (start, end) = self.text.text, self.row(number)
        if text.startswith(MARK):
            yield "take the byte order mark out, which stands before the text", [(0, len(MARK), "")]
        if "\r" in text:
            rows = [(at, at + 1, "") for at, it in enumerate(text) if it == "\r"]
            yield f"end lines with a line feed alone: take the {len(rows)} carriage returns out", rows
        if text and not text.endswith("\n"):
            yield "write a line feed behind the last line", [(len(text), len(text), "\n")]
        line = text[start:end]
        apart = " ".join(line.split())
        if line != apart and line.strip():
            yield "write one blank between two words, and none before or behind them", [(start, end, apart)]
        if not line.strip() or line.lstrip().startswith(("//", "#")):
            yield "take this line out", [(start, min(end + 1, len(text)), "")]

    def mends(self, number):
        """Gives lines for such edits, with which no line is bad, or the first bad one stands behind this one."""
        for words, edits in self.slips(number):
            answer = self.ask(self.text.edited(*edits))
            bad = int(answer.words[3]) if answer.words[:3] == ["snapshot", "refused", "BadLine"] else None
            if bad is None or bad > number:
                yield mend(words, *edits)

    def form(self, number):
        """Gives a line on the form that a line has."""
        start, end = self.row(number)
        word = self.text.text[start:end].split(" ")[0]
        form = FIRST[number - 1] if number <= len(FIRST) else FORMS.get(word)
        if form is None:
            return f"see: a line of a snapshot begins with {', '.join(f'`{it}`' for it in FORMS)}"
        more = ", in its place among the others" if number > len(FIRST) else ""
        return f"see: this line has the form `{form}`{more}"

    def found(self, words):
        """Gives what is found of an answer."""
        cause, row = words[2], f"snapshot {words[2]}"
        if cause == "BadLine":
            number = int(words[3])
            lines = [*list(self.mends(number))[:1], self.form(number)]
            return Found(self.text, self.row(number)[0], row, row, lines, words)
        if cause == "NotQuiet":
            start = ("\n" + self.text.text).find(f"\nprocess {words[3]} ")
            return Found(self.text, max(start, 0), row, row, [], words)
        at = 0 if cause != "TooLong" else None
        return Found(self.text, at, row, row, self.others(), words)

    def others(self):
        """Gives a line on the contract whose numbers a snapshot has."""
        return [f"see: types, places, labels and variables are numbers of the contract that it was saved with; this is "
                f"{self.contract.name}"]


def unsaved(words, script):
    """Gives what is found where a ledger is not saved."""
    return Found(script, script.rows[0].at if script.rows else 0, f"save {words[2]}", f"save {words[2]}", [], words)


def text_of_snapshot(name, data):
    return Text(name, data)
