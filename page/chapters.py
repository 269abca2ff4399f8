"""The chapters of docs/TUTORIAL.md as steps: what is told, the texts that stand in the panes then, and the answers that
are due. The words behind the fences are those that .ci/tutorial reads."""
import html
import re

# The kinds of blocks that begin a step; the others say what is answered.
TEXTS = ("nomos", "script")
# Those that are shown, and not run.
SHOWN = ("piece", "called", "asked")


def inline(text):
    """Gives a paragraph as HTML, with its code and what is strong in it."""
    parts = re.split(r"(`[^`]+`)", text)
    out = [f"<code>{html.escape(it[1:-1])}</code>" if it.startswith("`") else html.escape(it) for it in parts]
    return re.sub(r"\*\*([^*]+)\*\*", r"<strong>\1</strong>", "".join(out))


def told(lines):
    """Gives lines of the page as HTML: paragraphs, lists, code that is indented, and headings of sections."""
    found = []
    for part in re.split(r"\n{2,}", "\n".join(lines).strip("\n")):
        rows = part.split("\n")
        if not part.strip():
            continue
        if part.startswith("    "):
            found.append(f"<pre>{html.escape(part)}</pre>")
        elif part.startswith("- "):
            items = re.split(r"\n?^- ", part, flags=re.MULTILINE)[1:]
            found.append("<ul>" + "".join(f"<li>{inline(' '.join(it.split()))}</li>" for it in items) + "</ul>")
        elif part.startswith("### "):
            found.append(f"<h3>{inline(rows[0][4:])}</h3>")
        else:
            found.append(f"<p>{inline(' '.join(rows))}</p>")
    return "".join(found)


def blocks(page):
    """Gives the page in pieces: the heading of a chapter, a line, or a block with the words behind its fence."""
    kind, inside = None, []
    for line in page.splitlines():
        if line.startswith("```"):
            if kind is None:
                kind, inside = line[3:], []
            else:
                yield kind, "".join(f"{it}\n" for it in inside)
                kind = None
        elif kind is not None:
            inside.append(line)
        elif line.startswith("## "):
            yield "chapter", line[3:]
        elif not line.startswith("# "):
            yield "line", line


class Told:
    """The steps so far, what is told before the next one, and the texts that stand in the panes."""

    def __init__(self):
        self.steps, self.lines, self.chapter = [], [], "A first contract"
        self.kept, self.contract, self.script, self.begun = "", "", "", -1

    def text(self, words, block):
        """A text that is written: a step begins."""
        if words[0] == "script":
            self.script = block
        elif words[1] == "new":
            self.kept = self.contract = block
            self.script = ""
        else:
            self.contract = f"{self.kept}\n{block}" if self.kept else block
            self.kept = self.contract if words[1] == "more" else self.kept
        self.steps.append({
            "chapter": self.chapter, "before": told(self.lines), "contract": self.contract, "script": self.script,
            "asks": "run" if words[0] == "script" else "check", "answers": [],
        })
        self.lines = []

    def answer(self, words, block):
        """An answer that is due, with what is told before it."""
        kind = {"kind": words[0], "status": int(words[1]), "text": block, "told": told(self.lines)}
        self.steps[-1]["answers"].append(kind)
        self.lines = []

    def shown(self, words, block):
        """A call of another command, or a file that it reads: the page runs none of these, and shows them."""
        heads = {"called": ["$ ./nomos"], "asked": ["$ ./explain"], "piece": []}
        head = " ".join([*heads[words[0]], *words[1 if words[0] == "piece" else 2 :]])
        self.lines += ["", *(f"    {it}" for it in [head, *block.splitlines()]), ""]

    def end(self):
        """What is told behind the last answer of a chapter belongs to its last step; and so does a chapter without
        one."""
        if self.steps and self.lines:
            lines = [f"### {self.chapter}", "", *self.lines] if self.begun == len(self.steps) else self.lines
            self.steps[-1]["behind"] = self.steps[-1].get("behind", "") + told(lines)
        self.lines = []


def steps(page):
    """Gives the steps of the page."""
    found = Told()
    for kind, text in blocks(page):
        words = kind.split()
        if kind == "chapter":
            is_first = not found.steps
            if not is_first:
                found.end()
            found.chapter, found.begun = text, len(found.steps)
        elif kind == "line":
            found.lines.append(text)
        elif words[0] in TEXTS:
            found.text(words, text)
        elif words[0] in SHOWN:
            found.shown(words, text)
        else:
            found.answer(words, text)
    found.end()
    return found.steps
