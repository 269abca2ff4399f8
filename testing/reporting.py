"""What is written of the things that differ: in lines, with colours at a terminal, or as a record."""
import errno
import json
import os
import sys

BOLD, RED, GREEN, PLAIN = "\033[1m", "\033[31m", "\033[32m", "\033[0m"


def write(data):
    """Writes bytes to the standard output, to the last one, or fails as the system does."""
    if sys.stdout is None:
        raise OSError(errno.EBADF, os.strerror(errno.EBADF))
    sys.stdout.buffer.write(data)
    sys.stdout.buffer.flush()


def has_colours(out):
    """Whether an output is a terminal that shows colours, and nobody asked for none."""
    return out is not None and out.isatty() and not os.environ.get("NO_COLOR") and os.environ.get("TERM") != "dumb"


def read(text):
    """Gives bytes that stand one in each character as the text that they are."""
    return text.encode("latin-1").decode("utf-8", "replace")


def counted(count, word):
    return f"{count} {word}{'' if count == 1 else 's'}"


def lines_of(it, has_colour):
    """Gives the lines of a thing that differs."""
    bold, red, green, plain = (BOLD, RED, GREEN, PLAIN) if has_colour else ("", "", "", "")
    found = [f"{bold}{it.file}:{it.line}:{it.column}:{plain} {it.text}".rstrip()]
    if it.wrong:
        found.append(f"    error:  {red}{it.wrong}{plain}")
    else:
        found += [f"    wanted: {green}{it.wanted}{plain}", f"    found:  {red}{it.found}{plain}"]
    return found + [f"    {line}" for line in it.behind]


def record_of(it):
    """Gives what a program reads of a thing that differs."""
    found = it._asdict()
    found["file"] = os.fsdecode(it.file.encode("latin-1"))
    for name in ("text", "wanted", "found", "wrong"):
        found[name] = read(found[name])
    found["behind"] = [read(line) for line in it.behind]
    return found


class Report:
    """What is written of the tests: each thing that differs as it is found, or all of it as one record at the end."""

    def __init__(self, is_json):
        self.is_json, self.records = is_json, []
        self.has_colours = has_colours(sys.stdout)
        self.is_followed = sys.stderr is not None and sys.stderr.isatty()

    def say(self, it):
        self.records.append(record_of(it))
        if not self.is_json:
            self.follow("")
            write("".join(f"{line}\n" for line in lines_of(it, self.has_colours)).encode("latin-1"))

    def follow(self, said):
        """Says on standard error which file is next, where that is a terminal, in a line that the next one replaces."""
        if self.is_followed:
            sys.stderr.write(f"\r\033[K{said}")
            sys.stderr.flush()

    def end(self, tests):
        """Says how much was compared, and how much differs."""
        self.follow("")
        if self.is_json:
            counts = {it: getattr(tests, it) for it in ("contracts", "scripts", "lines", "differ", "written")}
            write((json.dumps({**counts, "found": self.records}, indent=1) + "\n").encode())
            return
        said = ", ".join(counted(*it) for it in (
            (tests.contracts, "contract"), (tests.scripts, "script"), (tests.lines, "line")))
        said += f", each line in {counted(tests.count, 'order')}" if tests.count else ""
        said += f": {tests.differ} differ{'s' if tests.differ == 1 else ''}" if tests.differ else ": none differs"
        said += f", {tests.written} written" if tests.written else ""
        write(f"{said}\n".encode())
