"""What was found, written into the comments of a text."""
import os
import shutil
import tempfile

from .due import MARK


def edits_of(differences):
    """Gives for each part of a comment what takes its place, and for each line what is new behind it."""
    changed, added = {}, {}
    for it in differences:
        for part in it.parts:
            changed[part] = ""
        if it.parts and (it.parts[0].about in (0, it.at) or not it.parts[0].words.startswith("refused")):
            changed[it.parts[0]] = "; ".join(it.new)
        elif it.new:
            added.setdefault(it.at, []).extend(it.new)
    return changed, added


def without(line, parts):
    """Gives the line of a comment with other texts in place of some of its parts: without the comment where nothing is
    left of it, and nothing where the line had only that."""
    start = line.index("//")
    pieces, done = [], start + len(MARK)
    for piece in line[done:].split(";"):
        end = done + len(piece)
        new = next((it for at, it in parts.items() if done <= at.column - 1 <= end), None)
        kept = piece.strip() if new is None else new
        pieces += [kept] if kept else []
        done = end + 1
    code = line[:start]
    if pieces:
        return f"{code}{MARK} {'; '.join(pieces)}"
    return code.rstrip(" \t") or None


def with_new(body, said, is_below):
    """Gives the line, and maybe one behind it, with a comment that says what is new: below it where that is wanted, or
    where it ends in another comment."""
    code, strokes, comment = body.partition("//")
    if comment.startswith("!"):
        return [f"{body}; {said}"]
    if strokes or is_below:
        return [body, f"{code[: len(code) - len(code.lstrip())]}{MARK} {said}"]
    return [f"{body}    {MARK} {said}"]


def edited(lines, differences, is_below):
    """Gives the lines of a text with what was found in their comments, new ones below their lines where that is wanted.
    Carriage returns stay."""
    changed, added = edits_of(differences)
    end = "\r" if any(it.endswith("\r") for it in lines) else ""
    found = [f"{MARK} {'; '.join(added[0])}{end}"] if 0 in added else []
    for number, line in enumerate(lines, 1):
        body, end = (line[:-1], "\r") if line.endswith("\r") else (line, "")
        parts = {at: new for at, new in changed.items() if at.line == number}
        body = without(body, parts) if parts else body
        bodies = [] if body is None else [body]
        if number in added:
            bodies = with_new(body or "", "; ".join(added[number]), is_below)
        found += [it + end for it in bodies]
    return found


class Unwritten(Exception):
    """A file that cannot be written, and why."""

    def __init__(self, name, error):
        super().__init__(f"{name} cannot be written: {error.strerror}")


def put(file, data):
    """Puts bytes in the place of those of a file, whole or not at all."""
    handle, name = tempfile.mkstemp(prefix=".nomos-test-", dir=os.path.dirname(file))
    try:
        with os.fdopen(handle, "wb") as out:
            out.write(data)
        shutil.copymode(file, name)
        os.replace(name, file)
    except OSError:
        os.unlink(name)
        raise


def write(file, data):
    """Does so, and says where it fails which file that is."""
    try:
        put(os.path.realpath(file), data)
    except OSError as error:
        raise Unwritten(file, error) from error
