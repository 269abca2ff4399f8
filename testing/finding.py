"""Which files are compared, and on which contract a script is run."""
import errno
import os

KINDS = (".nomos", ".script")
REASONS = {
    errno.ENOENT: "there is no file of this name here",
    errno.EISDIR: "this is a folder, and no file",
    errno.EACCES: "there is such a file, and it may not be read by you",
}


class Unread(Exception):
    """A file or a folder that cannot be read, with its name, and why."""

    def __init__(self, name, error):
        super().__init__(name)
        self.name, self.why = name, REASONS.get(error.errno, error.strerror)


def read(file, size=-1):
    """Gives the bytes of a file."""
    try:
        with open(file, "rb") as source:
            return source.read(size)
    except OSError as error:
        raise Unread(file, error) from error


def below(folder):
    """Gives the contracts and scripts of a folder and of those in it, but for hidden ones, in order of their names."""

    def fail(error):
        raise Unread(error.filename, error)

    found = []
    for at, folders, files in os.walk(folder, onerror=fail):
        folders[:] = sorted(it for it in folders if not it.startswith("."))
        found += [os.path.normpath(os.path.join(at, it)) for it in sorted(files) if it.endswith(KINDS) and it[0] != "."]
    return found


def files_of(words):
    """Gives the files that are named, each once, and the folders that have none."""
    found, empty = {}, []
    for word in words:
        files = below(word) if os.path.isdir(word) else [word]
        if not files:
            empty.append(word)
        for it in files:
            found.setdefault(os.path.realpath(it), it)
    return list(found.values()), empty


def contract_of(script, named):
    """Gives the contract that a script names, or else that beside it of which the name is the longest that its own
    begins with, up to its end or to a `_`; none where there is none."""
    folder, name = os.path.split(script)
    if named:
        return os.path.join(folder, named)
    stem = name[: -len(".script")]
    while True:
        file = os.path.join(folder, f"{stem}.nomos")
        if os.path.exists(file):
            return file
        if "_" not in stem:
            return None
        stem = stem.rpartition("_")[0]
