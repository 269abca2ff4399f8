"""How the tools of this folder are called: words, statuses, and what is said where something is missing."""
import os
import re
import sys

from explaining.teller import NoTeller, Untold
from testing.finding import Unread
from testing.reporting import write

DIFFERS, OTHER_WORDS, UNREAD, CANNOT_WRITE, NO_PROGRAM, STOPPED, CLOSED = 1, 4, 5, 6, 127, 130, 141
TOP = os.path.dirname(os.path.dirname(os.path.realpath(__file__)))


class OtherWords(Exception):
    """The words of a call have another form."""


class Refused(Exception):
    """A contract or a script on which nothing can be run, and why."""


def program():
    """Gives the name of the program that is asked."""
    return os.environ.get("NOMOS_PROGRAM") or f"{TOP}/nomos"


def version():
    """Gives the version that is installed here, or that of the checkout."""
    file = f"{TOP}/version" if os.path.exists(f"{TOP}/version") else f"{TOP}/CHANGELOG.md"
    with open(file, encoding="utf-8") as lines:
        return re.search(r"^(?:## )?([0-9][0-9.]*)", lines.read(), re.MULTILINE)[1]


def parted(words, forms):
    """Gives the files of a call, and its options, each with its word: those of `forms`, each at most once, with the
    form of the word behind it, or none where it stands alone."""
    files, options, words = [], {}, list(words)
    while words:
        word = words.pop(0)
        if word and not word.startswith("-"):
            files.append(word)
        elif word in options or word not in forms:
            raise OtherWords
        elif forms[word] is None:
            options[word] = True
        elif words and re.fullmatch(forms[word], words[0]):
            options[word] = words.pop(0)
        else:
            raise OtherWords
    return files, options


def said_of(error, program):
    """Gives the status of a call that failed so, and what is said of it."""
    if isinstance(error, Unread):
        return UNREAD, f"{os.fsencode(error.name).decode('utf-8', 'replace')}: {error.why}"
    if isinstance(error, Untold):
        return UNREAD if isinstance(error, NoTeller) else DIFFERS, str(error)
    if isinstance(error, Refused):
        return DIFFERS, os.fsencode(str(error)).decode("utf-8", "replace")
    if isinstance(error, (FileNotFoundError, PermissionError)) and error.filename:
        why = "there is no program of this name" if isinstance(error, FileNotFoundError) else error.strerror
        return NO_PROGRAM, f"{error.filename or program}: {why}"
    return CANNOT_WRITE, f"{error.filename or 'the output'} cannot be written: {error.strerror}"


def answered(name, usage, page, words, main):
    """Calls a tool, and gives the status, also where the output cannot be written or the call is cut off."""
    try:
        if words in (["--help"], ["--version"]):
            write(f"{name} {version()}\n".encode() if words == ["--version"] else page.encode())
            return 0
        return main(words)
    except OtherWords:
        write(f"usage: {name} {usage}\n".encode())
        return OTHER_WORDS
    except BrokenPipeError:
        return CLOSED
    except KeyboardInterrupt:
        return STOPPED
    except (Unread, Untold, Refused, OSError) as error:
        status, said = said_of(error, name)
        print(f"{name}: {said}", file=sys.stderr)
        return status


def called(name, usage, page, main):
    """Does so with the words of this call, and ends."""
    status = answered(name, usage, page, sys.argv[1:], main)
    if sys.stdout is not None and status in (CLOSED, CANNOT_WRITE):
        os.dup2(os.open(os.devnull, os.O_WRONLY), 1)
    sys.exit(status)
