"""The teller, asked for the tale of a run: a journal of which each firing says what it did, as docs/TEXTS.md has it."""
import os
import re
import subprocess

from .asking import status_of

# Where a checkout keeps the teller that it has built. An installed one stands beside the program.
BUILT = "crates/nomos_tell/out/nomos_tell"
TOP = os.path.dirname(os.path.dirname(os.path.realpath(__file__)))


class Untold(Exception):
    """There is no tale, and why."""


class NoTeller(Untold):
    """There is no teller, or none that runs."""


def found():
    """Gives the teller that is named, or that stands here, or nothing."""
    named = os.environ.get("NOMOS_TELLER")
    if named:
        return named
    here = f"{TOP}/{BUILT}" if os.path.isdir(f"{TOP}/crates") else f"{TOP}/nomos-tell"
    return here if os.path.isfile(here) else None


def journal_of(tale):
    """Gives the journal that a tale is, without what it tells beside."""
    return re.sub(rb"(?m)^:.*\n| : .*", b"", tale)


class Teller:
    """The program that tells runs."""

    def __init__(self):
        self.name = found()

    def tale(self, contract, script, *options, seconds=None):
        """Gives the tale of the script of a file on the contract of another one, in the order that options say."""
        if self.name is None:
            raise NoTeller("there is no teller, nomos-tell, beside the program; in a checkout ./nomos-tell builds it")
        words = [self.name, contract, script, *options]
        try:
            ended = subprocess.run(words, stdin=subprocess.DEVNULL, capture_output=True, check=False, timeout=seconds)
        except subprocess.TimeoutExpired as error:
            raise Untold("the teller took too long") from error
        except OSError as error:
            raise NoTeller(f"{self.name} is no teller: {error.strerror}") from error
        if ended.returncode:
            said = ended.stderr.decode("utf-8", "replace").strip().splitlines()
            raise Untold(said[-1] if said else f"the teller ended with status {status_of(ended)}")
        return ended.stdout
