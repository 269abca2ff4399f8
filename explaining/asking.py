"""The program, asked what it answers to a text."""
import os
import shutil
import subprocess
import tempfile
import time

# The scripts of a checkout that build the program and then run it: which program each of them builds, below the folder
# of the script, and what it runs that with.
BUILT = "crates/nomos_cli/out"
SCRIPTS = {"nomos": ("nomos_cli", {}), "try": ("nomos_unproved", {"ASAN_OPTIONS": "exitcode=70:detect_leaks=0"})}
# The status of the program where it is called without words.
NO_WORDS = 4


def status_of(ended):
    """Gives the status of a process that has ended, as a shell has it."""
    return ended.returncode if ended.returncode >= 0 else 128 - ended.returncode


class Answer:
    """What the program wrote, the status that it ended with, and how many seconds it took."""

    def __init__(self, written, status, took=0):
        self.written, self.status, self.took = written, status, took
        self.lines = [it.split() for it in written.decode("latin-1").splitlines()]
        self.words = self.lines[0] if self.lines else []

    @property
    def is_accepted(self):
        return self.status == 0

    @property
    def offset(self):
        """The offset that the first line names, or none."""
        at = 3 if self.words[1:2] == ["Limit"] else 2
        found = self.words[at : at + 1] if self.words[:1] == ["refused"] else []
        return int(found[0]) if found else None

    @property
    def entries(self):
        """The lines that a report has for each line of a script, each with the lines behind it."""
        found = []
        for it in self.lines:
            if it[:1] == ["line"]:
                found.append([it])
            elif found:
                found[-1].append(it)
        return found

    def is_cause(self, cause):
        return self.words[:2] == ["refused", cause]


def built_by(name):
    """Gives the program that a script of a checkout builds and runs, and what it runs that with, or nothing where this
    is a program by itself."""
    file = os.path.realpath(shutil.which(name) or name)
    top, script = os.path.split(file)
    if script not in SCRIPTS or not os.path.isdir(f"{top}/crates/nomos_cli"):
        return None
    program, others = SCRIPTS[script]
    return f"{top}/{BUILT}/{program}", {**os.environ, **others}


class Begun:
    """A call that was started, and its answer, once it is asked for. Where it is not, the call is cut off."""

    def __init__(self, known, running=None):
        self.known, self.running = known, running

    def __enter__(self):
        return self

    def __exit__(self, *_):
        if self.known is None:
            self.running.kill()
            self.running.communicate()

    def answer(self):
        """Waits for the answer."""
        if self.known is None:
            written, _ = self.running.communicate()
            self.known = Answer(written, status_of(self.running))
        return self.known


class Program:
    """The program of this name, and the options that it runs scripts with. Texts are given to it as files of a folder
    that stands as long as this does. A script that builds the program is called once, without words, so that the
    program is built where that is due, and then what it built is called."""

    def __init__(self, name):
        self.name, self.folder, self.is_asked = name, tempfile.TemporaryDirectory(prefix="explain-"), False
        self.options, self.environment = [], None

    def find(self):
        """Has a script build the program, where the name is that of one, and gives its answer where that failed."""
        built = built_by(self.name)
        if built is None:
            return None
        ended = subprocess.run([self.name], stdout=subprocess.PIPE, check=False)
        if ended.returncode != NO_WORDS:
            return Answer(ended.stdout, status_of(ended))
        self.name, self.environment = built
        return None

    def close(self):
        self.folder.cleanup()

    def kept(self, name, data):
        """Gives the file of this name, with these bytes in it. A failure to write it names the file."""
        file = os.path.join(self.folder.name, name)
        try:
            with open(file, "wb") as out:
                out.write(data)
        except OSError as error:
            raise OSError(error.errno, error.strerror, file) from error
        return file

    def call(self, *words, seconds=None):
        """Only of the first call is it heard what the program says on standard error. Where it takes longer than so
        many seconds, there is no answer."""
        failed = None if self.is_asked else self.find()
        if failed:
            return failed
        errors = subprocess.DEVNULL if self.is_asked else None
        self.is_asked, start = True, time.monotonic()
        ended = self.ended([self.name, *words], errors, seconds)
        return ended and Answer(ended.stdout, status_of(ended), time.monotonic() - start)

    def begin(self, *words):
        """Starts a call, and gives what waits for its answer, so that another program can run meanwhile."""
        failed = None if self.is_asked else self.find()
        if failed:
            return Begun(failed)
        errors = subprocess.DEVNULL if self.is_asked else None
        self.is_asked = True
        return Begun(None, subprocess.Popen([self.name, *words], stdout=subprocess.PIPE, stderr=errors,
                                            env=self.environment))

    def ended(self, words, errors, seconds):
        """Runs a program to its end, or gives nothing where that takes longer."""
        try:
            return subprocess.run(
                words, stdout=subprocess.PIPE, stderr=errors, check=False, timeout=seconds, env=self.environment
            )
        except subprocess.TimeoutExpired:
            return None

    def check(self, data):
        return self.call("check", self.kept("contract.nomos", data))

    def least(self, data):
        return self.call("least", self.kept("contract.nomos", data))

    def run(self, data, script, *others, seconds=None):
        files = self.kept("contract.nomos", data), self.kept("lines.script", script)
        return self.call("run", *files, *(others or self.options), seconds=seconds)

    def journal(self, data, script, *others, seconds=None):
        """Gives the answer of a run with the files of the contract, the script and the journal that it kept, or nothing
        where the program keeps none."""
        kept = self.kept("journal", b"")
        answer = self.run(data, script, *(others or self.options), "--journal", kept, seconds=seconds)
        if answer is None or answer.status not in (0, 3):
            return None
        return answer, [os.path.join(self.folder.name, it) for it in ("contract.nomos", "lines.script", "journal")]
