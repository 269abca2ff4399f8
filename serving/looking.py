"""What is wrong in the texts that are open: the program is asked in a thread of its own, and stopped where a text has
changed meanwhile."""
import subprocess
import threading
import time

from explaining.asking import Program
from explaining.found import Found
from explaining.several import EXPLAINED, several
from explaining.texts import LONGEST

# For how many seconds a script is run at most, and how often it is looked whether its answer is still wanted.
SECONDS, STEP = 10, 0.02
ERROR, REMARK = 1, 2
NAMES = {6: "could not write its answer", 7: "gave up for want of memory", 70: "could not be built"}


class Outdated(Exception):
    """The text that the program is asked about has changed."""


class Asked(Program):
    """The program, which is stopped where the answer is not wanted any more."""

    def __init__(self, name, is_wanted):
        super().__init__(name)
        self.is_wanted = is_wanted

    def find(self):
        failed = super().find()
        self.is_asked = True
        return failed

    def ended(self, words, errors, seconds):
        until = time.monotonic() + (SECONDS if seconds is None else seconds)
        with subprocess.Popen(
            words, stdin=subprocess.DEVNULL, stdout=subprocess.PIPE, stderr=subprocess.DEVNULL, env=self.environment
        ) as running:
            while True:
                try:
                    written, _ = running.communicate(timeout=STEP)
                    return subprocess.CompletedProcess(words, running.returncode, written)
                except subprocess.TimeoutExpired:
                    if self.is_wanted() and time.monotonic() < until:
                        continue
                running.kill()
                running.communicate()
                if self.is_wanted():
                    return None
                raise Outdated


def at_start(message):
    """Gives what is said of a text as a whole."""
    place = {"line": 0, "character": 0}
    return {"range": {"start": place, "end": place}, "severity": ERROR, "source": "nomos", "message": message}


def failed(name, answer):
    """Gives in words why there is no answer."""
    if answer is None:
        return f"there is no answer within {SECONDS} seconds"
    if answer.status > 128:
        return f"{name} was stopped by signal {answer.status - 128}"
    return f"{name} {NAMES.get(answer.status, f'ended with status {answer.status}')}"


def told(record):
    """Gives what was found in lines: the cause, the mends, what is there, and what the cause means."""
    lines = [record["cause"], *(f"mend: {it['says']}" for it in record["mends"])]
    for name in ("see", "now"):
        lines += [f"{name}: {it}" for it in record[name]]
    lines += [f"here may stand: {it}" for it in record["may_stand"]]
    return "\n".join([*lines, *([record["means"]] if record["means"] else [])])


class Looking(threading.Thread):
    """Looks at the texts that changed, the last one first. It is told how what is found is published, and which version
    of a text is the last one."""

    def __init__(self, explain, name, publish, is_last):
        super().__init__(daemon=True)
        self.explain, self.name_of_program, self.publish, self.is_last = explain, name, publish, is_last
        self.waiting, self.change, self.document = [], threading.Condition(), None
        self.causes = explain.rows_of(explain.page("CAUSES"))
        self.program, self.is_ended = Asked(name, self.is_wanted), False

    def is_wanted(self):
        return not self.is_ended and (self.document is None or self.is_last(self.document))

    def look(self, document):
        """Has a text looked at."""
        with self.change:
            self.waiting = [it for it in self.waiting if it.uri != document.uri] + [document]
            self.change.notify()

    def end(self):
        with self.change:
            self.is_ended = True
            self.change.notify()

    def run(self):
        while True:
            with self.change:
                self.change.wait_for(lambda: self.waiting or self.is_ended)
                if self.is_ended:
                    break
                self.document = self.waiting.pop()
            self.look_at(self.document)
        self.program.close()

    def look_at(self, document):
        """Publishes what is found in a text: first what the program answers, then with mends."""
        try:
            for found in self.script(document) if document.is_script else self.contract(document):
                if self.is_wanted():
                    self.publish(document, found)
        except Outdated:
            pass
        except OSError as error:
            self.program.is_asked, self.program.name = False, self.name_of_program
            self.publish(document, [at_start(f"{error.filename or self.name_of_program}: {error.strerror}")])

    def record(self, document, found):
        """Gives what was found at a place, as the protocol has it, with the edits of its mends beside."""
        record = found.record(self.causes)
        if found.text.name != document.text.name:
            place = f"{record['file']}:{record['line']}:{record['column']}"
            return {**at_start(f"{place}: {told(record)}"), "code": record["cause"]}
        at = sum(len(it) + 1 for it in document.text.lines[: record["line"] - 1]) + record["column"] - 1
        mends = [it for it in record["mends"] if it["edits"]]
        return {
            "range": document.places.whole(at, at + record["length"]), "source": "nomos", "code": record["cause"],
            "severity": REMARK if record["cause"] == "remark" else ERROR, "message": told(record),
            "data": {"mends": mends},
        }

    def records(self, document, found):
        return [self.record(document, it) for it in found]

    def contract(self, document):
        """Gives what is found in a contract, twice."""
        explain, text = self.explain, document.text
        answer = document.answer = self.program.check(text.data)
        if answer is None or answer.status not in (0, *EXPLAINED) or not answer.words:
            yield [at_start(failed(self.name_of_program, answer))]
            return
        yield self.records(document, self.first(text, answer))
        if text.size > LONGEST:
            return
        if answer.is_accepted:
            yield self.records(document, explain.leftovers.explained(text, answer, self.program, explain.grammar()))
        else:
            yield self.records(document, self.explained(text, None, answer))

    def first(self, text, answer):
        """Gives what the program alone answers to a contract."""
        if answer.status not in (1, 8):
            return []
        cause = self.explain.cause_of(answer)
        return [Found(text, self.explain.place_of(answer, text), cause, cause, [], answer.words)]

    def explained(self, text, script, answer):
        explain, program = self.explain, self.program
        if explain.exchanged.are_exchanged(text, script, answer):
            return [explain.exchanged.explained(text, script, answer)]

        def ask(text, script):
            return program.check(text.data) if script is None else program.run(text.data, script.data, seconds=SECONDS)

        return several(text, script, answer, lambda *it: explain.of_both(*it, program)[0], ask)

    def script(self, document):
        """Gives what is found in a script, twice."""
        contract, script = document.contract(), document.text
        if contract is None:
            yield [at_start("no contract is found beside this script: `//! on FILE.nomos` names one")]
            return
        answer = document.answer = self.program.run(contract.text.data, script.data, seconds=SECONDS)
        if answer is None or answer.status not in (0, *EXPLAINED) or not answer.words:
            yield [at_start(failed(self.name_of_program, answer))]
            return
        yield self.records(document, self.first_of_script(contract.text, script, answer))
        if answer.status and max(contract.text.size, script.size) <= LONGEST:
            yield self.records(document, self.explained(contract.text, script, answer))

    def first_of_script(self, text, script, answer):
        """Gives what the program alone answers to a script: where it is none, or which lines were not carried out."""
        if answer.status in (0, 1, 8):
            return self.first(text, answer)
        if answer.status == 2:
            number = int(answer.words[3]) if answer.words[3:] else 1
            return [Found(script, self.line(script, number), "Syntax", "Syntax", [], answer.words)]
        entries = [it[0] for it in answer.entries if it[0][2] not in ("deposited", "committed", "show")]
        found = []
        for words in entries:
            is_refused = words[2] == "refused"
            number, cause = (int(words[4]), words[5]) if is_refused else (int(words[1]), " ".join(words[2:]))
            found.append(Found(script, self.line(script, number), cause, cause, [], words))
        return found

    @staticmethod
    def line(script, number):
        row = script.row(number)
        return row.tokens[0].at if row.tokens else row.at


def fixes(document, found, chosen):
    """Gives the mends of what was found in the lines of a range, as edits that an editor applies."""
    for it in found:
        place = it["range"]
        if place["start"]["line"] > chosen["end"]["line"] or place["end"]["line"] < chosen["start"]["line"]:
            continue
        for number, mend in enumerate(it.get("data", {}).get("mends", [])):
            yield {
                "title": mend["says"], "kind": "quickfix", "diagnostics": [it], "isPreferred": number == 0,
                "edit": {"changes": {document.uri: changes(document, mend["edits"])}},
            }


def changes(document, edits):
    """Gives edits as an editor applies them."""
    return [{"range": document.places.range(it["at"], it["end"]), "newText": it["new"]} for it in edits]
