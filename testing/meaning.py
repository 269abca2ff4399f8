"""What explain says of an answer that was not due."""
import runpy

from explaining.causes import rows_of
from explaining.found import Found


class Meaning:
    """What explain, which stands in this folder, has to say."""

    def __init__(self, top):
        self.top, self.known = top, None

    @property
    def explain(self):
        """What the script explain has, which is read where it is asked first."""
        self.known = self.known or runpy.run_path(f"{self.top}/explain", run_name="explain")
        return self.known

    def printed(self, found):
        return found.printed(rows_of(self.explain["page"]("CAUSES")))

    def of_contract(self, text, answer, program):
        """Gives the lines on a contract that is not accepted."""
        if answer.status not in (1, 8):
            return []
        return self.printed(self.explain["of_contract"](text, answer, program))

    def of_line(self, run, entry):
        """Gives the lines on a line of a script that was not carried out."""
        from explaining import ends, starts  # read where something differs, since that takes as long as a short run

        words = entry[0]
        at, cause, row, lines = (starts if words[2] == "refused" else ends).explained(run, entry)
        return self.printed(Found(run.script, at, cause, row, lines, words))

    def run(self, text, script, answer, program):
        """Gives a run, of which explain can be asked."""
        from explaining import runs

        return runs.Run(text, script, answer, program, self.explain["grammar"]())
