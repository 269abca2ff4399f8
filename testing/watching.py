"""Files that are compared again as they change: which of them, and when."""
import os
import signal
import time

from .finding import Unread, files_of

# For how many seconds nothing is looked at, and how long nothing has to change until what did is compared, so that no
# file is read of which a part is written.
PAUSE = 0.4
SETTLED = 0.1


def stop(*_):
    raise KeyboardInterrupt


def stoppable():
    """Has both signals that ask for an end stop this, also where it was started in the background."""
    for it in (signal.SIGINT, signal.SIGTERM):
        signal.signal(it, stop)


def stamp(file):
    """Gives what changes with a file: when it was written, how long it is, and which it is; nothing where there is
    none."""
    try:
        found = os.stat(file)
    except OSError:
        return None
    return found.st_mtime_ns, found.st_size, found.st_ino


class Watching:
    """What is named, as it stood when it was compared last, and the contract that each script was run on."""

    def __init__(self, words):
        self.words, self.stamps, self.contracts = words, {}, {}

    def files(self):
        """Gives the files that are named, but for those that are not there now."""
        found = {}
        for word in self.words:
            try:
                found.update(dict.fromkeys(files_of([word])[0]))
            except Unread:
                continue
        return list(found)

    def changed(self):
        """Gives the files that stand otherwise than before, and the scripts on a contract that does."""
        files = self.files()
        at = {it: stamp(it) for it in [*files, *(it for it in self.contracts.values() if it)]}
        others = {it for it, now in at.items() if now != self.stamps.get(it, ())}
        has_new = bool(others - self.stamps.keys())
        self.stamps = at
        return [it for it in files if it in others and at[it] or self.stands_on(it, others, has_new)]

    def stands_on(self, file, others, has_new):
        """Whether a script was run on one of these contracts, or on none and there are new files."""
        contract = self.contracts.get(file, "")
        return contract in others or contract is None and has_new

    def wait(self):
        """Gives what is to be compared, as soon as there is something."""
        found = self.changed()
        while not found:
            time.sleep(PAUSE)
            found = self.changed()
        more = found
        while more:
            time.sleep(SETTLED)
            more = self.changed()
            found += [it for it in more if it not in found]
        return found

    def was_run(self, script, contract):
        self.contracts[script] = contract
        if contract and contract not in self.stamps:
            self.stamps[contract] = stamp(contract)
