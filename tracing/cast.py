"""The names of the processes of a run: those of contracts, of declarations, and of what is spawned, in order."""
import collections


class Cast:
    """By the number of each process its name, its declaration, and the line of the script that it comes from; by the
    number of each channel who offers it; and by the number of each message who sent it, where, and what it says."""

    def __init__(self):
        self.names, self.declared, self.lines, self.offers, self.sent = {}, {}, {}, {}, {}
        self.contracts, self.counts, self.instead = {}, collections.Counter(), {}

    def copy(self):
        other = Cast()
        for name, it in vars(self).items():
            setattr(other, name, it.copy())
        return other

    def free(self, name, taken):
        """Gives a name that is not taken: this one, or else this one with a number behind it."""
        number = 1
        while (name if number == 1 else f"{name}-{number}") in taken:
            number += 1
        return name if number == 1 else f"{name}-{number}"

    def start(self, start, taken):
        """Takes in a process that a line of the script starts, where these names are taken."""
        contract = start.said.get("as")
        name = contract or self.free(start.process, {*taken, *self.contracts})
        self.put(start.pid, name, start.process, start.number("line"), start.number("offers"))
        if contract:
            self.contracts[contract] = start.pid
        return name

    def put(self, pid, name, process, line, channel):
        self.names[pid], self.declared[pid], self.lines[pid] = name, process, line
        self.offers[channel] = pid

    def spawn(self, firing):
        """Takes in a process that another one spawns, and gives its number."""
        made, process = firing.number("made"), firing.said["spawns"]
        self.counts[process] += 1
        name = f"{process}-{self.counts[process]}"
        self.put(made, name, process, self.lines.get(firing.pid), firing.number("offers"))
        return made

    def provider(self, channel):
        """Gives who offers a channel now, or none where that is not known."""
        pid = self.offers.get(channel)
        while pid in self.instead:
            pid = self.instead[pid]
        return pid

    def name(self, pid):
        return self.names.get(pid, f"process {pid}")

    def channel(self, number):
        """Gives the name of a channel: that of who offers it."""
        return self.names.get(self.provider(number), f"channel {number}")
