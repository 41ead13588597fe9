"""In which order the crates that a program stands on are proved, and what is said of it meanwhile."""
import hashlib
import sys
import time

PARTS = ("src", "specs", "proofs")
# What a crate is taken to cost before any was measured, in seconds: a fixed part, and one for each line.
SECONDS, SECONDS_A_LINE = 12, 0.15
# How many seconds of such costs weigh as much as those that were measured.
TRUSTED_SECONDS = 300


def say(text):
    """Says something on standard error, in the name of the command."""
    print(f"stream_jobs: {text}", file=sys.stderr, flush=True)


class Plan:
    """The crates that a program stands on, lowest first, and the checksum of what each is made from."""

    def __init__(self, top, program):
        """Reads crates.txt, and the sources of the crates that the program stands on."""
        self.top, self.lines, self.below = top, {}, {}
        for line in (top / "crates.txt").read_text().splitlines():
            head, _, names = line.partition("#")[0].partition(":")
            if head.strip():
                self.lines[head.split()[0]] = line
                self.below[head.split()[0]] = names.split()
        self.names = []
        self.add(program)
        self.sums = {}
        for name in self.names:
            self.sums[name] = self.sum_of(name)

    def add(self, name):
        """Adds a crate behind those that it uses."""
        if name in self.lines and name not in self.names:
            for it in self.below[name]:
                self.add(it)
            self.names.append(name)

    def uses(self, name):
        """The crates of the repository that a crate names."""
        return [it for it in self.below[name] if it in self.lines]

    def above(self, name):
        """The needed crates that name a crate."""
        return [it for it in self.names if name in self.below[it]]

    def all_below(self, name):
        """The crates of the repository that a crate stands on, lowest first."""
        found = set(self.uses(name))
        for it in reversed(self.names):
            if it in found:
                found.update(self.uses(it))
        return [it for it in self.names if it in found]

    def files(self, name):
        """The files of a crate that its proof reads."""
        folder = self.top / "crates" / name
        return sorted(it for part in PARTS for it in (folder / part).rglob("*") if it.is_file())

    def cost(self, name):
        """The seconds that a crate is taken to cost, by its lines."""
        sources = [it for it in self.files(name) if "/proofs/" not in str(it)]
        return SECONDS + SECONDS_A_LINE * sum(it.read_bytes().count(b"\n") for it in sources)

    def sum_of(self, name):
        """The checksum of a crate's sources, of its line of crates.txt and of the crates below it."""
        made = hashlib.sha256(repr((self.lines[name].split(), [self.sums[it] for it in self.uses(name)])).encode())
        for file in self.files(name):
            made.update(repr((str(file.relative_to(self.top)), file.read_bytes())).encode())
        return made.hexdigest()


class Order:
    """Which crate is to be begun next: of those of which all below are done, the one under the longest chain."""

    def __init__(self, plan, built):
        """Begins where these crates are built."""
        self.plan, self.done = plan, set(built)
        self.waiting = [it for it in plan.names if it not in built]
        self.costs = {name: plan.cost(name) for name in plan.names}
        self.chains = {}
        for name in reversed(plan.names):
            above = max((self.chains[it] for it in plan.above(name)), default=0)
            self.chains[name] = self.costs[name] + above

    def ready(self):
        """The crates that could be begun now."""
        return [it for it in self.waiting if all(below in self.done for below in self.plan.uses(it))]

    def next(self):
        """Takes the crate to be begun now, or None while each waits for another."""
        name = max(self.ready(), key=lambda it: self.chains[it], default=None)
        if name is None:
            return None
        self.waiting.remove(name)
        return name

    def seconds_left(self, spent, lanes):
        """About how long the rest takes in so many lanes, where spent has the crates that run and for how long."""
        rest = {it: self.costs[it] for it in self.waiting}
        rest.update({it: max(self.costs[it] - much, 0) for it, much in spent.items()})
        chain = max((self.chains[it] - self.costs[it] + much for it, much in rest.items()), default=0)
        return max(sum(rest.values()) / lanes, chain)


class Progress:
    """What is said of how far a build is."""

    def __init__(self, order, lanes):
        """Begins with what the order has waiting."""
        self.order, self.lanes, self.count = order, lanes, len(order.waiting)
        self.begun, self.taken, self.expected, self.number = {}, 0, 0, 0

    def begins(self, name):
        """Says which crate is proved now, and about how long the rest takes."""
        self.number += 1
        self.begun[name] = time.monotonic()
        spent = {it: (time.monotonic() - at) / self.pace() for it, at in self.begun.items()}
        left = self.order.seconds_left(spent, self.lanes) * self.pace()
        say(f"proving {name}, crate {self.number} of {self.count}; about {max(1, round(left / 60))} minutes left")

    def ends(self, name):
        """Notes how long a crate took."""
        self.taken += time.monotonic() - self.begun.pop(name)
        self.expected += self.order.costs[name]

    def pace(self):
        """What a second of a crate's cost takes here, by the crates that are done."""
        return (self.taken + TRUSTED_SECONDS) / (self.expected + TRUSTED_SECONDS)
