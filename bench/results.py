"""The lines that measure and over_files print, read: what a round took, and what can be said of the rounds of several runs."""

SCHEMES = {1: "GaX", 2: "GaXR", 3: "half-gates", 4: "re-keyed half-gates"}
WORKERS = {
    "library": "the library",
    "chained": "the library, chained rounds",
    "tables": "C, AES by tables",
    "fixsliced": "C, fixsliced",
    "aesni": "C, AES-NI",
}
BASELINES = ("tables", "fixsliced", "aesni")
CALLS = [(operation, scheme) for operation in ("garble", "evaluate") for scheme in SCHEMES]


class Results:
    """times[operation, scheme, q][worker]: ns for a charged gate (check: for a gate), a number for each round. Each run of measure
    adds its rounds, in the same order for each worker. Of over_files the operation is "garble over files" and so on, and a number
    is ms for all of it."""

    def __init__(self, path):
        self.times = {}
        self.instructions = {}
        self.about = {}
        for line in open(path, encoding="utf-8"):
            self.read(line.split())

    def read(self, words):
        if words[0] == "about":
            self.about[words[1]] = " ".join(words[2:])
        if words[0] not in ("time", "files", "instructions"):
            return
        operation = f"{words[1]} over files" if words[0] == "files" else words[1]
        key, worker = (operation, int(words[2]), int(words[3])), words[4]
        if words[0] != "instructions":
            self.times.setdefault(key, {}).setdefault(worker, []).extend(float(word) for word in words[5:])
        else:
            self.instructions.setdefault(key, {})[worker] = int(words[5])

    def sizes(self):
        return sorted({q for operation, _, q in self.times if operation == "check"})

    def workers(self):
        found = self.times["garble", 3, max(self.sizes())]
        return [worker for worker in WORKERS if worker in found]

    def has(self, key, *workers):
        """Whether all of these do this: one baseline only garbles."""
        return all(worker in self.times[key] for worker in workers)

    def best(self, key, worker):
        return min(self.times[key][worker])

    def ratio(self, key, worker, other):
        """Of the two bests."""
        return self.best(key, worker) / self.best(key, other)

    def spread(self, key, worker, other):
        """The ratio in single rounds: a tenth of the rounds lies below the first number, a tenth above the second."""
        rounds = zip(self.times[key][worker], self.times[key][other])
        ratios = sorted(mine / theirs for mine, theirs in rounds)
        tenth = len(ratios) // 10
        return ratios[tenth], ratios[-1 - tenth]
