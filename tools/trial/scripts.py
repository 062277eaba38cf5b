"""Random scripts: valid ones with lines of all kinds, and ones with a single fault."""

KEYS = ["x", "y", "z", "k_1", "q9", "long_key_16_abcd"]
NAMES = ["a", "b", "c", "d1", "e_", "f", "g", "h_16_characters"]
KINDS = ["validate", "vote", "accept", "accepted", "decide", "ask", "told", "moved"]
FATES = ["lose", "lose", "twice", "late", "next"]
POINTS = ["read", "votes", "accepts"]
PROCEDURES = ["add", "sum", "max"]
LARGEST_VALUE = 2**64 - 1
LARGEST_CLOCK = 2**61


class Script:
    """The lines of a script by their kinds, so that a fault can be put where it is one."""

    def __init__(self, version, f, clients):
        self.version = version
        self.f = f
        self.clients = clients
        self.prelude = []
        self.rounds = []

    def lines(self):
        head = [f"meerkat {self.version}", f"size {self.f}"]
        rounds = [line for number, (works, globals_) in enumerate(self.rounds) for line in (["round"] if number else []) + works + globals_]
        return head + self.prelude + rounds

    def has_one_column(self):
        """Whether its clients are of one column: then all its runs are the same."""
        return len({line.split()[2] for line in self.prelude if line.startswith("client ")}) == 1

    def text(self):
        return "".join(line + "\n" for line in self.lines())


def random_id(rng, script):
    return f"{rng.choice(script.clients)}.{rng.randint(1, 6)}"


def random_value(rng):
    return rng.choice([rng.randint(0, 9), rng.randint(0, 99), rng.randint(0, 99), LARGEST_VALUE, LARGEST_VALUE - rng.randint(0, 3)])


def random_item(rng, version, keys):
    key = rng.choice(keys)
    kind = rng.randint(0, 9 if version == 2 else 8)
    if kind <= 3:
        return f"r:{key}"
    if kind <= 6:
        return f"w:{key}={random_value(rng)}"
    if kind <= 8:
        return f"c:{key}={rng.choice(PROCEDURES)}({random_value(rng)})"
    return f"d:{key}"


def random_txn(rng, script, keys, clock):
    items = " ".join(random_item(rng, script.version, keys) for _ in range(rng.choice([1, 1, 2, 2, 3, 4, 16])))
    return f"txn {rng.choice(script.clients)} {clock} {items}"


def epoch_change(rng, n, epoch):
    """The lines of a change to this epoch: mostly all that it needs, with lines left out, repeated, or in another order."""
    replicas = list(range(n))
    rng.shuffle(replicas)
    lines = [f"ask {epoch}"]
    lines += [f"promise {epoch} {r}" for r in replicas[: rng.randint(n // 2, n)]]
    lines.append(f"merge {epoch}")
    rng.shuffle(replicas)
    lines += [f"adopt {epoch} {r}" for r in replicas[: rng.randint(n // 2, n)]]
    lines.append(f"enter {epoch}")
    if rng.random() < 0.3:
        lines.insert(rng.randrange(len(lines) + 1), f"wipe {rng.randrange(n)}")
    if rng.random() < 0.2:
        del lines[rng.randrange(len(lines))]
    if rng.random() < 0.2:
        lines.insert(rng.randrange(len(lines) + 1), rng.choice(lines))
    if rng.random() < 0.1:
        rng.shuffle(lines)
    return lines


def random_line(rng, n):
    """Any global line."""
    epoch = rng.choice([1, 2, 3, rng.randint(1, 1000)])
    replica = rng.randrange(n)
    return rng.choice([f"wipe {replica}", f"ask {epoch}", f"promise {epoch} {replica}", f"merge {epoch}", f"adopt {epoch} {replica}", f"enter {epoch}"])


def random_globals(rng, n, epoch):
    """The global lines of a round, and the greatest epoch by now."""
    lines = []
    if rng.random() < 0.35:
        epoch += rng.choice([1, 1, 1, 2])
        lines += epoch_change(rng, n, epoch)
    if rng.random() < 0.1:
        lines += [random_line(rng, n) for _ in range(rng.randint(1, 4))]
    return lines, epoch


def random_prelude(rng, script):
    n = 2 * script.f + 1
    columns = rng.choice([1, 1, 1, 1, 2, 3, 8])
    lines = [f"client {name} {rng.randrange(columns)} {rng.randrange(n)}" for name in script.clients]
    others = []
    if rng.random() < 0.5:
        others.append(f"retry {rng.randint(0, 3)}")
    named = set()
    for _ in range(rng.choice([0, 0, 1, 3, 6, 12])):
        fault = f"{rng.choice(KINDS)} {random_id(rng, script)} {rng.randrange(n)} {rng.choice([1, 1, 1, 2, 255])}"
        if fault not in named:
            named.add(fault)
            others.append(f"fault {fault} {rng.choice(FATES)}")
    for stopped in {random_id(rng, script) for _ in range(rng.choice([0, 0, 0, 1, 2]))}:
        others.append(f"stop {stopped} {rng.choice(POINTS)}")
    rng.shuffle(others)
    return lines + others


def random_script(rng):
    """A valid script."""
    script = Script(rng.choice([1, 2, 2]), rng.choice([1, 1, 1, 1, 2, 3]), NAMES[: rng.choice([1, 2, 2, 3, 4, 8])])
    keys = KEYS[: rng.randint(1, len(KEYS))]
    script.prelude = random_prelude(rng, script)
    n = 2 * script.f + 1
    clock = rng.choice([0, 10, 10, 10, LARGEST_CLOCK - 100])
    epoch = 0
    for _ in range(rng.choice([1, 1, 2, 3, 5])):
        works = []
        for _ in range(rng.choice([0, 1, 2, 4, 7])):
            clock = min(LARGEST_CLOCK, max(0, clock + rng.randint(-2, 6)))
            works.append(random_txn(rng, script, keys, clock))
        for _ in range(rng.choice([0, 0, 0, 1, 2])):
            works.append(f"takeover {random_id(rng, script)} {rng.choice([1, 1, 2, 3, 15])}")
        rng.shuffle(works)
        globals_, epoch = random_globals(rng, n, epoch)
        script.rounds.append((works, globals_))
    return script


def commented(rng, lines):
    """The lines with comments and empty lines among them."""
    out = []
    for line in lines:
        while rng.random() < 0.1:
            out.append(rng.choice(["", "# a comment", "#"]))
        out.append(line)
    return out


def faulty_script(rng):
    """A script with one fault: its bytes, the number of its first faulty line, and that line's first fault."""
    script = random_script(rng)
    lines = script.lines()
    body = 2 + len(script.prelude)
    n = 2 * script.f + 1
    kinds = {
        "cut": lambda: ("cut", len(lines) - 1, lines[-1]),
        "byte": lambda: replaced(rng, lines, lambda line: line + rng.choice(["\t", "\x7f", "\r", "\x00"]), "byte"),
        "form": lambda: inserted(rng, lines, 2, rng.choice(["foo", " client a 0 0", "txn", "client a 0", "merge", "ask 1 2", "round 1", "takeover a1 1", "fault vote a 0 1 lose"]), "form"),
        "order": lambda: (("order", body + len(script.rounds[0][0] + script.rounds[0][1]), None) if len(script.rounds) > 1 else ("order", len(lines), None)),
        "number": lambda: inserted(rng, lines, len(lines), rng.choice(["ask 01", "ask x", "wipe -1", "promise 1 0x0", "enter 1.5"]), "number"),
        "large": lambda: inserted(rng, lines, len(lines), rng.choice(["ask 1001", "ask 0", f"wipe {n}", f"promise 1 {n}", "enter 99999999999999999999999"]), "large"),
        "name": lambda: inserted(rng, lines, 2, rng.choice(["client A 0 0", "client _a 0 0", "client a-b 0 0", "client abcdefghijklmnopq 0 0"]), "name"),
        "unknown": lambda: inserted(rng, lines, 2 + len(script.clients), rng.choice(["fault vote nobody.1 0 1 lose", "stop nobody.1 read", f"stop {script.clients[0]}.1 write", f"fault votes {script.clients[0]}.1 0 1 lose"]), "unknown"),
        "many": lambda: inserted(rng, lines, body, f"txn {script.clients[0]} 1 " + " ".join(["r:x"] * 17), "many"),
        "twice": lambda: inserted(rng, lines, 2 + len(script.clients), f"client {rng.choice(script.clients)} 0 0", "twice"),
    }
    kind = rng.choice(sorted(kinds))
    if kind == "order":
        fault, place, _ = kinds[kind]()
        late = rng.choice([f"client late 0 0", "retry 1", f"meerkat {script.version}", f"size {script.f}"])
        if place == body and late != f"meerkat {script.version}" and late != f"size {script.f}":
            late = f"size {script.f}"
        lines.insert(place, late)
        return ("".join(line + "\n" for line in lines).encode(), place + 1, fault)
    fault, place, line = kinds[kind]()
    if kind == "cut":
        return (script.text()[:-1].encode(), len(lines), fault)
    lines[place] = line
    return ("".join(one + "\n" for one in lines).encode("latin-1"), place + 1, fault)


def replaced(rng, lines, change, fault):
    """The fault of one line that is changed so."""
    place = rng.randrange(len(lines))
    return fault, place, change(lines[place])


def inserted(_rng, lines, place, line, fault):
    """The fault of a line that is put in here."""
    lines.insert(place, line)
    return fault, place, line
