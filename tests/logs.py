"""A model of the log: its bytes, the records that they spell, which of them may stand where, and the printed log.

It is written from the documents alone (docs/WIRE.md), and shares nothing with the program.
"""
import hashlib
import struct
from types import SimpleNamespace

HEADER = b"MFLOG01\n"
SUFFIX = ".makeflowlog"
MOST_RECORDS = 1_000_000
MOST_OUTPUT = 67_108_864
KINDS = ["", "opened", "resumed", "started", "done", "failed", "lost", "dropped", "ended"]
ENDS = ["complete", "failed", "inputs too large", "no room", "waited", "cleaned"]
OF_RULES = ("started", "done", "failed", "lost")


class Damaged(Exception):
    """No log, from this byte on."""

    def __init__(self, at):
        super().__init__(f"log damaged at {at}")
        self.at = at


def content(data):
    return len(data), hashlib.sha256(data).digest()


def record(kind, moment, **fields):
    return SimpleNamespace(kind=kind, moment=moment, **fields)


def listed(contents):
    return struct.pack(">I", len(contents)) + b"".join(struct.pack(">Q", size) + digest for size, digest in contents)


def spelled(it):
    """The kind byte and the body of a record."""
    head = struct.pack(">BQ", KINDS.index(it.kind), it.moment)
    if it.kind in ("opened", "resumed"):
        limit = b"\0" if it.limit is None else struct.pack(">BQ", 1, it.limit)
        text = head + struct.pack(">QI", it.run, it.retries) + limit
        return text + it.plan + listed(it.sources) if it.kind == "opened" else text
    if it.kind == "dropped":
        return head + struct.pack(">I", it.file)
    if it.kind == "ended":
        return head + bytes([ENDS.index(it.end)])
    text = head + struct.pack(">IQ", it.rule, it.attempt)
    if it.kind == "started":
        return text + struct.pack(">I", it.link)
    if it.kind == "done":
        return text + listed(it.outs)
    if it.kind == "failed":
        tag, *numbers = it.why
        return text + {1: lambda: struct.pack(">Bi", 1, *numbers), 2: lambda: struct.pack(">BI", 2, *numbers),
                       3: lambda: struct.pack(">BIQ", 3, *numbers)}[tag]()
    return text


def entry(it):
    text = spelled(it)
    return b"\1" + struct.pack(">I", len(text)) + text


def log_of(records):
    return HEADER + b"".join(map(entry, records)) + b"\0"


class Body:
    """Takes fields off the spelling of a record."""

    def __init__(self, text):
        self.text, self.at = text, 0

    def take(self, form):
        found = struct.unpack_from(">" + form, self.text, self.at)
        self.at += struct.calcsize(">" + form)
        return found[0]

    def bytes(self, count):
        self.at += count
        if self.at > len(self.text):
            raise struct.error
        return self.text[self.at - count:self.at]

    def contents(self):
        return [(self.take("Q"), self.bytes(32)) for _ in range(self.take("I"))]


def record_of(text):
    body = Body(text)
    kind = body.take("B")
    if kind == 0:
        raise KeyError(kind)
    it = record(KINDS[kind], body.take("Q"))
    if it.kind in ("opened", "resumed"):
        it.run, it.retries = body.take("Q"), body.take("I")
        it.limit = body.take("Q") if body.take("B") else None
        if it.kind == "opened":
            it.plan, it.sources = body.bytes(32), body.contents()
    elif it.kind == "dropped":
        it.file = body.take("I")
    elif it.kind == "ended":
        it.end = ENDS[body.take("B")]
    else:
        it.rule, it.attempt = body.take("I"), body.take("Q")
        if it.kind == "started":
            it.link = body.take("I")
        elif it.kind == "done":
            it.outs = body.contents()
        elif it.kind == "failed":
            tag = body.take("B")
            it.why = (tag, *(body.take(form) for form in {1: "i", 2: "I", 3: "IQ"}[tag]))
    return it


def read(data):
    """The records of a log, or Damaged. One of at most nine bytes isn't begun."""
    if len(data) <= 9:
        return []
    if not data.startswith(HEADER):
        raise Damaged(0)
    records, at = [], len(HEADER)
    while True:
        if at >= len(data):
            raise Damaged(at)
        if data[at] != 1:
            return records
        end = at + 5 + int.from_bytes(data[at + 1:at + 5], "big")
        if at + 5 > len(data) or end > len(data):
            raise Damaged(at)
        try:
            it = record_of(data[at + 5:end])
        except (struct.error, IndexError, KeyError):
            raise Damaged(at) from None
        if spelled(it) != data[at + 5:end]:
            raise Damaged(at)
        records.append(it)
        at = end


def gates(records):
    """The place of each record's gate, and of the closed one behind them."""
    found, at = [], len(HEADER)
    for it in records:
        found.append(at)
        at += len(entry(it))
    return [*found, at]


def part_of(records):
    """The records behind the last cleaning."""
    ends = [at for at, it in enumerate(records) if it.kind == "ended" and it.end == "cleaned"]
    return records[ends[-1] + 1:] if ends else records


def kinds(records):
    """What happened, without moments: `started 0 0` is the start of rule 0 as attempt 0, `dropped 3` the drop of file 3."""
    shown = []
    for it in records:
        more = [it.rule, it.attempt] if it.kind in OF_RULES else [it.end] if it.kind == "ended" else [it.file] if it.kind == "dropped" else []
        shown.append(" ".join(map(str, [it.kind, *more])))
    return shown


class States:
    """The states of so many rules by the records so far."""

    def __init__(self, total):
        self.state, self.fails, self.retries = [0] * total, [0] * total, 0
        self.counts = [total, 0, 0, 0]

    def enter(self, rule, state):
        self.counts[self.state[rule]] -= 1
        self.counts[state] += 1
        self.state[rule] = state

    def note(self, it):
        if it.kind in ("opened", "resumed"):
            self.retries = it.retries
            for rule, state in enumerate(self.state):
                self.fails[rule] = 0
                if state in (1, 3):
                    self.enter(rule, 0)
        elif it.kind == "started":
            self.enter(it.rule, 1)
        elif it.kind == "done":
            self.enter(it.rule, 2)
        elif it.kind == "lost":
            self.enter(it.rule, 0)
        elif it.kind == "failed":
            self.fails[it.rule] += 1
            self.enter(it.rule, 3 if self.fails[it.rule] > self.retries else 0)


def printed(records, total, names=()):
    """The printed log of a flow of so many rules, whose files have these names."""
    states, lines = States(total), []
    for it in part_of(records):
        states.note(it)
        if it.kind in ("opened", "resumed"):
            lines.append(f"# {it.kind} run {it.run}")
        elif it.kind == "ended":
            lines.append(f"# ended {it.end}")
        elif it.kind == "dropped":
            lines.append(f"# dropped {names[it.file]}")
        else:
            waiting, running, complete, failed = states.counts
            lines.append(f"{it.moment} {it.rule} {states.state[it.rule]} {it.attempt} {waiting} {running} {complete} {failed} 0 {total}")
    return "".join(f"{it}\n" for it in lines)


class Store:
    """Which files that rules make are there by the records so far, what they take, and which are free. A rule is its inputs
    and its outputs, by name; `bounds` has the stated sizes, `kept` the files that are kept though a rule takes them in."""

    def __init__(self, rules, bounds=None, kept=()):
        self.rules, self.bounds = rules, bounds or {}
        self.makers = {name: number for number, (_, outs) in enumerate(rules) for name in outs}
        self.takers = {name: set() for names in rules for name in [*names[0], *names[1]]}
        for number, (inputs, _) in enumerate(rules):
            for name in inputs:
                self.takers[name].add(number)
        self.names = sorted(self.takers, key=str.encode)
        self.kept = {*kept, *(name for name in self.makers if not self.takers[name])}
        self.clear()

    def clear(self):
        self.present, self.complete, self.running, self.limit = {}, set(), set(), None

    def note(self, it):
        if it.kind in ("opened", "resumed"):
            self.running, self.limit = set(), it.limit
        elif it.kind == "started":
            self.running.add(it.rule)
        elif it.kind == "dropped":
            self.present.pop(self.names[it.file])
        elif it.kind in OF_RULES:
            self.running.discard(it.rule)
            if it.kind == "done":
                self.complete.add(it.rule)
                self.present |= {name: size for name, (size, _) in zip(self.rules[it.rule][1], it.outs)}
        elif it.end == "cleaned":
            self.clear()

    def bound(self, rule):
        return min(sum(self.bounds.get(name, MOST_OUTPUT) for name in self.rules[rule][1]), MOST_OUTPUT)

    def within(self, rule, sizes):
        """Whether outputs of these sizes keep their bounds."""
        outs = self.rules[rule][1]
        each = all(size <= self.bounds.get(name, MOST_OUTPUT) for name, size in zip(outs, sizes))
        return len(sizes) == len(outs) and each and sum(sizes) <= self.bound(rule)

    def stored(self):
        return sum(self.present.values())

    def taken(self):
        """What is stored, and what the rules that run may come to write."""
        return self.stored() + sum(map(self.bound, self.running))

    def fits(self, rule):
        return self.limit is None or self.taken() + self.bound(rule) <= self.limit

    def is_ready(self, rule):
        return rule not in self.complete | self.running and all(name in self.present for name in self.rules[rule][0] if name in self.makers)

    def ready(self):
        return [it for it in range(len(self.rules)) if self.is_ready(it)]

    def free(self):
        return [name for name in self.names if name in self.present and name not in self.kept and self.takers[name] <= self.complete]


def illegal(records, rules, bounds=None, kept=(), away=()):
    """The first record that may not stand where it does, as text, or nothing. Rules, bounds and kept files are those of a
    Store. The rules of the numbers in `away` run at workers, whose links have numbers from 1, and the others here, at 0."""
    runs = attempts = 0
    part, states, store, open_attempt, ended = [], States(len(rules)), Store(rules, bounds, kept), {}, False

    def allowed(it):
        if it.kind in ("opened", "resumed"):
            return it.run == runs and (it.kind == "opened") == (not part) and (it.limit is None or store.stored() <= it.limit)
        if not part:
            return False
        if it.kind == "started":
            may = not ended and not states.counts[3] and states.state[it.rule] == 0
            return may and store.is_ready(it.rule) and store.fits(it.rule) and it.attempt == attempts and (it.link > 0) == (it.rule in away)
        if it.kind in OF_RULES:
            runs_so = open_attempt.get(it.rule) == it.attempt
            return runs_so and (it.kind != "done" or store.within(it.rule, [size for size, _ in it.outs]))
        if it.kind == "dropped":
            return store.names[it.file] in store.free()
        if it.end != "cleaned":
            ready = store.ready()
            fits = {"complete": states.counts[2] == len(rules), "failed": states.counts[3] > 0, "no room": bool(ready) and not any(map(store.fits, ready))}
            return not ended and not states.counts[1] and fits.get(it.end, True)
        return True

    for at, it in enumerate(records):
        if not allowed(it):
            return f"record {at} ({kinds([it])[0]}) may not stand there"
        store.note(it)
        if it.kind == "ended" and it.end == "cleaned":
            part, states, open_attempt, ended = [], States(len(rules)), {}, False
            continue
        part.append(it)
        states.note(it)
        runs += it.kind in ("opened", "resumed")
        attempts += it.kind == "started"
        if it.kind in ("opened", "resumed"):
            open_attempt, ended = {}, False
        elif it.kind == "started":
            open_attempt[it.rule] = it.attempt
        elif it.kind in OF_RULES:
            open_attempt.pop(it.rule)
        elif it.kind == "ended":
            ended = True
    return None


def text_field(text):
    data = text.encode()
    return struct.pack(">I", len(data)) + data


def plan_digest(rules, files):
    """Of rules (command, inputs, outputs) without environment, whose files have the same name where the command runs and
    no stated size."""
    numbers = {name: number for number, name in enumerate(files)}
    made = {name: number for number, (_, _, outs) in enumerate(rules) for name in outs}
    taken = {name for _, inputs, _ in rules for name in inputs}
    text = struct.pack(">I", len(rules))
    for command, inputs, outs in rules:
        text += text_field(command) + struct.pack(">I", 0)
        for names in (inputs, outs):
            text += struct.pack(">I", len(names)) + b"".join(struct.pack(">I", numbers[it]) + text_field(it) for it in names)
        text += struct.pack(">Q", MOST_OUTPUT)
    text += struct.pack(">I", len(files))
    for name in files:
        maker = struct.pack(">BI", 1, made[name]) if name in made else b"\0"
        text += text_field(name) + maker + bytes([name in made and name not in taken]) + struct.pack(">Q", MOST_OUTPUT)
    return hashlib.sha256(text).digest()


def wrong_end(data, status):
    """What is wrong with the log of a run that ended with this status."""
    try:
        records = read(data)
    except Damaged as it:
        return [str(it)]
    wanted = {0: ("complete", "cleaned"), 1: ("failed",), 6: ("inputs too large", "no room"), 7: ("waited",)}.get(status)
    last = kinds(records)[-1:]
    if wanted and (not last or last[0] not in [f"ended {it}" for it in wanted]):
        return [f"its log ends with {last}"]
    return []
