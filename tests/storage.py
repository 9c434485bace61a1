"""Cases of collection and of a limit on storage: what goes when, how little room is enough, and what may come back.

The figures are by hand. What a run logs is foretold by the rules of collection (docs/GUIDE.md) over the model of the log.
"""
import os
import threading
import time

import logs
from crashes import Crashes, Kills, files_of, memory_folder, serial, wrong_resume
from places import USUAL_LOG, Place, case, complete, content_of, outcome, say, text_of
from resumes import Course, cleaned

LEAVES, SIZE, BOUND = 24, 1_000, 1_200
# Each merge behind what it takes in: at most five files are held while a sixth is made. All leaves first: 24, and one.
LEAST, LEAST_LEAVES_FIRST = 5 * SIZE + BOUND, LEAVES * SIZE + BOUND
RULES = 2 * LEAVES - 1
LEAST_KEEPING_ALL = (RULES - 1) * SIZE + BOUND
LINES = "".join(f"line {it:03}\n" for it in range(150))
KILL_SECONDS = 40


def words(mode=None, limit=None, *more):
    """One job at once, so that what comes when is told exactly."""
    given = [*(["-g", mode] if mode else []), *(["--storage-limit", str(limit)] if limit is not None else [])]
    return ("-j", "1", *given, *more, "flow")


def no_room(rule, need, stored, limit):
    return f"makeflow: no room for rule {rule}: needs {need}, stored {stored}, limit {limit}\n"


def needs(rule, need, total):
    return f"makeflow: rule {rule} needs {need}, there is {total}\n"


def tree(leaves_first=False, leaves=LEAVES, slow=False):
    """Leaves merged two by two, up to the last rule, which makes `all`. Each makes one file of SIZE bytes, in two steps where
    it is slow."""
    rules = []

    def add(content, inputs, name):
        half = SIZE // 2
        slowly = f"{content} | head -c {half} > {name}; sleep 0.01; {content} | head -c {SIZE} | tail -c +{half + 1} >> {name}"
        rules.append((slowly if slow else f"{content} | head -c {SIZE} > {name}", inputs, [name]))
        return name

    def part(first, count):
        if count == 1:
            return add(f"echo leaf.{first:02} | cat - s", ["s"], f"leaf.{first:02}")
        half = (count + 1) // 2
        pair = [part(first, half), part(first + half, count - half)]
        return add(f"paste {' '.join(pair)}", pair, "all" if count == leaves else f"merge.{first:02}.{count:02}")

    part(0, leaves)
    return sorted(rules, key=lambda it: it[1] != ["s"]) if leaves_first else rules


class Stock(Course):
    """Calls of which all records are foretold. `contents` has what the rules make."""

    def __init__(self, name, rules, files, contents, bounds):
        super().__init__(name, files, rules, {}, bounds=bounds, under=memory_folder())
        self.contents = {it: text.encode() if isinstance(text, str) else text for it, text in contents.items()}

    def foretold(self, mode, limit):
        """What one run appends, where no command fails, and the store behind it."""
        old, grown, store = self.records(), [], logs.Store(self.rules, self.bounds)
        for it in logs.part_of(old):
            store.note(it)
        attempt = sum(it.kind == "started" for it in old)

        def add(kind, **fields):
            grown.append(logs.record(kind, 0, **fields))
            store.note(grown[-1])

        add("resumed" if logs.part_of(old) else "opened", limit=limit)
        while grown[-1].kind != "ended":
            ready, free = store.ready(), store.free()
            fitting = [it for it in ready if store.fits(it)]
            if free and (mode == "ref_cnt" or mode == "on_demand" and fitting != ready):
                add("dropped", file=store.names.index(free[0]))
            elif fitting:
                rule = fitting[0]
                add("started", rule=rule, attempt=attempt, link=0)
                add("done", rule=rule, attempt=attempt, outs=[logs.content(self.contents[it]) for it in self.rules[rule][1]])
                attempt += 1
            else:
                add("ended", end="no room" if ready else "complete")
        return logs.kinds(grown), store

    def go(self, step, mode, limit, status, printed, more=()):
        """One run. Behind it those made files that the log has stand in the folder, and no others."""
        adds, store = self.foretold(mode, limit)
        self.call(step, status, printed, words(mode, limit), adds=adds)
        self.holds(step, [*store.present, *more])

    def holds(self, step, names):
        there = [it for it in self.contents if os.path.exists(self.path(it))]
        self.note(step, [] if sorted(there) == sorted(names) else [f"of what rules make there is {sorted(there)}, not {sorted(names)}"])
        self.made = {it: self.contents[it] for it in names}

    def most(self):
        """The most that was stored and reserved at any moment of the log."""
        store, most = logs.Store(self.rules, self.bounds), 0
        for it in self.records():
            store.note(it)
            most = max(most, store.taken())
        return most


class Looks:
    """Looks at a folder while something runs: the most bytes that made files have there at once."""

    def __init__(self, place):
        self.folder, self.others = place.work, {*place.before, USUAL_LOG}
        self.most = self.count = 0
        self.over, self.thread = threading.Event(), threading.Thread(target=self.work)

    def __enter__(self):
        self.thread.start()
        return self

    def __exit__(self, *_):
        self.over.set()
        self.thread.join()
        self.look()

    def work(self):
        while not self.over.is_set():
            self.look()
            time.sleep(0.001)

    def look(self):
        """The names are had in one call. A file that was taken away since isn't counted, one that got another name only once."""
        found = {}
        for name in os.listdir(self.folder):
            if name not in self.others:
                try:
                    data = os.stat(f"{self.folder}/{name}")
                    found[data.st_ino] = data.st_size
                except FileNotFoundError:
                    pass
        self.most, self.count = max(self.most, sum(found.values())), self.count + 1


def tree_case(name, leaves_first=False):
    rules, files = tree(leaves_first), {"s": LINES}
    made = {it: text for it, text in serial(rules, files).items() if it not in files}
    return Stock(name, rules, files, made, {it: BOUND for it in made})


def wrong_drops(course):
    """What is wrong with the printed log of a tree: behind the line that a merge is complete stand the drops of both its inputs,
    which no other rule takes in, and each rule runs in the order of the text."""
    out, _ = course.place.start(("--print-log", "flow")).communicate()
    shown = [line if line.startswith("#") else " ".join(line.split()[1:3]) for line in out.decode().splitlines()]
    drops = [[f"# dropped {name}" for name in sorted(inputs) if name != "s"] for inputs, _ in course.rules]
    wanted = ["# opened run 0", *(line for rule, lines in enumerate(drops) for line in (f"{rule} 1", f"{rule} 2", *lines)), "# ended complete"]
    return [] if shown == wanted else [f"it has {shown}, not {wanted}"]


CUT = """# fetch, four cuts, one join
TOOL = "cut.sh"
export MODE=plain
.MAKEFLOW CATEGORY fetch
raw.txt:
\tLOCAL echo abcd > raw.txt
.MAKEFLOW CATEGORY work
.MAKEFLOW CORES 1
.MAKEFLOW MEMORY 100
p1.txt: raw.txt $TOOL
\tsh ./$(TOOL) 1 < raw.txt > p1.txt
p2.txt: raw.txt ./cut.sh
\tsh ./$(TOOL) 2 < raw.txt > p2.txt
p3.txt: raw.txt cut.sh->tool
\tsh tool 3 < raw.txt > p3.txt
p4.txt: raw.txt \\
  ${TOOL}
\tsh ./$(TOOL) 4 < raw.txt > p4.txt
all.txt: p1.txt p2.txt p3.txt p4.txt
\tcat p1.txt p2.txt p3.txt p4.txt > all.txt
"""


def collection():
    """What is stored and reserved at most, in the log and in the folder, with the least limits under which all is made."""
    for mode, limit, gone, most in [(None, None, 0, LEAST_KEEPING_ALL), ("none", LEAST_KEEPING_ALL, 0, LEAST_KEEPING_ALL), ("ref_cnt", None, 46, LEAST),
                                    ("ref_cnt", LEAST, 46, LEAST), ("on_demand", None, 0, LEAST_KEEPING_ALL), ("on_demand", LEAST, 41, LEAST)]:
        with tree_case(f"47 rules merged two by two: {' '.join(words(mode, limit)[2:])}") as it:
            with Looks(it.place) as looks:
                it.go("the run", mode, limit, 0, complete(RULES, gone))
            it.note("the run", [] if it.most() == most else [f"its log has {it.most()} bytes stored and reserved, not {most}"])
            it.note("the run", [] if looks.most <= most else [f"{looks.most} bytes stood in the folder, more than {most}"])
            it.note("the run", [] if mode != "ref_cnt" or it.made.keys() == {"all"} else [f"{sorted(it.made)} is left"])
            it.note("the run", [] if mode != "on_demand" or len(it.made) == RULES - gone else [f"{len(it.made)} files are left"])
            if mode == "ref_cnt":
                it.note("the printed log", wrong_drops(it))
            it.go("the same again", mode, limit, 0, complete(RULES, gone))
            it.call("the cleaning", 0, cleaned(RULES - gone), words(mode, limit, "-c"), adds=["ended cleaned"])
            it.holds("the cleaning", [])
    case("one is cut in four, and they are joined: -g ref_cnt", {"flow": CUT, "cut.sh": "cat\necho $1 $MODE\n"}, 0, complete(6, 5),
         {"all.txt": b"abcd\n1 plain\nabcd\n2 plain\nabcd\n3 plain\nabcd\n4 plain\n"}, words=("-j", "4", "-g", "ref_cnt", "flow"))
    with three_in_a_row("what MAKEFLOW_OUTPUTS names is kept: -g ref_cnt", "MAKEFLOW_OUTPUTS=a none\n") as it:
        it.call("the run", 0, complete(3, 1), words("ref_cnt"), adds=["opened", *ran(0), *ran(1), *ran(2), "dropped 1", "ended complete"])
        it.holds("the run", ["a", "c"])


def one_byte_less():
    """Under the least limit all is made, and with one byte less it isn't; the same flow goes on once there is room."""
    for mode, leaves_first, limit, rule, stored, enough, gone in [
            ("ref_cnt", False, LEAST - 1, 41, 5 * SIZE, LEAST, 46), ("on_demand", False, LEAST - 1, 41, 5 * SIZE, LEAST, 41),
            ("none", False, LEAST_KEEPING_ALL - 1, 46, 46 * SIZE, LEAST_KEEPING_ALL, 0), ("ref_cnt", True, LEAST, 6, 6 * SIZE, LEAST_LEAVES_FIRST, 46),
            ("ref_cnt", True, LEAST_LEAVES_FIRST - 1, 24, 24 * SIZE, LEAST_LEAVES_FIRST, 46)]:
        with tree_case(f"too little room, then enough: {' '.join(words(mode, limit)[2:])}{', leaves first' if leaves_first else ''}", leaves_first) as it:
            it.go("the run", mode, limit, 6, no_room(rule, BOUND, stored, limit))
            it.go("the same again", mode, limit, 6, no_room(rule, BOUND, stored, limit))
            it.go("the resume", mode, enough, 0, complete(RULES, gone))


def ran(rule, attempt=None):
    return [f"{it} {rule} {rule if attempt is None else attempt}" for it in ("started", "done")]


IN_A_ROW = [("cat s > a", ["s"], ["a"]), ("cat a > b", ["a"], ["b"]), ("cat b > c", ["b"], ["c"])]
FORTY = "x" * 40


def three_in_a_row(name, settings=""):
    """Three rules of 40 bytes each. The files a, b and c are 0, 1 and 2."""
    it = Stock(name, IN_A_ROW, {"s": FORTY}, {name: FORTY for name in "abc"}, {name: 40 for name in "abc"})
    it.put("flow", settings + text_of(IN_A_ROW, it.bounds))
    return it


def limits():
    for mode, gone in [("ref_cnt", 2), ("on_demand", 1)]:
        with three_in_a_row(f"three rules of 40 bytes in 100: -g {mode}") as it:
            it.go("the run", mode, 100, 0, complete(3, gone))
    with three_in_a_row("three rules of 40 bytes in 100: -g none, then with a collection") as it:
        it.go("the run", None, 100, 6, no_room(2, 40, 80, 100))
        it.go("the same again", "none", 100, 6, no_room(2, 40, 80, 100))
        it.go("on demand", "on_demand", 100, 0, complete(3, 1))
        it.go("with reference counts", "ref_cnt", 80, 0, complete(3, 2))
    with three_in_a_row("a limit below what is stored") as it:
        it.go("the run", None, 200, 0, complete(3))
        for mode in (None, "ref_cnt", "on_demand"):
            for limit in (100, 119):
                it.refused(f"at {limit}", 4, f"makeflow: stored 120 is above the limit {limit}\n", words(mode, limit))
        it.refused("a limit below a rule's bound", 3, needs(0, 40, 39), words(None, 39))
        it.print_log("the printed log at 100", words(None, 100))
        it.go("at what is stored", "ref_cnt", 120, 0, complete(3, 2))
        it.go("at what is stored then", None, 40, 0, complete(3, 2))
    with three_in_a_row("a cleaning at a limit below what is stored") as it:
        it.go("the run", None, None, 0, complete(3))
        it.call("the cleaning", 0, cleaned(3), words(None, 100, "-c"), adds=["ended cleaned"])
        it.holds("the cleaning", [])
        it.go("a run behind it", "ref_cnt", 80, 0, complete(3, 2))
    with three_in_a_row("a rule that can never fit") as it:
        for more in [(), ("-c",), ("--print-log",)]:
            it.refused(f"at 39 {more}", 3, needs(0, 40, 39), words("ref_cnt", 39, *more))
        it.go("where the first fits alone", "ref_cnt", 40, 6, no_room(1, 40, 40, 40))
    unstated = {"flow": "out more: in\n\tcat in > out; cat in > more\n", "in": "abc"}
    case("a rule without stated sizes at one byte below its bound", unstated, 3, needs(0, 67_108_864, 67_108_863), words=words(None, 67_108_863))
    case("a rule without stated sizes at its bound", unstated, 0, complete(1), {"out": b"abc", "more": b"abc"}, words=words(None, 67_108_864))
    two = {"flow": ".SIZE a 9\n.SIZE b 8\n.MAKEFLOW CORES 2\na b: in\n\tcat in > a; cat in > b\n", "in": "abc"}
    case("cores that are wanting come before the limit", two, 3, needs(0, 2, 1), words=words(None, 16, "--local-cores", "1"))
    case("sizes of two outputs are added", two, 3, needs(0, 17, 16), words=words(None, 16))
    case("no byte for no byte", {"flow": ".SIZE out 0\nout:\n\t: > out\n"}, 0, complete(1), {"out": b""}, words=words("ref_cnt", 0))
    case("the greatest limit", two, 0, complete(1), {"a": b"abc", "b": b"abc"}, words=words("on_demand", 2 ** 60))
    past = [(f"head -c {size} s > {name}", ["s"], [name]) for name, size in [("a", 40), ("b", 10), ("c", 10)]]
    with Stock("a smaller rule passes by one that doesn't fit", past, {"s": FORTY}, {"a": "x" * 40, "b": "x" * 10, "c": "x" * 10}, {"a": 40, "b": 70, "c": 50}) as it:
        it.go("the run", None, 100, 6, no_room(1, 70, 50, 100))
        it.go("the resume", None, 120, 0, complete(3))


def changed_modes():
    """Each call collects by its own mode, whatever the ones before it did."""
    rules = [(f"{'test -e ROOM/go && ' if name == 'd' else ''}cat {taken} > {name}", [taken], [name]) for taken, name in zip("sabcd", "abcde")]
    with Stock("-g changes between the runs of a flow", rules, {"s": FORTY}, {name: FORTY for name in "abcde"}, {name: 40 for name in "abcde"}) as it:
        failed = "makeflow: rule 3 failed: status 1\n"
        it.call("none", 1, failed, words("none"), adds=["opened", *ran(0), *ran(1), *ran(2), "started 3 3", "failed 3 3", "ended failed"])
        it.holds("none", "abc")
        it.call("ref_cnt", 1, failed, words("ref_cnt"), adds=["resumed", "dropped 0", "dropped 1", "started 3 4", "failed 3 4", "ended failed"])
        it.holds("ref_cnt", "c")
        it.beside("go")
        it.call("none again", 0, complete(5, 2), words(), adds=["resumed", *ran(3, 5), *ran(4, 6), "ended complete"])
        it.holds("none again", "cde")
        it.go("on demand", "on_demand", 120, 0, complete(5, 2))
        it.go("ref_cnt again", "ref_cnt", None, 0, complete(5, 4))
        it.go("none at last", "none", None, 0, complete(5, 4))
        it.holds("none at last", "e")
    with three_in_a_row("a dropped file isn't missed, and neither counted, read nor removed where it is there again") as it:
        it.go("the run", "ref_cnt", 80, 0, complete(3, 2))
        records = it.records()
        cut = logs.kinds(records).index("dropped 0") + 1
        it.put(USUAL_LOG, logs.log_of(records[:cut]))
        del it.place.before[USUAL_LOG]
        it.put("b", FORTY)
        del it.place.before["b"]
        it.take("c")
        it.put("a", "what a crash brought back, and more than forty bytes of it")
        it.go("the resume", "ref_cnt", 80, 0, complete(3, 2), ["a"])
        del it.made["a"]
        it.call("the cleaning", 0, cleaned(1), words("ref_cnt", 80, "-c"), adds=["ended cleaned"])
        it.made = {}


def dropped_last(records):
    """The file of each drop behind which a run was cut off at once."""
    return [one.file for one, two in zip(records, records[1:]) if one.kind == "dropped" and two.kind == "resumed"]


def kills_amid_collection():
    """A kill between a drop and its removal leaves the file, whole. No other made file stays that isn't kept."""
    under, rules = memory_folder(), tree(leaves=LEAVES // 2, slow=True)
    # half as many leaves are merged in one step less, so one file less is held
    gone, bounds = len(rules) - 1, {outs[0]: BOUND for _, _, outs in rules}
    files, how = {"s": LINES, "flow": text_of(rules, bounds)}, words("ref_cnt", LEAST - SIZE)
    every = serial(rules, files)
    kept, names = {it: every[it] for it in (*files, "all")}, sorted({"s", *bounds})

    def judge(place):
        stay = lambda records: {names[it]: [every[names[it]]] for it in dropped_last(records)}
        return wrong_resume(place, rules, kept, how, gone, stay, bounds)

    place = Place(files, under)
    try:
        begun = time.monotonic()
        wrong = outcome(place.start(how), 0, complete(len(rules), gone))
        whole = time.monotonic() - begun
        if wrong or files_of(place) != kept:
            say("23 rules that write in two steps: -g ref_cnt", wrong or [f"it left {sorted(files_of(place))}"])
            return
        name, wrong = Kills(files, every, whole, under, place, judge, how, KILL_SECONDS).run()
        say(f"-g ref_cnt: {name}", wrong)
    finally:
        place.close()


def crashes_amid_collection():
    """A removed name may be there again, by what was on the disk, until its folder was synced."""
    rules = [("cat s > a", ["s"], ["a"]), ("cat a s > d/b; echo more > c", ["a", "s"], ["d/b", "c"]), ("cat d/b c > e", ["d/b", "c"], ["e"])]
    made = {"a": "abc\n", "d/b": "abc\nabc\n", "c": "more\n", "e": "abc\nabc\nmore\n"}
    files, names = {"s": "abc\n", "a": "an old file, which is longer", "e": "old"}, ["a", "c", "d/b", "e", "s"]
    bounds = {"a": 4, "d/b": 8, "c": 5, "e": 13}

    def stay(records):
        """Each file of a drop before the last opening."""
        begun = max(at for at, it in enumerate(records) if it.kind in ("opened", "resumed"))
        gone = [names[it.file] for it in records[:begun] if it.kind == "dropped"]
        return {it: [text.encode() for text in (made[it], files.get(it)) if text is not None] for it in gone}

    # the third rule runs beside its two inputs: 8 + 5 + 13 bytes
    Crashes(rules, files, made, ["e"], words("ref_cnt", 26), bounds, collected=3, stay=stay).run("what a crash may leave of a collection")


GROUPS = [collection, one_byte_less, limits, changed_modes, kills_amid_collection, crashes_amid_collection]
