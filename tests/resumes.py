"""Cases of the log: runs that go on, cleaning, the printed log, what is refused, and programs that meet."""
import fcntl
import os
import resource
import shutil
import struct
import subprocess
import time

import logs
from places import COMPLETE, FOLDER_FAULT, NOBODY, SECONDS, USER, USUAL_LOG, Place, complete, content_of, outcome, say, seen, short, text_of

ONE = [("cat in > out", ["in"], ["out"])]
TWO = [("cat in > a", ["in"], ["a"]), ("cat a > b", ["a"], ["b"])]
ONE_RUN = ["opened", "started 0 0", "done 0 0", "ended complete"]
AGAIN = ["resumed", "ended complete"]
OTHER_FLOW = "makeflow: the log is of another flow\n"
LOG_FULL = "makeflow: log full\n"
TAKEN = "makeflow: the log's name is in the flow\n"


def cleaned(files):
    return f"makeflow: cleaned, {files} files removed\n"


class Course:
    """Calls one after another in one place: `with Course(..) as it:`. All that is wrong is said together at its end, by
    the step. ROOM in a command is the folder around the place, where a command finds what no rule names."""

    def __init__(self, name, files, rules, made, log=USUAL_LOG, bounds=None, **how):
        self.name, self.made, self.log, self.found = name, made, log, []
        self.place = Place({"flow": "", **files}, **how)
        self.plan = [(command.replace("ROOM", self.place.room), inputs, outs) for command, inputs, outs in rules]
        self.rules, self.bounds, self.away = [(inputs, outs) for _, inputs, outs in rules], bounds or {}, ()
        if rules:
            self.put("flow", text_of(self.plan, self.bounds))

    def __enter__(self):
        return self

    def __exit__(self, kind, error, trace):
        try:
            if error:
                self.found.append(f"the test itself failed at line {trace.tb_lineno}: {error!r}")
            say(self.name, self.found + ([] if error else self.place.wrong(self.made)))
        finally:
            self.place.close()
        return isinstance(error, Exception)

    def path(self, name):
        return f"{self.place.work}/{name}"

    def put(self, name, content):
        """A file as the user writes it: from now on it has to stay so."""
        with open(self.path(name), "wb") as it:
            it.write(content.encode() if isinstance(content, str) else content)
        self.place.give()
        self.place.before[name] = seen(self.place.work)[name]

    def take(self, name):
        os.remove(self.path(name))
        self.place.before.pop(name, None)

    def beside(self, name):
        """Makes a file that commands find under ROOM."""
        with open(f"{self.place.room}/{name}", "w"):
            pass

    def data(self):
        return content_of(self.path(self.log)) if os.path.exists(self.path(self.log)) else b""

    def records(self):
        try:
            return logs.read(self.data())
        except logs.Damaged as it:
            self.found.append(str(it))
            return []

    def note(self, step, wrong):
        self.found += [f"{step}: {it}" for it in wrong]

    def looked(self):
        """All files but the log, touched or not."""
        return {name: it for name, it in seen(self.place.work).items() if name != self.log}

    def call(self, step, status, printed, words=("flow",), adds=None, **how):
        """One call. `adds` has what it appends to the log, which is legal then and is printed as it should be."""
        old = self.records()
        self.note(step, outcome(self.place.start(words, **how), status, printed))
        new = self.records()
        grown = logs.kinds(new[len(old):])
        if new[:len(old)] != old:
            self.note(step, [f"the log had {logs.kinds(old)} and has {logs.kinds(new)}"])
        elif adds is not None and grown != adds:
            self.note(step, [f"it logged {grown}, not {adds}"])
        bad = logs.illegal(new, self.rules, self.bounds, away=self.away)
        self.note(step, [bad] if bad else [])
        self.print_log(f"the log printed after {step}", words)

    def print_log(self, step, words=("flow",)):
        """The printed log is that of the records, and printing changes no file."""
        before, data = self.looked(), self.data()
        printed = logs.printed(self.records(), len(self.rules), logs.Store(self.rules).names)
        words = [it for it in words if it != "-c"]
        self.note(step, outcome(self.place.start(["--print-log", *words]), 0, printed))
        begun = self.data() != data and len(data) <= 9 and len(self.data()) == 9
        self.note(step, [] if self.looked() == before and (self.data() == data or begun) else ["it changed a file"])

    def refused(self, step, status, printed, words=("flow",), **how):
        """One call that changes no file, the log too."""
        before = seen(self.place.work)
        self.note(step, outcome(self.place.start(words, **how), status, printed))
        after = seen(self.place.work)
        self.note(step, [f"{it} was changed" for it in sorted({*before, *after}) if before.get(it) != after.get(it)])

    def refused_thrice(self, step, status, printed):
        """A run, a cleaning and a printed log are all refused so."""
        for words in (["flow"], ["-c", "flow"], ["--print-log", "flow"]):
            self.refused(f"{step}: {' '.join(words)}", status, printed, words)

    def stays(self, step, before):
        """Files that were looked at before are neither written again nor changed."""
        after = self.looked()
        self.note(step, [f"{it} was written again" for it in sorted({*before, *after}) if before.get(it) != after.get(it)])

    def wait(self, what, holds, seconds=SECONDS):
        until = time.monotonic() + seconds
        while not holds():
            if time.monotonic() > until:
                raise TimeoutError(f"{what} didn't come within {seconds} seconds")
            time.sleep(0.02)


def finished():
    with Course("a run, its log byte for byte, a resume, a cleaning and a run again", {"in": "abc"}, ONE, {"out": b"abc"}) as it:
        begun = time.time_ns() // 1000
        it.call("the run", 0, COMPLETE, adds=ONE_RUN)
        ended = time.time_ns() // 1000
        moments = [found.moment for found in it.records()]
        it.note("the log", [] if moments == sorted(moments) else [f"its moments are {moments}"])
        it.note("the log", [] if begun <= moments[0] and moments[-1] <= ended else [f"its moments {moments} aren't between {begun} and {ended}"])
        content = logs.content(b"abc")
        wanted = [logs.record("opened", moments[0], run=0, retries=0, limit=None, plan=logs.plan_digest(ONE, ["in", "out"]), sources=[content]),
                  logs.record("started", moments[1], rule=0, attempt=0, link=0), logs.record("done", moments[2], rule=0, attempt=0, outs=[content]),
                  logs.record("ended", moments[3], end="complete")]
        it.note("the log", [] if it.data() == logs.log_of(wanted) and len(it.data()) == 227 else [f"its {len(it.data())} bytes are {it.data().hex()}"])
        before, data = it.looked(), it.data()
        it.call("the resume", 0, COMPLETE, adds=AGAIN)
        it.note("the resume", [] if it.data()[:226] == data[:226] else ["it changed what stood in the log"])
        it.stays("the resume", before)
        it.call("a third run", 0, COMPLETE, adds=AGAIN)
        it.call("the cleaning", 0, cleaned(1), ("-c", "flow"), adds=["ended cleaned"])
        it.note("the cleaning", ["out is still there"] if os.path.exists(it.path("out")) else [])
        it.call("a second cleaning", 0, cleaned(0), ("-c", "flow"), adds=[])
        it.call("the run again", 0, COMPLETE, adds=["opened", "started 0 1", "done 0 1", "ended complete"])
    with open("/dev/full", "wb") as full, Course("a printed log and a cleaning that nobody hears of", {"in": "abc"}, ONE, {}) as it:
        it.call("the run", 0, COMPLETE)
        it.refused("a printed log", 5, "", ("--print-log", "flow"), stdout=full)
        it.call("the cleaning", 5, "", ("-c", "flow"), adds=["ended cleaned"], stdout=full)
    with Course("no rules", {}, [], {}) as it:
        it.call("the run", 0, complete(0), adds=["opened", "ended complete"])
        it.call("the cleaning", 0, cleaned(0), ("-c", "flow"), adds=["ended cleaned"])
    with Course("a cleaning and a printed log before any run", {}, ONE, {}) as it:
        it.print_log("without a log")
        it.call("the cleaning", 0, cleaned(0), ("-c", "flow"), adds=[])


def failures():
    pair = [TWO[0], ("test -e ROOM/go && cat a > b", ["a"], ["b"])]
    with Course("a resume after a failed rule", {"in": "abc"}, pair, {"a": b"abc", "b": b"abc"}) as it:
        it.call("the run", 1, "makeflow: rule 1 failed: status 1\n", adds=["opened", "started 0 0", "done 0 0", "started 1 1", "failed 1 1", "ended failed"])
        before = it.looked()
        it.call("the same again", 1, "makeflow: rule 1 failed: status 1\n", adds=["resumed", "started 1 2", "failed 1 2", "ended failed"])
        it.stays("the same again", before)
        it.beside("go")
        it.call("the resume", 0, complete(2), adds=["resumed", "started 1 3", "done 1 3", "ended complete"])
        it.stays("the resume", {**before, "b": it.looked().get("b")})
    tries = [("echo x >> ROOM/tries; test `wc -l < ROOM/tries` -ge 3 && cat in > out", ["in"], ["out"])]
    with Course("-r 2 and a command that works the third time", {"in": "abc"}, tries, {"out": b"abc"}) as it:
        it.call("the run", 0, COMPLETE, ("-r", "2", "flow"),
                adds=["opened", "started 0 0", "failed 0 0", "started 0 1", "failed 0 1", "started 0 2", "done 0 2", "ended complete"])
    with Course("-r 1 counts anew in each run", {"in": "abc"}, [("exit 3", ["in"], ["out"])], {}) as it:
        for first in (0, 2):
            it.call(f"the run of the attempts {first} and {first + 1}", 1, "makeflow: rule 0 failed: status 3\n", ("-r", "1", "flow"),
                    adds=["resumed" if first else "opened", f"started 0 {first}", f"failed 0 {first}", f"started 0 {first + 1}", f"failed 0 {first + 1}", "ended failed"])
    with Course("a missing and a too long output in the log", {"in": "abc"}, [], {}) as it:
        it.rules = [(["in"], ["out"])]
        it.put("flow", f".SIZE out 3\nout: in\n\tif test -e {it.place.room}/long; then cat in in | head -c 4 > out; fi\n")
        it.call("a missing output", 1, "makeflow: rule 0 failed: output out missing\n")
        it.beside("long")
        it.call("a too long output", 1, "makeflow: rule 0 failed: output out too long, 4 bytes\n")
        whys = [found.why for found in it.records() if found.kind == "failed"]
        it.note("the log", [] if whys == [(2, 0), (3, 0, 4)] else [f"rule 0 failed by {whys}"])
    with Course("a runner's fault loses the attempt, and the next run goes on", {"in": "abc"}, TWO, {"a": b"abc", "b": b"abc"}) as it:
        it.call("without a temporary folder", 5, "makeflow: runner fault\n", env={"TMPDIR": "/nowhere"}, adds=["opened", "started 0 0", "lost 0 0"])
        it.call("the resume", 0, complete(2), adds=["resumed", "started 0 1", "done 0 1", "started 1 2", "done 1 2", "ended complete"])


def log_names():
    with Course("a log of another name", {"in": "abc"}, ONE, {"out": b"abc"}, log="other.log") as it:
        it.made["other.log"] = None
        it.call("the run", 0, COMPLETE, ("-l", "other.log", "flow"), adds=ONE_RUN)
        it.call("the resume", 0, COMPLETE, ("-l", "other.log", "flow"), adds=AGAIN)
        it.note("-l other.log", [f"{USUAL_LOG} was made"] if os.path.exists(it.path(USUAL_LOG)) else [])
        it.log = USUAL_LOG
        it.call("the run by its usual log", 0, COMPLETE, adds=ONE_RUN)
        it.log = "other.log"
        it.call("the cleaning", 0, cleaned(1), ("-c", "-l", "other.log", "flow"), adds=["ended cleaned"])
        it.refused("the file gone by one log is missed by the other", 4, "makeflow: file out damaged\n")
        it.call("the run again", 0, COMPLETE, ("-l", "other.log", "flow"), adds=["opened", "started 0 1", "done 0 1", "ended complete"])
        it.made["other.log"] = it.data()
    with Course("a log in a folder that isn't there", {"in": "abc"}, ONE, {"out": b"abc", "logs": None, "logs/deep": None}, log="logs/deep/x.makeflowlog") as it:
        it.call("the run", 0, COMPLETE, ("-l", "./logs//deep/x.makeflowlog", "flow"), adds=ONE_RUN)
        it.call("the resume", 0, COMPLETE, ("-l", "logs/deep/x.makeflowlog", "flow"), adds=AGAIN)
    with Course("the log's name is in the flow", {"in": "abc"}, [("cat in > sub/out", ["in"], ["sub/out"])], {}) as it:
        for name in ["flow", "in", "sub/out", "./sub//out", "sub", "sub/out/log", "in/log", "flow/log"]:
            for more in [], ["-c"], ["--print-log"]:
                it.refused(f"-l {name} {' '.join(more)}", 3, TAKEN, (*more, "-l", name, "flow"))
    with Course("a rule makes the usual log", {"in": "abc"}, [("cat in > out", ["in"], [USUAL_LOG])], {}) as it:
        it.refused("the run", 3, TAKEN)


def other_files():
    """What isn't as the log says, or a log that isn't one of this flow: refused, and nothing is changed."""
    with Course("a changed source", {"in": "abc"}, ONE, {"out": b"abc"}) as it:
        it.call("the run", 0, COMPLETE)
        for content in ["abd", "abcd", ""]:
            it.put("in", content)
            it.refused(f"{content!r} for 'abc'", 4, "makeflow: source in changed\n")
        it.take("in")
        it.refused("no source", 4, "makeflow: source in missing\n")
        it.print_log("the log printed without the source")
        it.put("in", "abc")
        it.call("the old source", 0, COMPLETE, adds=AGAIN)
        it.put("in", "abd")
        it.call("the cleaning with the new source", 0, cleaned(1), ("-c", "flow"), adds=["ended cleaned"])
        it.call("the run", 0, COMPLETE, adds=["opened", "started 0 1", "done 0 1", "ended complete"])
        it.made["out"] = b"abd"
    changing = [("printf abd > ROOM/work/more; cat in > a", ["in"], ["a"]), ("cat a more > b", ["a", "more"], ["b"])]
    with Course("a source that changes amid a run", {"in": "abc", "more": "abc"}, changing, {"a": b"abc", "more": b"abd"}) as it:
        it.call("the run", 4, "makeflow: source more changed\n", adds=["opened", "started 0 0", "done 0 0", "started 1 1", "lost 1 1"])
    with Course("a changed flow", {"in": "abc"}, ONE, {"out": b"abc"}) as it:
        it.call("the run", 0, COMPLETE)
        for text in ["out: in\n\tcat in in > out\n", "out: in\n\tcat in  > out\n", "out more: in\n\tcat in > out\n", "export A=1\nout: in\n\tcat in > out\n",
                     ".SIZE out 9\nout: in\n\tcat in > out\n", "out: in->it\n\tcat in > out\n", ""]:
            it.put("flow", text)
            it.refused_thrice(repr(text), 4, OTHER_FLOW)
        it.put("flow", "# a comment, needs and a place may change\n.MAKEFLOW CORES 2\nX=out\n$X: ./in\n\tLOCAL cat in > $X\n")
        it.call("the same plan", 0, COMPLETE, adds=AGAIN)
    with Course("a damaged output", {"in": "abc"}, ONE, {"out": b"abc"}) as it:
        it.call("the run", 0, COMPLETE)
        for content in ["abcd", "ab", ""]:
            it.put("out", content)
            it.refused(f"{content!r} for 'abc'", 4, "makeflow: file out damaged\n")
        it.take("out")
        it.refused("no output", 4, "makeflow: file out damaged\n")
        it.call("the cleaning", 0, cleaned(1), ("-c", "flow"), adds=["ended cleaned"])
        it.call("the run again", 0, COMPLETE, adds=["opened", "started 0 1", "done 0 1", "ended complete"])
    pair = [TWO[0], ("test -e ROOM/go && cat a > b", ["a"], ["b"])]
    with Course("one byte of an output that a rule still takes in", {"in": "abc"}, pair, {"a": b"abc", "b": b"abc"}) as it:
        it.call("the run", 1, "makeflow: rule 1 failed: status 1\n")
        it.put("a", "abd")
        it.beside("go")
        it.call("the resume", 4, "makeflow: file a damaged\n", adds=["resumed", "started 1 2", "lost 1 2"])
        it.call("the cleaning", 0, cleaned(1), ("-c", "flow"), adds=["ended cleaned"])
        it.call("the run again", 0, complete(2), adds=["opened", "started 0 3", "done 0 3", "started 1 4", "done 1 4", "ended complete"])
    with Course("one byte of an output that no rule takes in any more", {"in": "abc"}, ONE, {"out": b"abd"}) as it:
        it.call("the run", 0, COMPLETE)
        it.put("out", "abd")
        it.call("the resume", 0, COMPLETE, adds=AGAIN)
    with Course("of a changed source and a damaged output the least file by name is told", {"z": "abc"}, [("cat z > a", ["z"], ["a"])], {"a": b""}) as it:
        it.call("the run", 0, COMPLETE)
        it.put("a", "")
        it.put("z", "abd")
        it.refused("both", 4, "makeflow: file a damaged\n")


def cleanings():
    with Course("a cleaning removes what the log says was made", {"in": "abc", "b": "the user's own", "more": "beside"}, [TWO[0], ("exit 1", ["a"], ["b"])], {}) as it:
        it.call("the run", 1, "makeflow: rule 1 failed: status 1\n")
        it.call("the cleaning", 0, cleaned(1), ("-c", "flow"), adds=["ended cleaned"])
    with Course("a cleaning of files in folders, one of them gone", {"in": "abc"}, [("cat in > d/a; cat in > d/e/b", ["in"], ["d/a", "d/e/b"])], {"d": None, "d/e": None}) as it:
        it.call("the run", 0, COMPLETE)
        os.remove(it.path("d/a"))
        it.call("the cleaning", 0, cleaned(2), ("-c", "flow"), adds=["ended cleaned"])
    with Course("a cleaning of a part that failed, then of the next one", {"in": "abc"}, TWO, {}) as it:
        for first in (0, 2):
            it.call("the run", 0, complete(2), adds=["opened", f"started 0 {first}", f"done 0 {first}", f"started 1 {first + 1}", f"done 1 {first + 1}", "ended complete"])
            it.call("the cleaning", 0, cleaned(2), ("-c", "flow"), adds=["ended cleaned"])
    with Course("both -c and --print-log", {"in": "abc"}, ONE, {}) as it:
        it.refused("the call", 2, "makeflow: usage: makeflow [options] FILE\n", ("-c", "--print-log", "flow"))


def damaged_logs():
    with Course("a damaged log", {"in": "abc"}, ONE, {"out": b"abc"}) as it:
        it.call("the run", 0, COMPLETE)
        whole = it.data()

        def broken(step, data, at):
            it.put(USUAL_LOG, data)
            it.refused_thrice(step, 4, f"makeflow: log damaged at {at}\n")

        broken("ten bytes of x", b"x" * 10, 0)
        broken("another header", b"MFLOG02\n" + whole[8:], 0)
        broken("a length that is greater by one", whole[:145] + bytes([whole[145] + 1]) + whole[146:], 141)
        broken("an unknown kind", whole[:116] + b"\x09" + whole[117:], 111)
        broken("an open gate at the end", whole[:-1] + b"\1", 226)
        for size, at in [(10, 8), (110, 8), (111, 111), (140, 111), (141, 141), (210, 141), (211, 211), (225, 211), (226, 226)]:
            broken(f"cut to {size} bytes", whole[:size], at)
        records = logs.read(whole)
        for step, wrong, at in [("an end before the last rule", [records[0], records[3]], 1), ("a file made twice", [*records[:3], records[2]], 3), ("no opening", records[1:], 0),
                                ("an attempt left out", [records[0], logs.record("started", 0, rule=0, attempt=1, link=0)], 1)]:
            it.put(USUAL_LOG, logs.log_of(wrong))
            it.refused_thrice(step, 4, f"makeflow: log record {at} is not allowed\n")
        it.put(USUAL_LOG, whole)
        it.call("the whole log again", 0, COMPLETE, adds=AGAIN)
        it.put(USUAL_LOG, whole + b"more")
        it.call("bytes behind its end", 0, COMPLETE, adds=AGAIN)
        for size in (0, 1, 8, 9):
            it.put(USUAL_LOG, whole[:size])
            it.call(f"cut to {size} bytes", 0, COMPLETE, adds=ONE_RUN)
    with Course("a folder for the log", {"in": "abc", USUAL_LOG: os.mkdir}, ONE, {}) as it:
        it.refused_thrice("each", 5, FOLDER_FAULT)


def programs_that_meet():
    slow = [TWO[0], ("while ! test -e ROOM/go; do sleep 0.05; done; cat a > b", ["a"], ["b"])]
    with Course("two programs on one flow at once", {"in": "abc"}, slow, {"a": b"abc", "b": b"abc"}) as it:
        first = it.place.start()
        try:
            it.wait("the start of rule 1", lambda: "started 1 1" in logs.kinds(logs.read(it.data())))
            time.sleep(0.3)
            jobs = sorted(os.listdir(it.place.tmp))
            it.refused("a second run", 5, FOLDER_FAULT)
            it.refused("a cleaning", 5, FOLDER_FAULT, ("-c", "flow"))
            it.print_log("the printed log beside the run")
            it.note("beside the run", [] if sorted(os.listdir(it.place.tmp)) == jobs else [f"the jobs' folders were {jobs} and are {os.listdir(it.place.tmp)}"])
            it.beside("go")
            it.note("the first run", outcome(first, 0, complete(2)))
        finally:
            it.beside("go")
            if first.poll() is None:
                first.kill()
                first.communicate()
        it.call("a run behind it", 0, complete(2), adds=AGAIN)
    with Course("two programs that begin together", {"in": "abc"}, [("sleep 1; cat in > out", ["in"], ["out"])], {"out": b"abc"}) as it:
        runs = [it.place.start() for _ in range(4)]
        ends = [(run.communicate(timeout=SECONDS)[0], run.returncode) for run in runs]
        one, refused = (COMPLETE.encode(), 0), (FOLDER_FAULT.encode(), 5)
        it.note("four of them", [] if ends.count(one) == 1 and ends.count(refused) == 3 else [f"they ended as {ends}"])
        it.call("a run behind them", 0, COMPLETE, adds=AGAIN)


def dead_programs():
    """What a program of this host and user left goes, which holds it no more, and nothing else. What process has its number
    by now tells nothing: it may be another one's, and in a container each program has a number of its own."""
    with open("/proc/sys/kernel/hostname") as it:
        host = it.read().strip()
    dead, held, alive = 4_294_967_295, 4_294_967_294, os.getpid()

    def part(name, where, process):
        return f".{name}.{where}.{process}.makeflow-part"

    gone = [part("out", host, dead), part("x.y", host, dead), part("out", host, alive), "sub/" + part("out", host, dead)]
    stay = [part("out", f"not-{host}", dead), part("out", host, held), f".out.{host}.x.makeflow-part", f"out.{host}.{dead}.makeflow-part", f".out.{host}.{dead}.makeflow-parts"]
    rules = [("cat in > out; cat in > sub/out", ["in"], ["out", "sub/out"])]
    with Course("files and folders of dead programs", {"in": "abc", **{it: "left" for it in gone + stay}}, rules, {"out": b"abc", "sub/out": b"abc"}) as it:
        folders = {f"makeflow-{host}-{dead}-0": False, f"makeflow-{host}-{dead}-17": False, f"makeflow-{host}-{alive}-0": False, f"makeflow-not-{host}-{dead}-0": True,
                   f"makeflow-{host}-{held}-0": True, f"makeflow-{host}-{dead}-0x": True, f"makeflow-{host}-{dead}": True}
        for name in folders:
            os.makedirs(f"{it.place.tmp}/{name}/closed")
            os.chmod(f"{it.place.tmp}/{name}/closed", 0)
        it.place.give()
        holds = [os.open(path, os.O_RDONLY) for path in (it.path(part("out", host, held)), f"{it.place.tmp}/makeflow-{host}-{held}-0")]
        for hold in holds:
            fcntl.flock(hold, fcntl.LOCK_EX)
        it.call("the run", 0, COMPLETE, adds=ONE_RUN)
        for hold in holds:
            os.close(hold)
        for name in gone:
            it.note("the run", [f"{name} is still there"] if os.path.exists(it.path(name)) else [])
            it.place.before.pop(name)
        for name, stays in folders.items():
            it.note("the run", [] if os.path.exists(f"{it.place.tmp}/{name}") == stays else [f"the folder {name} {'is gone' if stays else 'is still there'}"])
            if os.path.exists(f"{it.place.tmp}/{name}"):
                os.chmod(f"{it.place.tmp}/{name}/closed", 0o700)
                shutil.rmtree(f"{it.place.tmp}/{name}")


def old_files():
    """What stood under the name of an output before."""
    def with_mode(mode, text):
        def make(path):
            with open(path, "w") as it:
                it.write(text)
            os.chmod(path, mode)
        return make

    for text in ["old", "old, and longer than what comes"]:
        with Course(f"the mode of an old output stays: {text!r}", {"in": "abc", "out": with_mode(0o750, text)}, ONE, {"out": b"abc"}) as it:
            it.call("the run", 0, COMPLETE)
            mode = os.stat(it.path("out")).st_mode & 0o7777
            it.note("the run", [] if mode == 0o750 else [f"its mode is {mode:o}"])
    for name, files in [("to a file", {"at/real": "old"}), ("to nothing", {"at/more": ""})]:
        with Course(f"an output whose name is a link {name}", {"in": "abc", **files, "out": lambda path: os.symlink("at/real", path)}, ONE, {"at/real": b"abc"}) as it:
            it.call("the run", 0, COMPLETE)
            it.call("the resume", 0, COMPLETE, adds=AGAIN)
    with Course("a name as long as may be", {"in": "abc"}, [(f"cat in > {'n' * 255}", ["in"], ["n" * 255])], {"n" * 255: b"abc"}) as it:
        it.call("the run", 0, COMPLETE)


def long_words():
    many = 200_000
    odd = "\\ \"so\" 'it' `x` $HOME "
    for name, text, made in [
        ("a long command", f"out: in\n\tcat in > out; printf %s \"{'x' * many}\" >> out\n", b"abc" + b"x" * many),
        ("a long command in a folder's place", f"d/out: in->d/it\n\tcd d; cat it > out # {'x' * many}\n", b"abc"),
        ("a long command with an empty input", f"out: in\n\tcat - in > out; : {'x' * many}\n", b"abc"),
        ("a long variable", f"A={'x' * many}\nexport A\nout: in\n\tprintf %s \"$$A\" > out\n", b"x" * many),
        ("a long variable of odd characters", f"A={odd.replace('$', '$$')}{'x' * many}\nexport A\nout: in\n\tprintf %s \"$$A\" > out\n", (odd + "x" * many).encode()),
        ("a long variable and a long command", f"A={'y' * many}\nexport A\nout: in\n\tprintf %s \"$${{A}}{'x' * many}\" > out\n", b"y" * many + b"x" * many),
    ]:
        place = Place({"flow": text, "in": "abc"})
        try:
            wrong = outcome(place.start(), 0, COMPLETE)
            out = "d/out" if "d/out" in text else "out"
            say(name, wrong + place.wrong({out: made, **({"d": None} if out != "out" else {})}) + place.wrong_logs(0))
        finally:
            place.close()
    with Course("a long command that fails", {"in": "abc"}, [(f"exit 7 # {'x' * many}", ["in"], ["out"])], {}) as it:
        it.call("the run", 1, "makeflow: rule 0 failed: status 7\n", adds=["opened", "started 0 0", "failed 0 0", "ended failed"])


def mounted(folder, size):
    """Mounts a small disk there, where this user can."""
    settings = f"size={size},mode=755,uid={NOBODY if USER else 0}"
    return os.geteuid() == 0 and not subprocess.run(["mount", "-t", "tmpfs", "-o", settings, "tmpfs", folder], capture_output=True).returncode


def fill(path, leave):
    """Takes all room of a disk but so many bytes."""
    data = os.statvfs(os.path.dirname(path))
    with open(path, "wb") as it:
        it.write(bytes(max(0, data.f_bavail * data.f_frsize - leave)))


def full_disk(it, rules, files, left):
    """Runs over a full disk, then over one with room."""
    it.rules = [(inputs, outs) for _, inputs, outs in rules]
    for name, content in {**files, "flow": text_of(rules)}.items():
        it.put(name, content)
    fill(it.path("filler"), left)
    it.note("the run", outcome(it.place.start(), 5, FOLDER_FAULT))
    held, reached = seen(it.place.work), it.records()
    it.note("the run", [f"it left {name}" for name in held if name.endswith("makeflow-part")])
    for name, content in it.made.items():
        if name in held and held[name][-1] not in (content, files.get(name, "").encode()):
            it.note("the run", [f"{name} is half written: {short(held[name][-1])}"])
    it.note("a second run", outcome(it.place.start(), 5, FOLDER_FAULT))
    os.remove(it.path("filler"))
    it.call("the resume", 0, complete(len(rules)))
    done = {found.rule for found in reached if found.kind == "done"}
    again = {found.rule for found in it.records()[len(reached):] if found.kind == "started"}
    it.note("the resume", [f"rule {rule} ran again" for rule in sorted(done & again)])
    it.note("the files", it.place.wrong(it.made))
    return len(reached)


def full_disks():
    """A small disk, filled so that only the log's first bytes, its later ones, or an output don't fit."""
    many = [(f": > o{it}", [f"o{it - 1}"] if it else [], [f"o{it}"]) for it in range(200)]
    large = [TWO[0], ("head -c 300000 /dev/zero > b", ["a"], ["b"])]
    for name, rules, files, left, least, made in [
        ("the log's first bytes", ONE, {}, 0, 0, {"out": b"abc"}),
        ("the log", many, {}, 12_288, 50, {f"o{it}": b"" for it in range(200)}),
        ("an output", large, {"b": "old"}, 65_536, 4, {"a": b"abc", "b": bytes(300_000)}),
    ]:
        files = {"in": "abc", **files}
        with Course(f"a disk too full for {name}", files, [], made) as it:
            if not mounted(it.place.work, 1_048_576):
                it.name, it.made = f"{it.name}: skipped, no disk can be mounted", {}
                continue
            try:
                reached = full_disk(it, rules, files, left)
                it.note("the run", [] if reached >= least else [f"only {reached} records were logged"])
            finally:
                subprocess.run(["umount", "-l", it.place.work], capture_output=True)
                it.made, it.place.before = {}, seen(it.place.work)


def large_log(rules):
    """A log of 1,000,000 records, and as it is printed: each rule in turn is started and lost, then each is done."""
    pairs = (logs.MOST_RECORDS - 2 - 2 * rules) // 2
    plan = logs.plan_digest([(f": > o{it}", [], [f"o{it}"]) for it in range(rules)], sorted(f"o{it}" for it in range(rules)))
    begun, done = struct.Struct(">BIBQIQI"), struct.Struct(">BIBQIQIQ32s")
    lost, (size, digest) = struct.Struct(">BIBQIQ"), logs.content(b"")
    opened = logs.record("opened", 1, run=0, retries=0, limit=None, plan=plan, sources=[])
    parts, lines = [logs.HEADER, logs.entry(opened)], ["# opened run 0"]
    for at in range(pairs):
        rule = at % rules
        parts += [begun.pack(1, 25, 3, at, rule, at, 0), lost.pack(1, 21, 6, at, rule, at)]
        lines += [f"{at} {rule} 1 {at} {rules - 1} 1 0 0 0 {rules}", f"{at} {rule} 0 {at} {rules} 0 0 0 0 {rules}"]
    for rule in range(rules):
        at = pairs + rule
        parts += [begun.pack(1, 25, 3, at, rule, at, 0), done.pack(1, 65, 4, at, rule, at, 1, size, digest)]
        lines += [f"{at} {rule} 1 {at} {rules - rule - 1} 1 {rule} 0 0 {rules}", f"{at} {rule} 2 {at} {rules - rule - 1} 0 {rule + 1} 0 0 {rules}"]
    parts += [logs.entry(logs.record("ended", 2, end="complete")), b"\0"]
    lines += ["# ended complete", ""]
    return b"".join(parts), "\n".join(lines)


def large_logs():
    """The processor time of each call is bounded, since the machine may be busy."""
    rules, bound, times = 2000, 20, {}
    data, printed = large_log(rules)
    place = Place({"flow": text_of([(f": > o{it}", [], [f"o{it}"]) for it in range(rules)]), USUAL_LOG: data, **{f"o{it}": "" for it in range(rules)}})
    wrong = []

    def call(step, status, wanted, words):
        before = resource.getrusage(resource.RUSAGE_CHILDREN)
        found = outcome(place.start(words), status, wanted, seconds=4 * bound)
        after = resource.getrusage(resource.RUSAGE_CHILDREN)
        times[step] = after.ru_utime + after.ru_stime - before.ru_utime - before.ru_stime
        wrong.extend(f"{step}: {it}" for it in found + ([f"it took {times[step]:.1f} seconds of a processor"] if times[step] > bound else []))

    try:
        log = f"{place.work}/{USUAL_LOG}"
        call("printed", 0, printed, ("--print-log", "flow"))
        call("a run refused", 9, LOG_FULL, ("flow",))
        call("a cleaning refused", 9, LOG_FULL, ("-c", "flow"))
        wrong += [] if content_of(log) == data else ["the log was changed"]
        wrong += [] if os.path.exists(f"{place.work}/o0") else ["a file was removed"]
        os.truncate(log, len(data) - 16)
        with open(log, "r+b") as it:
            it.seek(len(data) - 16)
            it.write(b"\0")
        call("a run refused at 999,999", 9, LOG_FULL, ("flow",))
        call("cleaned", 0, cleaned(rules), ("-c", "flow"))
        call("printed behind the cleaning", 0, "", ("--print-log", "flow"))
        left = [it for it in os.listdir(place.work) if it.startswith("o")]
        wrong += [f"{len(left)} files are left"] if left else []
        shown = ", ".join(f"{step} {took:.1f}" for step, took in times.items())
        say(f"a log of 1,000,000 records (seconds of a processor: {shown})", wrong)
    finally:
        place.close()


GROUPS = [finished, failures, log_names, other_files, cleanings, damaged_logs, programs_that_meet, dead_programs, old_files, long_words, full_disks, large_logs]
