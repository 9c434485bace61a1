"""Cases of makeflow -T wq: the built makeflow with built workers on this machine. An idle look comes once a second."""
import os
import random
import re
import signal
import socket
import subprocess
import threading
import time

import logs
from jobs import MEET
from places import COMPLETE, MEBI, MOST, PROGRAM, SECONDS, Place, complete, content_of, outcome, say, short, text_of
from resumes import AGAIN, ONE, ONE_RUN, Course, cleaned
from workers import BYE, HOST, OWN_SECONDS, WORKER

NETWORK_FAULT = "makeflow: network fault\n"
NO_MASTER = (4, 5)
MOST_LINKS = 32
WAIT = "touch ROOM/up.{0}; while [ ! -e ROOM/go ]; do sleep 0.05; done; echo {0} > o{0}"


GIVEN = set()


def free_port():
    """A port at which nobody listens, from below those that the system gives to who dials. None is given twice, since who got it may not
    listen yet."""
    for port in random.sample(range(20_000, 30_000), 5_000):
        with socket.socket() as it:
            try:
                it.bind(("", port))
            except OSError:
                continue
            if port not in GIVEN:
                GIVEN.add(port)
                return port
    raise OSError("no port is free")


def listens(port):
    """Whether somebody listens at the port, as the system tells, so that nobody has to knock."""
    rows = [it.split() for it in content_of("/proc/net/tcp").decode().splitlines()[1:]]
    return any(row[3] == "0A" and int(row[1].rsplit(":", 1)[1], 16) == port for row in rows)


class Restarted:
    """A worker that is started again whenever it ends for want of its master, as by a loop of the shell."""

    def __init__(self, farm, *words, again=NO_MASTER):
        self.farm, self.words, self.again, self.ends, self.over = farm, words, again, [], False
        self.thread = threading.Thread(target=self.loop, daemon=True)
        self.thread.start()

    def loop(self):
        while not self.over:
            started = self.farm.worker(*self.words)
            out, err = started.communicate()
            self.ends.append((started.returncode, out, err))
            if started.returncode not in self.again:
                return
            time.sleep(0.1)

    def wrong(self):
        """What is wrong, but that its last worker ended since the work was over."""
        self.thread.join(SECONDS)
        if self.thread.is_alive():
            return ["it is still started again"]
        return [] if self.ends[-1] == (0, BYE.encode(), b"") else [f"its last worker ended with {self.ends[-1]}"]


class Farm(Course):
    """A course whose rules run at workers, but those of the numbers in `local`. Each rule is of so many cores, or, where that is
    None, of a whole worker. What it starts is ended with it."""

    def __init__(self, name, files, rules, made, local=(), cores=1, head="", **how):
        super().__init__(name, files, rules, made, **how)
        self.away = [it for it in range(len(rules)) if it not in local]
        self.put("flow", head + (f".MAKEFLOW CORES {cores}\n" if cores is not None else "") + text_of(self.plan, self.bounds))
        self.place.put(f"{os.path.dirname(PROGRAM)}/{WORKER}", f"{self.place.room}/{WORKER}")
        self.place.give()
        self.port, self.started, self.loops, self.begun = free_port(), [], [], {}

    def __exit__(self, kind, error, trace):
        for loop in self.loops:
            loop.over = True
        for it in list(self.started):
            if it.poll() is None:
                self.found += [] if error else [f"{os.path.basename(it.args[0])} had to be killed"]
                self.kill(it)
        return super().__exit__(kind, error, trace)

    def begin(self, words, program="makeflow", **how):
        started = self.place.start(words, program=program, **how)
        self.started.append(started)
        self.begun[started.pid] = time.monotonic()
        return started

    def master(self, *words, flow=("flow",), **how):
        """A run at workers that come to the port. It listens when this returns, unless it has ended."""
        started = self.begin(("-T", "wq", "-p", str(self.port), *words, *flow), **how)
        self.wait("the port", lambda: listens(self.port) or started.poll() is not None)
        return started

    def worker(self, *words, **how):
        return self.begin((*words, HOST, str(self.port)), WORKER, **how)

    def restarted(self, *words, **how):
        self.loops.append(Restarted(self, *words, **how))
        return self.loops[-1]

    def elsewhere(self):
        """A temporary folder that may keep what a killed worker leaves."""
        path = f"{self.place.room}/elsewhere"
        if not os.path.isdir(path):
            os.mkdir(path)
            self.place.give()
        return {"TMPDIR": path}

    @staticmethod
    def kill(started):
        """Ends a program and its commands at once."""
        try:
            os.killpg(started.pid, signal.SIGKILL)
        except ProcessLookupError:
            pass
        try:
            started.communicate(timeout=SECONDS)
        except ValueError:
            # Who starts it again reads what it prints already.
            pass

    def there(self, *names):
        return all(os.path.exists(f"{self.place.room}/{it}") for it in names)

    def is_logged(self, *wanted):
        return set(wanted) <= set(logs.kinds(self.records()))

    def links(self):
        """The link of each attempt, in the order of the starts."""
        return [it.link for it in self.records() if it.kind == "started"]

    def logged(self, step, adds=None):
        """The log is one, and has these records, in any order where attempts run beside one another."""
        records = self.records()
        bad = logs.illegal(records, self.rules, self.bounds, away=self.away)
        self.note(step, [bad] if bad else [])
        self.note(step, [] if adds is None or sorted(logs.kinds(records)) == sorted(adds) else [f"it logged {logs.kinds(records)}, not {adds}"])
        self.print_log(f"the log printed after {step}")

    def ends(self, step, started, status, printed, adds=None):
        self.note(step, outcome(started, status, printed))
        self.logged(step, adds)

    def waits(self, step, started, limit, rule, adds=None):
        """It ends since nobody came who can run this rule, after as many idle looks as the limit says, and at most one a second."""
        try:
            out, err = started.communicate(timeout=SECONDS)
        except subprocess.TimeoutExpired:
            self.note(step, [f"it had not ended after {SECONDS} seconds"])
            return
        told = re.fullmatch(rb"makeflow: waited, ([0-9]+) idle, rule ([0-9]+)\n", out)
        most = int(time.monotonic() - self.begun[started.pid]) + 2
        right = started.returncode == 7 and not err and told and limit <= int(told[1]) <= most and int(told[2]) == rule
        self.note(step, [] if right else [f"status {started.returncode}, printed {short(out)}, {short(err)}, for {limit} to {most} idle looks and rule {rule}"])
        self.logged(step, adds)

    def byes(self, *workers):
        for at, it in enumerate(workers):
            self.note(f"worker {at}", outcome(it, 0, BYE))

    def gone(self, *workers):
        """They ended since their master left them."""
        for at, it in enumerate(workers):
            try:
                out, err = it.communicate(timeout=SECONDS)
                self.note(f"worker {at}", [] if it.returncode in NO_MASTER and not err else [f"status {it.returncode}, printed {short(out)}, {short(err)}"])
            except subprocess.TimeoutExpired:
                self.note(f"worker {at}", ["it had not ended"])


def own_seconds(started):
    """The processor time that a program itself took, without its commands."""
    ticks = content_of(f"/proc/{started.pid}/stat").decode().rsplit(")", 1)[1].split()[11:13]
    return sum(map(int, ticks)) / os.sysconf("SC_CLK_TCK")


def wq_first():
    """A master and a worker that is there first, and what needs no worker."""
    with Farm("a worker is started again until its master listens", {"in": "abc"}, ONE, {"out": b"abc"}, cores=None) as it:
        loop = it.restarted(again=(5,))
        it.wait("an end", lambda: loop.ends)
        it.ends("the run", it.master(), 0, COMPLETE, ONE_RUN)
        it.note("the worker", loop.wrong() + ([] if loop.ends[0] == (5, f"{WORKER}: fault\n".encode(), b"") else [f"its first end was {loop.ends[0]}"]))
        it.note("the log", [] if it.links() == [1] else [f"the links are {it.links()}"])
        it.ends("a call of a finished flow, with no worker", it.master(), 0, COMPLETE, ONE_RUN + AGAIN)
        it.ends("a call without workers", it.begin(("flow",)), 0, COMPLETE, ONE_RUN + 2 * AGAIN)
        it.note("the cleaning", outcome(it.begin(("-T", "wq", "-p", str(it.port), "-c", "flow")), 0, cleaned(1)))
        it.made = {}

    with Farm("the log is printed with no worker", {"in": "abc"}, ONE, {}) as it:
        it.note("the call", outcome(it.begin(("-T", "wq", "-p", str(it.port), "--print-log", "flow")), 0, ""))

    with Farm("a flow without rules ends with no worker", {}, [], {}) as it:
        it.ends("the run", it.master(), 0, complete(0), ["opened", "ended complete"])

    place = Place({})
    try:
        place.put(f"{os.path.dirname(PROGRAM)}/{WORKER}", f"{place.room}/{WORKER}")
        place.give()
        port = free_port()
        started = place.start(("-T", "wq", "-p", str(port), "--generate", "6"))
        until = time.monotonic() + SECONDS
        while not listens(port) and time.monotonic() < until:
            time.sleep(0.02)
        wrong = outcome(place.start((HOST, str(port)), program=WORKER), 0, BYE)
        wrong += outcome(started, 0, complete(6) + "makeflow: generated 6 rules, 14 bytes\n")
        say("six generated rules at a worker", wrong + place.wrong({**{f"g{at}": b"x\n" for at in range(5)}, "g5": b"x\nx\n"}))
    finally:
        place.close()


def wq_rules():
    """What a rule has, at a worker."""
    rules = [("cat in > a; echo $$A >> a", ["in"], ["a"]), ("cat a in > b", ["a", "in"], ["b"]), ("mkdir -p d/e; cat b > d/e/c; : > empty", ["b"], ["d/e/c", "empty"])]
    made = {"a": b"abcone\n", "b": b"abcone\nabc", "d": None, "d/e": None, "d/e/c": b"abcone\nabc", "empty": b""}
    with Farm("rules in a row, with a variable and a folder", {"in": "abc"}, rules, made, cores=None, head="A=one\nexport A\n") as it:
        started = it.master()
        worker = it.worker()
        it.ends("the run", started, 0, complete(3), ["opened", "started 0 0", "done 0 0", "started 1 1", "done 1 1", "started 2 2", "done 2 2", "ended complete"])
        it.byes(worker)

    with Farm("other names where the command runs", {"in": "abc"}, [("cat sub/in > made", ["in->sub/in"], ["out->made"])], {"out": b"abc"}) as it:
        it.rules = [(["in"], ["out"])]
        started = it.master()
        worker = it.worker()
        it.ends("the run", started, 0, complete(1), ONE_RUN)
        it.byes(worker)

    data = os.urandom(MEBI) * (MOST // MEBI)
    with Farm(f"a content of {MOST} bytes goes to a worker and comes back", {"in": data}, ONE, {"out": data}) as it:
        started = it.master()
        worker = it.worker()
        it.ends("the run", started, 0, COMPLETE, ONE_RUN)
        it.byes(worker)

    failures = [("a failing command", "exit 3", "status 3"), ("a command that is killed", "kill -9 $$$$", "status 137"), ("an output that is missing", "true", "output out missing"),
                ("an output above its bound", "cat in in > out", "output out too long, 6 bytes")]
    for name, command, why in failures:
        with Farm(f"{name}, at a worker", {"in": "abc"}, [(command, ["in"], ["out"])], {}, bounds={"out": 3}) as it:
            started = it.master("-r", "1")
            worker = it.worker()
            it.ends("the run", started, 1, f"makeflow: rule 0 failed: {why}\n", ["opened", "started 0 0", "failed 0 0", "started 0 1", "failed 0 1", "ended failed"])
            it.byes(worker)

    rules = [("while [ ! -e ROOM/up.1 ]; do sleep 0.01; done; exit 3", [], ["o0"]), (WAIT.format(1), [], ["o1"]), ("echo 2 > o2", ["o1"], ["o2"])]
    with Farm("a command fails while another runs, which is heard out", {}, rules, {"o1": b"1\n"}) as it:
        started = it.master()
        worker = it.worker()
        it.wait("the failure", lambda: it.is_logged("failed 0 0"))
        time.sleep(0.3)
        it.beside("go")
        it.ends("the run", started, 1, "makeflow: rule 0 failed: status 3\n", ["opened", "started 0 0", "started 1 1", "failed 0 0", "done 1 1", "ended failed"])
        it.byes(worker)


def wq_at_once():
    """Several rules at once, at one worker, at several and here."""
    for name, workers in [("one worker of two cores", [("--cores", "2")]), ("two workers of one core", [("--cores", "1"), ("--cores=1",)])]:
        rules = [(MEET.format("a", "b"), [], ["a"]), (MEET.format("b", "a"), [], ["b"])]
        with Farm(f"two rules wait for one another at {name}", {}, rules, {"a": b"a\n", "b": b"b\n"}) as it:
            started = it.master()
            begun = [it.worker(*words) for words in workers]
            it.ends("the run", started, 0, complete(2), ["opened", "started 0 0", "started 1 1", "done 0 0", "done 1 1", "ended complete"] if len(begun) < 2 else None)
            it.byes(*begun)
            it.note("the log", [] if set(it.links()) == set(range(1, len(begun) + 1)) else [f"the links are {it.links()}"])

    rules = [(f"touch ROOM/on.{at}; sleep 0.1; ls ROOM | grep -c ^on. > o{at}; rm ROOM/on.{at}", [], [f"o{at}"]) for at in range(8)]
    for cores, most in [(1, 4), (2, 2), (4, 1), (None, 1)]:
        name = "of a whole worker" if cores is None else f"of {cores} cores"
        with Farm(f"rules {name} at a worker of 4 cores", {}, rules, {}, cores=cores) as it:
            started = it.master()
            worker = it.worker("--cores", "4")
            it.ends("the run", started, 0, complete(8))
            it.byes(worker)
            it.made = {f"o{at}": content_of(it.path(f"o{at}")) for at in range(8)}
            counts = [int(data) for data in it.made.values()]
            it.note("the run", [] if max(counts) <= most and (most == 1 or max(counts) > 1) else [f"so many ran at once: {counts}"])

    rules = [("LOCAL " + MEET.format("a", "b"), [], ["a"]), (MEET.format("b", "a"), [], ["b"]), ("LOCAL cat a b > c", ["a", "b"], ["c"])]
    with Farm("a rule here and one at a worker wait for one another", {}, rules, {"a": b"a\n", "b": b"b\n", "c": b"a\nb\n"}, local=(0, 2)) as it:
        started = it.master()
        worker = it.worker()
        it.ends("the run", started, 0, complete(3))
        it.byes(worker)

    rules = [("LOCAL cat in > a", ["in"], ["a"]), ("LOCAL cat a > b", ["a"], ["b"])]
    with Farm("LOCAL rules need no worker", {"in": "abc"}, rules, {"a": b"abc", "b": b"abc"}, local=(0, 1)) as it:
        it.ends("the run", it.master("--idle-limit", "1"), 0, complete(2), ["opened", "started 0 0", "done 0 0", "started 1 1", "done 1 1", "ended complete"])

    rules = [(f"cat {'in' if at < 2 else f'o{at - 2}'} > o{at}; echo {at} >> o{at}", ["in" if at < 2 else f"o{at - 2}"], [f"o{at}"]) for at in range(60)]
    made = {}
    for at in range(60):
        made[f"o{at}"] = (b"abc\n" if at < 2 else made[f"o{at - 2}"]) + f"{at}\n".encode()
    with Farm("the files of four workers are those of a run here", {"in": "abc\n"}, rules, made) as it:
        started = it.master("-g", "none")
        workers = [it.worker("--cores", "2") for _ in range(4)]
        it.ends("the run", started, 0, complete(60))
        it.byes(*workers)
        it.note("the cleaning", outcome(it.begin(("-c", "flow")), 0, cleaned(60)))
        it.away = ()
        it.note("the run here", outcome(it.begin(("flow",)), 0, complete(60)))


def wq_waits():
    """Nobody comes, or nobody who has enough."""
    with Farm("nobody comes", {"in": "abc"}, ONE, {}) as it:
        begun = time.monotonic()
        it.waits("the run", it.master("--idle-limit", "3"), 3, 0, ["opened", "ended waited"])
        took = time.monotonic() - begun
        it.note("the run", [] if 2 <= took <= 40 else [f"it took {took:.1f} seconds"])
        it.away = ()
        it.call("a call without workers", 0, COMPLETE, adds=["resumed", "started 0 0", "done 0 0", "ended complete"])
        it.made = {"out": b"abc"}

    rules = [("echo 0 > o0", [], ["o0"]), ("echo 1 > o1", [], ["o1"]), ("echo 2 > o2", ["o1"], ["o2"])]
    text = ".MAKEFLOW CATEGORY few\n.MAKEFLOW CORES 1\no0:\n\techo 0 > o0\n.MAKEFLOW CATEGORY many\n.MAKEFLOW CORES 8\no1:\n\techo 1 > o1\n.MAKEFLOW CATEGORY few\no2: o1\n\techo 2 > o2\n"
    with Farm("a rule needs more than any worker has", {}, rules, {"o0": b"0\n"}) as it:
        it.put("flow", text)
        started = it.master("--idle-limit", "3")
        worker = it.worker("--cores", "4")
        it.waits("the run", started, 3, 1, ["opened", "started 0 0", "done 0 0", "ended waited"])
        it.byes(worker)
        started = it.master()
        small = it.worker("--cores", "4")
        time.sleep(3)
        it.note("three seconds later", [] if started.poll() is None else ["it had ended"])
        large = it.worker("--cores", "8")
        it.ends("the resume", started, 0, complete(3))
        it.byes(small, large)
        it.made = {f"o{at}": f"{at}\n".encode() for at in range(3)}

    for what, needs in [("memory", "MEMORY 5000"), ("disk", "DISK 20000")]:
        with Farm(f"a rule needs more {what} than any worker has", {"in": "abc"}, ONE, {}, cores=None, head=f".MAKEFLOW {needs}\n") as it:
            started = it.master("--idle-limit", "2")
            worker = it.worker()
            it.waits("the run", started, 2, 0, ["opened", "ended waited"])
            it.byes(worker)

    with Farm("the inputs of a rule are more than any worker's cache", {"in": "x" * (MEBI + 1)}, ONE, {}) as it:
        started = it.master("--idle-limit", "2")
        worker = it.worker("--cache", "1")
        it.waits("the run", started, 2, 0, ["opened", "ended waited"])
        it.byes(worker)

    with Farm("a command takes longer than the idle limit", {}, [("sleep 20; echo > out", [], ["out"])], {}) as it:
        started = it.master("--idle-limit", "2")
        worker = it.worker()
        it.waits("the run", started, 2, 0, ["opened", "started 0 0", "lost 0 0", "ended waited"])
        it.gone(worker)


def wq_lost():
    """Workers that are killed, stopped, late, or come back."""
    rules = [(WAIT.format(0), [], ["o0"]), ("cat o0 o0 > o1", ["o0"], ["o1"])]
    made = {"o0": b"0\n", "o1": b"0\n0\n"}
    twice = ["opened", "started 0 0", "lost 0 0", "started 0 1", "done 0 1", "started 1 2", "done 1 2", "ended complete"]

    with Farm("a worker is killed amid its task, and another runs it", {}, rules, made) as it:
        started = it.master()
        first = it.worker("--cores", "1", env=it.elsewhere())
        it.wait("the task", lambda: it.there("up.0"))
        second = it.worker("--cores", "1")
        time.sleep(0.5)
        it.kill(first)
        it.wait("the loss", lambda: it.is_logged("lost 0 0"))
        it.beside("go")
        it.ends("the run", started, 0, complete(2), twice)
        it.byes(second)
        it.note("the log", [] if it.links() == [1, 2, 2] else [f"the links are {it.links()}"])
        it.note("the cleaning", outcome(it.begin(("-c", "flow")), 0, cleaned(2)))
        it.note("the run here", outcome(it.begin(("flow",)), 0, complete(2)))

    with Farm("a worker is killed amid its task, and comes back", {}, rules, made) as it:
        started = it.master()
        first = it.worker(env=it.elsewhere())
        it.wait("the task", lambda: it.there("up.0"))
        it.kill(first)
        it.wait("the loss", lambda: it.is_logged("lost 0 0"))
        it.beside("go")
        second = it.worker()
        it.ends("the run", started, 0, complete(2), twice)
        it.byes(second)

    with Farm("a worker is stopped for longer than the idle limit", {}, rules, made) as it:
        started = it.master("--idle-limit", "3")
        first = it.worker("--cores", "1")
        it.wait("the task", lambda: it.there("up.0"))
        second = it.worker("--cores", "1")
        time.sleep(0.5)
        os.kill(first.pid, signal.SIGSTOP)
        it.beside("go")
        it.ends("the run", started, 0, complete(2), twice)
        it.byes(second)
        os.kill(first.pid, signal.SIGCONT)
        it.gone(first)

    with Farm("a worker is stopped for less than the idle limit", {}, rules, made) as it:
        started = it.master("--idle-limit", "20")
        worker = it.worker("--cores", "1")
        it.wait("the task", lambda: it.there("up.0"))
        os.kill(worker.pid, signal.SIGSTOP)
        it.beside("go")
        time.sleep(3)
        os.kill(worker.pid, signal.SIGCONT)
        it.ends("the run", started, 0, complete(2), ["opened", "started 0 0", "done 0 0", "started 1 1", "done 1 1", "ended complete"])
        it.byes(worker)

    with Farm("a worker comes late, and a second one still later", {}, [(WAIT.format(at), [], [f"o{at}"]) for at in range(2)], {"o0": b"0\n", "o1": b"1\n"}) as it:
        started = it.master()
        time.sleep(3)
        first = it.worker("--cores", "1")
        it.wait("the task", lambda: it.there("up.0"))
        time.sleep(1)
        second = it.worker("--cores", "1")
        it.wait("the second task", lambda: it.there("up.1"))
        it.beside("go")
        it.ends("the run", started, 0, complete(2))
        it.byes(first, second)
        it.note("the log", [] if it.links() == [1, 2] else [f"the links are {it.links()}"])


def wq_masters():
    """Masters that are killed, under workers that are started again and again, and ports."""
    rules = [(f"cat {'in' if at < 4 else f'o{at - 4}'} > o{at}; sleep 0.2; echo {at} >> o{at}", ["in" if at < 4 else f"o{at - 4}"], [f"o{at}"]) for at in range(64)]
    made = {}
    for at in range(64):
        made[f"o{at}"] = (b"abc\n" if at < 4 else made[f"o{at - 4}"]) + f"{at}\n".encode()
    with Farm("a master is killed six times, under workers in a loop", {"in": "abc\n"}, rules, made) as it:
        loops = [it.restarted("--cores", "2") for _ in range(2)]
        for at in range(6):
            dead = it.master()
            time.sleep(random.uniform(0.3, 0.9))
            dead.kill()
            dead.communicate()
        it.ends("the last run", it.master(), 0, complete(64))
        for loop in loops:
            it.note("a worker", loop.wrong())
        kinds = logs.kinds(it.records())
        it.note("the log", [] if 3 <= kinds.count("resumed") <= 6 and sum(kind.startswith("done") for kind in kinds) == 64 else [f"it logged {short(kinds)}"])

    with Farm("a port that is taken, and then free", {"in": "abc"}, ONE, {}) as it:
        run = ("-T", "wq", "-p", str(it.port), "flow")
        with socket.create_server(("", it.port)):
            it.ends("the run", it.begin(run), 5, NETWORK_FAULT, [])
        started = it.master()
        worker = it.worker()
        it.ends("the run on a free port", started, 0, COMPLETE, ONE_RUN)
        it.byes(worker)
        it.made, old = {"out": b"abc"}, it.data()
        with socket.create_server(("", it.port)):
            it.ends("the run of a log that has one", it.begin(run), 5, NETWORK_FAULT, ONE_RUN)
        it.note("the log", [] if it.data() == old else ["it has other bytes"])

    with Farm("two masters at one port", {"in": "abc"}, ONE, {"out": b"abc"}) as it:
        first = it.master()
        it.note("the second", outcome(it.begin(("-T", "wq", "-p", str(it.port), "-l", "other.makeflowlog", "flow")), 5, NETWORK_FAULT))
        worker = it.worker()
        it.ends("the first", first, 0, COMPLETE, ONE_RUN)
        it.byes(worker)


def wq_many():
    """As many workers as there may be, and one more."""
    rules = [(WAIT.format(at), [], [f"o{at}"]) for at in range(MOST_LINKS + 1)]
    with Farm(f"{MOST_LINKS} workers, and one more, which is left", {}, rules, {f"o{at}": f"{at}\n".encode() for at in range(MOST_LINKS + 1)}) as it:
        started = it.master()
        workers = [it.worker("--cores", "1") for _ in range(MOST_LINKS)]
        it.wait(f"{MOST_LINKS} tasks", lambda: sum(it.there(f"up.{at}") for at in range(MOST_LINKS + 1)) == MOST_LINKS)
        more = it.worker("--cores", "1")
        it.gone(more)
        it.note("then", [] if started.poll() is None and not it.there(f"up.{MOST_LINKS}") else ["another rule was run"])
        it.beside("go")
        it.ends("the run", started, 0, complete(MOST_LINKS + 1))
        it.byes(*workers)
        it.note("the log", [] if set(it.links()) == set(range(1, MOST_LINKS + 1)) else [f"the links are {it.links()}"])

def wq_rests():
    """Master and worker take next to no processor time while commands sleep, and while nobody is there."""
    with Farm("own time while two commands sleep 4 seconds", {}, [(f"touch ROOM/up.{at}; sleep 4; echo {at} > o{at}", [], [f"o{at}"]) for at in range(2)], {"o0": b"0\n", "o1": b"1\n"}) as it:
        started = it.master()
        worker = it.worker()
        it.wait("both", lambda: it.there("up.0", "up.1"))
        before = [own_seconds(started), own_seconds(worker)]
        time.sleep(3)
        own = [own_seconds(started) - before[0], own_seconds(worker) - before[1]]
        it.note("meanwhile", [] if max(own) < OWN_SECONDS else [f"master and worker took {own[0]:.2f} and {own[1]:.2f} seconds of their own"])
        it.ends("the run", started, 0, complete(2))
        it.byes(worker)

    with Farm("own time while nobody is there", {"in": "abc"}, ONE, {"out": b"abc"}) as it:
        started = it.master()
        before = own_seconds(started)
        time.sleep(3)
        own = own_seconds(started) - before
        it.note("meanwhile", [] if own < OWN_SECONDS else [f"it took {own:.2f} seconds of its own"])
        worker = it.worker()
        it.ends("the run", started, 0, COMPLETE, ONE_RUN)
        it.byes(worker)


GROUPS = [wq_first, wq_rules, wq_at_once, wq_waits, wq_lost, wq_masters, wq_many, wq_rests]
