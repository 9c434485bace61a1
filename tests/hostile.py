"""Cases of hostile surroundings: peers of all kinds at once beside good workers, what stands in the log's place, a temporary folder without
room, and small limits of the system. Where a limit or a full disk stops a run, the next one without it ends complete.

Each kind of peer by itself stands in peers.py and lines.py, a folder in the log's place and a disk too full for the log or an output in
resumes.py, a worker whose temporary folder is full in lines.py, and a limit on files of 0 bytes in edges.py."""
import os
import random
import re
import resource
import signal
import socket
import struct
import subprocess
import threading
import time

import logs
from edges import link_to
from lines import LONG_SECONDS, SHARE, Crowd, Lines, Reader
from peers import NO_CORE, ONE_CORE, Peer, lacks, result, totals
from places import COMPLETE, FOLDER_FAULT, MEBI, SECONDS, USER, USUAL_LOG, complete, content_of, outcome, seen, short
from resumes import AGAIN, ONE, ONE_RUN, TWO, Course, cleaned, fill, mounted
from workers import LEAVE, MOST_BODY, counted, hello, put, task

OWN_MEMORY = 100_000_000
BOUND = 64
GIBI = 1_073_741_824
RUNNER_FAULT = "makeflow: runner fault\n"
RULES = 100
NO_MAGIC = "makeflow: log damaged at 0\n"
TOLD = 2_000_000 // SHARE
# A user of whom nothing else runs.
ALONE = 2_000_000_000 + os.getpid()
AS_ALONE = {"user": ALONE, "group": ALONE, "extra_groups": []} if USER else {}


def peak_of(pid):
    """The most bytes of memory that a process held so far, 0 where it has ended."""
    try:
        rows = content_of(f"/proc/{pid}/status").decode().splitlines()
    except OSError:
        rows = []
    return next((int(it.split()[1]) * 1024 for it in rows if it.startswith("VmHWM")), 0)


class Peak:
    """The most memory that a program itself held, looked at while it runs."""

    def __init__(self, started):
        self.started, self.most = started, peak_of(started.pid)
        self.thread = threading.Thread(target=self.look, daemon=True)
        self.thread.start()

    def look(self):
        while found := peak_of(self.started.pid):
            self.most = max(self.most, found)
            time.sleep(0.02)

    def wrong(self, beside):
        """Whether it held more than its own, where contents of so many bytes were to be held beside."""
        return [] if self.most <= OWN_MEMORY + beside else [f"it held {self.most:,} bytes of memory, {beside:,} of them contents"]


class Attack:
    """Hostile peers that act at once, each in a thread. What any of them finds wrong is noted."""

    def __init__(self, farm):
        self.farm, self.threads = farm, []

    def begin(self, name, act, *words):
        def acts():
            try:
                act(*words)
            except (OSError, ValueError, TypeError) as error:
                self.farm.note(name, [f"it met {error!r}"])

        self.threads.append(threading.Thread(target=acts, daemon=True))
        self.threads[-1].start()

    def wait(self):
        for it in self.threads:
            it.join(LONG_SECONDS)
        self.farm.note("the peers", ["they hadn't ended"] if any(it.is_alive() for it in self.threads) else [])


BEHIND = [(f"a length of {MOST_BODY + 1}", struct.pack(">I", MOST_BODY + 1)), ("a kind that there isn't", counted(b"\x0a")), ("a second hello", hello(NO_CORE, 0)), ("a put", put(0, b"abc")), ("a task", task(0, "true")),
          ("the end of the work", LEAVE), ("an empty body", counted(b"")), ("a result cut short", counted(b"\4" + bytes(8) + b"\0"))]
OF_TASK = [("a missing file that the task lacks", lambda at: lacks(at, 4_000)), ("two contents for one output", lambda at: result(at, b"0\n", b"0\n")), ("one byte above the bound", lambda at: result(at, bytes(BOUND + 1))),
           ("an output that there isn't", lambda at: counted(b"\4" + struct.pack(">QBI", at, 2, 1))), ("no message in place of a result", lambda at: counted(b"\x0a")), ("a result of no form", lambda at: counted(b"\4" + struct.pack(">QB", at, 5)))]


def says_wrong(name, peer):
    """A peer that said what it may not behind its hello, and is left."""
    with peer:
        peer.leaves(name)


def answers_wrong(farm, name, peer, answer):
    """A peer that is given a task, says of it what it may not, and is left."""
    with peer:
        found = peer.next_task()
        farm.note(name, [] if found and found[0] == "task" else [f"it was given {short(found)}"])
        peer.tell(answer(found[1]))
        peer.leaves(name)


def forges(farm, peer, other):
    """A peer that tells of its attempt behind the end of its link, and of those of others: nothing of it counts."""
    with peer:
        found = peer.next_task()
        farm.note("a forger", [] if found and found[0] == "task" else [f"it was given {short(found)}"])
    with other:
        for at in [found[1], *range(4 * RULES)]:
            other.tell(result(at, b"forged"), result(at, b"forged"), lacks(at, 0))
        farm.note("a forger", [] if not other.is_left(2) else ["it was left"])


def makes_noise(farm, first, seed):
    """A mebibyte of chance, at once or behind a hello."""
    with Peer(farm) as peer:
        try:
            peer.tell(first + random.Random(seed).randbytes(MEBI))
        except ConnectionError:
            pass
        peer.leaves("noise")


def floods(farm):
    """Totals without end, of which each differs from the one before: it is left once a million were told in the run."""
    with Peer(farm, hello(NO_CORE, 0)) as peer:
        peer.link.settimeout(LONG_SECONDS)
        piece = (totals(NO_CORE, 0) + totals(NO_CORE, MEBI)) * (TOLD // 200)
        try:
            for _ in range(100):
                peer.tell(piece)
        except ConnectionError:
            pass
        peer.leaves("a flood", LONG_SECONDS)


def attacked_rules():
    """Rules, of which the first takes in what a reader never reads, and the last waits here; and what they make."""
    rules = [("head -c 3 large > o0", ["large"], ["o0"])]
    rules += [(f"sleep 0.2; cat {took} > o{at}; echo {at} >> o{at}", [took], [f"o{at}"]) for at, took in ((at, "in" if at < RULES // 2 else f"o{at - RULES // 2 + 1}") for at in range(1, RULES - 1))]
    rules.append((f"LOCAL while [ ! -e ROOM/go ]; do sleep 0.05; done; cat o{RULES - 2} > o{RULES - 1}", [f"o{RULES - 2}"], [f"o{RULES - 1}"]))
    made = {"o0": bytes(3)}
    for at in range(1, RULES - 1):
        made[f"o{at}"] = (b"abc\n" if at < RULES // 2 else made[f"o{at - RULES // 2 + 1}"]) + f"{at}\n".encode()
    return rules, {**made, f"o{RULES - 1}": made[f"o{RULES - 2}"]}


def attacked():
    """All of them at once, beside two good workers: the run ends complete, with the files of a run here, in little memory."""
    rules, made = attacked_rules()
    large = 16 * MEBI // SHARE
    with Lines(f"hostile peers of all kinds beside two good workers and {RULES} rules", {"in": "abc\n", "large": bytes(large)}, rules, made, local=(RULES - 1,), bounds={name: BOUND for name in made}) as it:
        started = it.master("--idle-limit", "8")
        peak = Peak(started)
        with Reader(it, hello(ONE_CORE, 4096 * MEBI), 0, 1):
            it.wait("the reader's task", lambda: it.is_logged("started 0 0"))
            workers = [it.worker("--cores", "2") for _ in range(2)]
            it.wait("the first rules", lambda: len(it.done_rules()) > 2)
            first, able = hello(NO_CORE, 0), hello(ONE_CORE, 4096 * MEBI)
            attack = Attack(it)
            # They come before those that say nothing, behind whom they would wait.
            for name, answer in OF_TASK:
                attack.begin(name, answers_wrong, it, name, Peer(it, able), answer)
            attack.begin("a forger", forges, it, Peer(it, able), Peer(it, first))
            for name, sent in BEHIND:
                attack.begin(name, says_wrong, name, Peer(it, first, sent))
            with Crowd(it.port, 40), Crowd(it.port, 10, first[:20], 20):
                for seed in range(10):
                    attack.begin("noise", makes_noise, it, first if seed % 2 else b"", seed)
                attack.wait()
                it.note("the master", peak.wrong(2 * large))
                attack.begin("a flood", floods, it)
                attack.wait()
                it.wait("the reader's loss", lambda: it.is_logged("lost 0 0"))
                it.wait("all rules but the last", lambda: len(it.done_rules()) == RULES - 1, LONG_SECONDS)
                it.beside("go")
                it.ends("the run", started, 0, complete(RULES))
        it.byes(*workers)
        found = {name: content_of(it.path(name)) for name in made if os.path.exists(it.path(name))}
        it.note("the run", [f"{name} is {short(found.get(name))}" for name in made if found.get(name) != made[name]])
        it.note("the cleaning", outcome(it.begin(("-c", "flow")), 0, cleaned(RULES)))
        it.away = ()
        it.note("the run here", outcome(it.begin(("flow",)), 0, complete(RULES)))


def odd_logs():
    """What is no file in the log's place, and files of zeros. Nothing is changed, and nobody waits."""
    rows = [("a pipe", {USUAL_LOG: os.mkfifo}), ("a link to itself", {USUAL_LOG: link_to(USUAL_LOG)}), ("a link to a pipe", {USUAL_LOG: link_to("p"), "p": os.mkfifo}),
            ("a loop of three links", {USUAL_LOG: link_to("a"), "a": link_to("b"), "b": link_to(USUAL_LOG)}), ("a link into a loop of folders", {USUAL_LOG: link_to("a/log"), "a": link_to("b"), "b": link_to("a")}),
            *((f"a link to {it}", {USUAL_LOG: link_to(it)}) for it in ("/dev/zero", "/dev/null", "/dev/full", "/dev/urandom", "/dev/tty"))]
    for name, files in rows:
        with Course(f"{name} in the log's place", {"in": "abc", **files}, ONE, {}) as it:
            it.refused_thrice("each", 5, FOLDER_FAULT)
    for size in (10, 4_096, 4_097, MEBI):
        with Course(f"{size} zeros in the log's place", {"in": "abc", USUAL_LOG: bytes(size)}, ONE, {}) as it:
            it.refused_thrice("each", 4, NO_MAGIC)


def small_space():
    """A limit on the memory that a program may ask for, far below the length of the log."""
    resource.setrlimit(resource.RLIMIT_AS, (GIBI // 2, GIBI // 2))


class Sparse(Course):
    """A course whose log is too long to be read here: what it is like is told by the system and by its first bytes."""

    def __init__(self, name, first, made, size=GIBI):
        super().__init__(name, {"in": "abc"}, ONE, made)
        with open(self.path(USUAL_LOG), "wb") as it:
            it.write(first)
        os.truncate(self.path(USUAL_LOG), size)
        self.place.give()

    def __exit__(self, *error):
        os.remove(self.path(USUAL_LOG))
        return super().__exit__(*error)

    def data(self):
        """The log's beginning, in which all its records stand."""
        with open(self.path(USUAL_LOG), "rb") as it:
            return it.read(65_536)

    def stands(self):
        found = os.lstat(self.path(USUAL_LOG))
        return found.st_size, found.st_ino, found.st_blocks, found.st_mtime_ns, sorted(os.listdir(self.place.work)), self.data()

    def looked(self):
        return sorted(os.listdir(self.place.work)), content_of(self.path("in"))

    def refused(self, step, status, printed, words=("flow",), **how):
        before = self.stands()
        self.note(step, outcome(self.place.start(words, preexec_fn=small_space), status, printed))
        self.note(step, [] if self.stands() == before else ["it changed a file"])

    def call(self, step, status, printed, words=("flow",), adds=None, **how):
        old = self.records()
        self.note(step, outcome(self.place.start(words, preexec_fn=small_space), status, printed))
        grown = logs.kinds(self.records()[len(old):])
        self.note(step, [] if grown == adds else [f"it logged {grown}, not {adds}"])


def sparse_logs():
    """Logs of a gibibyte, nearly all of it zeros."""
    rows = [("zeros", b"", 0), ("a record that ends behind its file", logs.HEADER + b"\1\x7f\xff\xff\xff\1", 8), ("a record of nearly a gibibyte", logs.HEADER + b"\1\x3f\xff\xff\0\1", 8),
            ("a record of nearly a gibibyte with 65,536 sources", logs.HEADER + b"\1\x3f\xff\xff\0\1" + bytes(20) + b"\0" + bytes(32) + b"\0\1\0\0", 8)]
    for name, first, at in rows:
        with Sparse(f"a log of 1 GiB: {name}", first, {}) as it:
            it.refused_thrice("each", 4, f"makeflow: log damaged at {at}\n")
    with Sparse("a log of 1 GiB: nothing behind the header", logs.HEADER, {"out": b"abc"}) as it:
        it.call("the run", 0, COMPLETE, adds=ONE_RUN)
        it.call("the resume", 0, COMPLETE, adds=AGAIN)
        it.call("the cleaning", 0, cleaned(1), ("-c", "flow"), ["ended cleaned"])
        it.call("the run again", 0, COMPLETE, adds=["opened", "started 0 1", "done 0 1", "ended complete"])


def full_temporaries():
    """A temporary folder without room for a job's folder, an input or an output, and then with room."""
    large = "x" * 300_000
    lost, failed = ["opened", "started 0 0", "lost 0 0"], ["opened", "started 0 0", "failed 0 0", "ended failed"]
    rows = [("a job's folder", "abc", "cat in > out", b"abc", "1m,nr_inodes=1", (5, RUNNER_FAULT, lost)), ("an input's name", "abc", "cat in > out", b"abc", "1m,nr_inodes=2", (5, RUNNER_FAULT, lost)),
            ("an output's name", "abc", "cat in > out", b"abc", "1m,nr_inodes=3", (1, "makeflow: rule 0 failed: status 2\n", failed)),
            ("an input", large, "cat in > out", large.encode(), "200k", (5, RUNNER_FAULT, lost)), ("an output", "abc", "head -c 300000 /dev/zero > out", bytes(300_000), "200k", (1, "makeflow: rule 0 failed: status 1\n", failed))]
    for name, content, command, made, size, (status, printed, adds) in rows:
        with Course(f"a temporary folder without room for {name}", {"in": content}, [(command, ["in"], ["out"])], {"out": made}) as it:
            if not mounted(it.place.tmp, size):
                it.name, it.made = f"{it.name}: skipped, no disk can be mounted", {}
                continue
            try:
                it.call("the run", status, printed, adds=adds)
                it.note("the run", [f"left behind: {os.listdir(it.place.tmp)}"] if os.listdir(it.place.tmp) else [])
            finally:
                subprocess.run(["umount", "-l", it.place.tmp], capture_output=True)
            it.call("the run with room", 0, COMPLETE, adds=["resumed", "started 0 1", "done 0 1", "ended complete"])


# What a run may end with whose system refuses it something: its status, and its line.
NAMED = {0: re.compile(r"makeflow: complete, \d+ rules, 0 files collected\n"), 1: re.compile(r"makeflow: rule \d+ failed: (status \d+|output \w+ missing)\n"),
         5: re.compile(r"makeflow: (folder|runner|network) fault\n"), 7: re.compile(r"makeflow: waited, \d+ idle, rule \d+\n"), 8: re.compile(r"makeflow: out of memory\n")}


def named(started, seconds=SECONDS):
    """What is wrong with the end of a program, and its status."""
    try:
        out, err = started.communicate(timeout=seconds)
    except subprocess.TimeoutExpired:
        os.killpg(started.pid, signal.SIGKILL)
        started.communicate()
        return [f"it had not ended after {seconds} seconds"], None
    status = started.returncode
    told = status in NAMED and NAMED[status].fullmatch(out.decode()) and not err
    return ([] if told else [f"status {status}, printed {short(out)}, {short(err)}"]), status


def limit(kind, most, ignored=()):
    """What sets a limit in a program that is to be started, and lets it ignore signals."""
    def sets():
        for it in ignored:
            signal.signal(it, signal.SIG_IGN)
        resource.setrlimit(kind, (most, most))

    return sets


def limited(it, step, sets, words=("flow",)):
    """A run under a limit ends by a name, and no rule that it logged as done is run by the next one, which ends complete."""
    begun = time.monotonic()
    wrong, status = named(it.place.start(words, preexec_fn=sets))
    took = time.monotonic() - begun
    it.note(step, wrong + ([f"it took {took:.0f} seconds"] if took > 20 else []))
    reached = logs.part_of(it.records())
    it.note(step, [f"{left} is left" for left in os.listdir(it.place.work) if left.endswith("makeflow-part")])
    it.call(f"the run behind {step}", 0, complete(len(it.rules)), words)
    it.note(step, [f"left behind: {os.listdir(it.place.tmp)}"] if os.listdir(it.place.tmp) else [])
    done = {found.rule for found in reached if found.kind == "done"}
    again = {found.rule for found in logs.part_of(it.records())[len(reached):] if found.kind == "started"}
    it.note(step, [f"rule {rule} ran again" for rule in sorted(done & again)])
    it.call(f"the cleaning behind {step}", 0, cleaned(sum(len(outs) for _, outs in it.rules)), ("-c", "flow"), adds=["ended cleaned"])
    return status


class Alone(Course):
    """A course whose programs run as a user of whom nothing else runs, so that a limit on processes counts them alone."""

    def __init__(self, *what):
        super().__init__(*what)
        start = self.place.start
        self.place.start = lambda *words, **how: start(*words, **{**AS_ALONE, **how})
        for at, folders, names in os.walk(self.place.room):
            for path in [at, *(f"{at}/{it}" for it in folders + names)]:
                os.chown(path, ALONE, ALONE)
        self.place.before = seen(self.place.work)


MANY = [(f"cat in > o{at}", ["in"] if at < 4 else ["in", f"o{at - 4}"], [f"o{at}"]) for at in range(40)] + [("head -c 20000 /dev/zero > last; : < o39", ["o39"], ["last"])]


def system_limits():
    """Limits of the system at small values: on the size of files, on open files, and on processes."""
    rows = [(Course, resource.RLIMIT_FSIZE, "files of {} bytes", (0, 1, 8, 9, 10, 100, 1_000, 3_000, 10_000)), (Course, resource.RLIMIT_NOFILE, "{} open files", range(4, 20)), (Alone, resource.RLIMIT_NPROC, "{} processes", range(2, 14))]
    for course, kind, name, values in rows:
        if course is Alone and not USER:
            print("left out: programs can't be started as another user here", flush=True)
            continue
        with course(f"limits of the system: from {name.format(min(values))} to {max(values):,}", {"in": "abc"}, MANY, {}) as it:
            ends = [limited(it, name.format(most), limit(kind, most, [signal.SIGXFSZ])) for most in values]
            it.note("the rows", [] if any(ends) else [f"no run was stopped: {ends}"])
    with Course("a limit on the size of files ends a run by the system's signal, and the next goes on", {"in": "abc"}, MANY, {"last": bytes(20_000), **{f"o{at}": b"abc" for at in range(40)}}) as it:
        it.note("the run", outcome(it.place.start(preexec_fn=limit(resource.RLIMIT_FSIZE, 1_000)), -signal.SIGXFSZ, ""))
        it.call("the resume", 0, complete(41))


def limited_masters():
    """Masters of few open files, or over a limit on the size of files: they end by a name, or go on with as many workers as they may have."""
    rows = [(f"{most} open files", limit(resource.RLIMIT_NOFILE, most)) for most in range(4, 12)] + [("files of 200 bytes", limit(resource.RLIMIT_FSIZE, 200, [signal.SIGXFSZ]))]
    for name, sets in rows:
        with Lines(f"a master of {name}", {"in": "abc"}, TWO, {"a": b"abc", "b": b"abc"}) as it:
            started = it.master("--idle-limit", "3", preexec_fn=sets)
            worker = it.worker()
            wrong, _ = named(started)
            it.note("the run", wrong)
            it.ended("its worker", worker)
            started = it.master()
            worker = it.worker()
            it.ends("the run without a limit", started, 0, complete(2))
            it.byes(worker)


def beside_a_good_worker(name, *sick):
    """A run with these workers under limits, of a user of whom nothing else runs, and a good one."""
    rules = [(f"sleep 0.1; cat in > o{at}", ["in"], [f"o{at}"]) for at in range(60)]
    with Lines(f"{name} beside a good one", {"in": bytes(20_000)}, rules, {f"o{at}": bytes(20_000) for at in range(60)}) as it:
        env = it.elsewhere()
        if USER:
            os.chown(env["TMPDIR"], ALONE, ALONE)
        started = it.master()
        good = it.worker("--cores", "2")
        workers = [it.worker("--cores", "1", env=env, preexec_fn=sets, **AS_ALONE) for sets in sick]
        it.ends("the run", started, 0, complete(60), seconds=SECONDS)
        it.byes(good)
        for worker in workers:
            it.ended("a worker under a limit", worker)


def limited_workers():
    sick = [limit(resource.RLIMIT_NOFILE, most) for most in (4, 6, 8, 10)] + [limit(resource.RLIMIT_FSIZE, 10_000, [signal.SIGXFSZ]), limit(resource.RLIMIT_FSIZE, 0, [signal.SIGXFSZ])]
    beside_a_good_worker("workers under limits on files", *sick)
    if USER:
        beside_a_good_worker("a worker under a limit on processes", limit(resource.RLIMIT_NPROC, 2))


GROUPS = [attacked, odd_logs, sparse_logs, full_temporaries, system_limits, limited_masters, limited_workers]
