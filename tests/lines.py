"""Cases of links that wait for nobody: large results, readers that are slow or stopped, strangers in a crowd, lines that are cut, and
workers whose machine is sick. The built programs on this machine, with small peers here, and with a proxy between two programs.

The group takes some five minutes. With LINES=full in the environment the large results run three times each, and a case that takes
more than a minute of silence is there too. With LINES=small the contents are a part as large, for programs that were built with checks:
they take seconds for a megabyte, and what the system holds for a line is to be made as small then."""
import collections
import os
import resource
import signal
import socket
import statistics
import struct
import subprocess
import threading
import time

import logs
from foremen import BYE as FOREMAN_BYE
from foremen import Yard
from peers import NO_CORE, ONE_CORE, Peer, result, totals
from places import COMPLETE, MEBI, SECONDS, complete, content_of, outcome, short
from resumes import ONE, ONE_RUN
from workers import BYE, HOST, LEAVE, WORKER, Talk, done, hello, put, task
from wq import NETWORK_FAULT, NO_MASTER, WAIT, free_port

FULL = os.environ.get("LINES") == "full"
SHARE = 64 if os.environ.get("LINES") == "small" else 1
LONG_SECONDS = 240 if SHARE == 1 else 900
LARGE = 60_000_000 // SHARE
# Where so many bytes of a large content have passed, most are to come.
AMID = 8 * MEBI // SHARE
# What the system may hold on each side of a proxy.
HELD = 262_144 if SHARE == 1 else 32_768
LOST_ONCE = ["opened", "started 0 0", "lost 0 0", "started 0 1", "done 0 1", "ended complete"]
# What a worker that can run none of its attempts gets of them in some fifteen seconds: three, one behind each rest of 1, 2, 4 and 8
# seconds, and a few that are let pass.
FEW = 12
HELLO_BODY = 35
HELLO_BYTES = 39


def spoken(at, size):
    """The first bytes of what `yes at` says."""
    word = f"{at}\n".encode()
    return (word * (size // len(word) + 1))[:size]


class Lines(Yard):
    """A yard whose files may be large: whether they were touched is told by what the system says of them."""

    def looked(self):
        found = {}
        for at, folders, files in os.walk(self.place.work):
            for path in (f"{at}/{name}" for name in folders + files):
                data = os.lstat(path)
                found[path] = (data.st_mode, data.st_ino, data.st_size, data.st_mtime_ns)
        found.pop(self.path(self.log), None)
        return found

    def ends(self, step, started, status, printed, adds=None, seconds=LONG_SECONDS):
        self.note(step, outcome(started, status, printed, seconds=seconds))
        self.logged(step, adds)

    def takes(self, contents):
        """The made files have these contents. They are removed, since they are too large to be held side by side."""
        for name, content in contents:
            there = os.path.exists(self.path(name))
            right = there and content_of(self.path(name)) == content
            self.note("the files", [] if right else [f"{name} has other bytes" if there else f"{name} is absent"])
            if there:
                os.remove(self.path(name))

    def crew(self, below):
        """Six workers of two cores, at the master or at two foremen."""
        if not below:
            return [], [self.worker("--cores", "2") for _ in range(6)]
        ports = [self.gate, free_port()]
        foremen = [self.foreman(port=it) for it in ports]
        return foremen, [self.under("--cores", "2", port=ports[at % 2]) for at in range(6)]

    def foremen_bye(self, *foremen):
        for at, it in enumerate(foremen):
            self.note(f"foreman {at}", outcome(it, 0, FOREMAN_BYE))

    def loses_none(self):
        lost = [it for it in logs.kinds(self.records()) if it.startswith("lost")]
        self.note("the log", [f"{len(lost)} attempts were lost"] if lost else [])

    def done_rules(self):
        return [it.rule for it in self.records() if it.kind == "done"]

    def ended(self, step, worker):
        """It was told that the work is over, or it was left before."""
        try:
            out, err = worker.communicate(timeout=SECONDS)
        except subprocess.TimeoutExpired:
            self.note(step, ["it had not ended"])
            return
        right = (worker.returncode, out) == (0, BYE.encode()) or worker.returncode in NO_MASTER
        self.note(step, [] if right and not err else [f"status {worker.returncode}, printed {short(out)}, {short(err)}"])


class Proxy:
    """Stands between a program and the port that it means to dial, passes on what comes, and counts it by its way, `up` or `down`:
    `with Proxy(port) as it:`. Where so much of it has passed as `when` says, it does what it says, once."""

    def __init__(self, port):
        self.to, self.links, self.passed = port, [], collections.Counter()
        self.hall = socket.create_server((HOST, 0))
        self.hall.setsockopt(socket.SOL_SOCKET, socket.SO_RCVBUF, HELD)
        self.port = self.hall.getsockname()[1]
        self.mark, self.acted, self.flows = None, threading.Event(), threading.Event()
        self.flows.set()
        threading.Thread(target=self.take, daemon=True).start()

    def __enter__(self):
        return self

    def __exit__(self, *_):
        self.close()

    def when(self, way, size, act):
        self.mark = (way, size, act)

    def cut(self):
        """From now on nothing passes, and neither end hears of it."""
        self.flows.clear()

    def close(self):
        for it in [self.hall, *self.links]:
            self.end(it)
        self.flows.set()

    @staticmethod
    def end(link):
        try:
            link.shutdown(socket.SHUT_RDWR)
        except OSError:
            pass
        link.close()

    def take(self):
        try:
            while True:
                lower, _ = self.hall.accept()
                upper = socket.socket()
                upper.setsockopt(socket.SOL_SOCKET, socket.SO_RCVBUF, HELD)
                upper.connect((HOST, self.to))
                self.links += [lower, upper]
                for it in (lower, upper):
                    it.setsockopt(socket.SOL_SOCKET, socket.SO_SNDBUF, HELD)
                    it.setsockopt(socket.IPPROTO_TCP, socket.TCP_NODELAY, 1)
                for words in ((lower, upper, "up"), (upper, lower, "down")):
                    threading.Thread(target=self.pump, args=words, daemon=True).start()
        except OSError:
            pass

    def pump(self, source, target, way):
        try:
            while piece := source.recv(65_536):
                self.flows.wait()
                target.sendall(piece)
                self.count(way, len(piece))
        except OSError:
            pass
        self.flows.wait()
        for it in (source, target):
            self.end(it)

    def count(self, way, size):
        self.passed[way] += size
        if self.mark and self.mark[0] == way and self.passed[way] >= self.mark[1]:
            act, self.mark = self.mark[2], None
            act()
            self.acted.set()


class Reader(Peer):
    """A peer that says hello, and then takes as many bytes of each piece of time, in seconds, as it is told, and nothing where these
    are none. What the system takes for it is little. It may say one frame again and again."""

    def __init__(self, farm, first, size, pace, again=None):
        self.data, self.heard, self.farm, self.begun, self.over = bytearray(), [], farm, time.monotonic(), False
        self.link = socket.socket()
        self.link.setsockopt(socket.SOL_SOCKET, socket.SO_RCVBUF, 65_536)
        self.link.settimeout(LONG_SECONDS)
        self.link.connect((HOST, farm.port))
        self.tell(first)
        for does, wanted in ((lambda: self.link.recv(size), size), (lambda: self.tell(again), again)):
            if wanted:
                threading.Thread(target=self.go_on, args=(does, pace), daemon=True).start()

    def go_on(self, does, pace):
        try:
            while not self.over and does() != b"":
                time.sleep(pace)
        except OSError:
            pass

    def __exit__(self, *_):
        self.over = True
        Proxy.end(self.link)


class Crowd:
    """So many connections that say nothing, or these bytes, so many of them at a time: `with Crowd(..) as it:`. It waits for none of
    them: those that the system doesn't take yet are asked for again by it."""

    def __init__(self, port, count, says=b"", size=1, pace=1):
        soft, hard = resource.getrlimit(resource.RLIMIT_NOFILE)
        self.before, self.over, self.said = (soft, hard), False, collections.Counter()
        resource.setrlimit(resource.RLIMIT_NOFILE, (min(hard, max(soft, 2 * count + 256)), hard))
        self.links = [socket.socket() for _ in range(count)]
        for it in self.links:
            it.setblocking(False)
            it.connect_ex((HOST, port))
        self.thread = threading.Thread(target=self.go_on, args=(says, size, pace), daemon=True)
        if says:
            self.thread.start()

    def go_on(self, says, size, pace):
        while not self.over:
            for it in self.links:
                left = says[self.said[it]:self.said[it] + size]
                try:
                    self.said[it] += it.send(left) if left else 0
                except OSError:
                    # It isn't connected yet, or it was left.
                    pass
            time.sleep(pace)

    def __enter__(self):
        return self

    def __exit__(self, *_):
        self.over = True
        if self.thread.is_alive():
            self.thread.join()
        for it in self.links:
            it.close()
        resource.setrlimit(resource.RLIMIT_NOFILE, self.before)


class Full:
    """A temporary folder in which nothing can be written: a small file system, where one may be mounted, else a folder that is closed to
    who runs the programs."""

    def __init__(self, yard):
        self.yard, self.path, self.mounted = yard, f"{yard.place.room}/full", False

    def __enter__(self):
        os.mkdir(self.path)
        words = ["mount", "-t", "tmpfs", "-o", "size=64k,mode=777", "tmpfs", self.path]
        try:
            self.mounted = not os.geteuid() and not subprocess.run(words, stdout=subprocess.DEVNULL, stderr=subprocess.DEVNULL).returncode
        except OSError:
            pass
        if not self.mounted:
            os.chmod(self.path, 0o555)
        return {"TMPDIR": self.path}

    def __exit__(self, *_):
        left = os.listdir(self.path)
        if self.mounted:
            subprocess.run(["umount", "-l", self.path])
        self.yard.note("the full folder", [f"left behind: {left}"] if left else [])


def lines_large():
    """Large results that meet on their way."""
    for below in (False, True):
        for rules, size in ((24, 16 * MEBI // SHARE), (12, 64 * MEBI // SHARE)):
            # Each takes some ten seconds.
            for _ in range(3 if FULL else 1):
                plan = [(f"yes {at} | head -c {size} > o{at}", [], [f"o{at}"]) for at in range(rules)]
                with Lines(f"{rules} results of {size // 1024:,} KiB of six workers of two cores{', below two foremen' if below else ''}", {}, plan, {}) as it:
                    started = it.master()
                    foremen, workers = it.crew(below)
                    it.ends("the run", started, 0, complete(rules))
                    it.loses_none()
                    it.foremen_bye(*foremen)
                    it.byes(*workers)
                    it.takes((f"o{at}", spoken(at, size)) for at in range(rules))

    size = 16_000_000 // SHARE
    inputs = {f"i{at}": spoken(at, size) for at in range(8)}
    plan = [(f"cat i{at} > o{at}", [f"i{at}"], [f"o{at}"]) for at in range(8)]
    for below in (False, True):
        with Lines(f"8 inputs and 8 results of {size:,} bytes meet at one worker of 4 cores{', below a foreman' if below else ''}", inputs, plan, {}) as it:
            started = it.master()
            foremen = [it.foreman()] if below else []
            worker = it.under("--cores", "4", port=it.gate if below else it.port)
            it.ends("the run", started, 0, complete(8))
            it.loses_none()
            it.foremen_bye(*foremen)
            it.byes(worker)
            it.takes((f"o{at}", inputs[f"i{at}"]) for at in range(8))


def lines_sick():
    """Workers that can't run a job, since their temporary folder is full or absent, beside one that can."""
    rules = [(f"sleep 0.5; wc -c < in > o{at}", ["in"], [f"o{at}"]) for at in range(60)]
    # More than the full folder takes.
    size = 131_072
    made = {f"o{at}": f"{size}\n".encode() for at in range(60)}
    for below in (False, True):
        with Lines(f"a full and an absent temporary folder beside a good one{', below a foreman' if below else ''}", {"in": bytes(size)}, rules, made) as it:
            started = it.master()
            foremen = [it.foreman()] if below else []
            port = it.gate if below else it.port
            good = it.under("--cores", "2", port=port)
            it.wait("the first task", lambda: it.is_logged("started 0 0"))
            with Full(it) as full:
                sick = [it.under("--cores", "1", port=port, env=env) for env in (full, {"TMPDIR": f"{it.place.room}/absent"})]
                it.ends("the run", started, 0, complete(60))
                for at, worker in enumerate(sick):
                    # A foreman leaves such a worker.
                    it.ended(f"the sick worker {at}", worker)
            it.byes(good)
            it.foremen_bye(*foremen)
            links = {found.attempt: found.link for found in it.records() if found.kind == "started"}
            lost = collections.Counter(links[found.attempt] for found in it.records() if found.kind == "lost")
            it.note("the log", [f"link {link} lost {count} attempts" for link, count in lost.items() if count > (2 * FEW if below else FEW)])
            it.note("the log", [] if lost or below else ["no attempt came to a sick worker"])


def lines_readers():
    """Slow readers beside an honest worker, which is held up by none of them."""
    small = [(f"sleep 0.1; echo {at} > o{at}", [], [f"o{at}"]) for at in range(200)]
    made = {f"o{at}": f"{at}\n".encode() for at in range(200)}

    def took(records, first):
        """Seconds from the first start of these rules to their last end."""
        moments = [found.moment for found in records if found.kind in ("started", "done") and found.rule >= first]
        return (max(moments) - min(moments)) / 1e6

    alone = None
    with Lines("200 rules at a worker that is alone", {}, small, made) as it:
        started = it.master()
        worker = it.worker("--cores", "4")
        it.ends("the run", started, 0, complete(200))
        it.byes(worker)
        alone = took(it.records(), 0)

    # A large rule fits a reader alone, and a small one the worker alone.
    large = [(f"cat in > b{at}", ["in"], [f"b{at}"]) for at in range(3)]
    text = ".MAKEFLOW CATEGORY large\n.MAKEFLOW CORES 1\n.MAKEFLOW MEMORY 100000\n" + "".join(f"b{at}: in\n\tcat in > b{at}\n" for at in range(3))
    text += ".MAKEFLOW CATEGORY small\n.MAKEFLOW CORES 2\n" + "".join(f"o{at}:\n\t{command}\n" for at, (command, _, _) in enumerate(small))
    amounts = (1, 100_000, 16_384)
    with Lines(f"200 rules beside readers of a byte a second, of 100 KB a second and of nothing, each put {LARGE:,} bytes", {"in": bytes(LARGE)}, large + small,
               {**made, **{f"b{at}": b"abc" for at in range(3)}}) as it:
        it.put("flow", text)
        started = it.master()
        first = hello(amounts, 4096 * MEBI)
        with Reader(it, first, 1, 1), Reader(it, first, 10_000, 0.1), Reader(it, first, 0, 1):
            it.wait("their tasks", lambda: it.is_logged("started 0 0", "started 1 1", "started 2 2"))
            worker = it.worker("--cores", "8")
            it.wait("200 rules", lambda: len(it.done_rules()) == 200, LONG_SECONDS)
        beside = took(it.records(), 3)
        it.note("the 200 rules", [] if alone and beside <= 2 * alone else [f"they took {beside:.2f} seconds, and alone {alone}"])
        it.wait("the losses", lambda: it.is_logged("lost 0 0", "lost 1 1", "lost 2 2"))
        with Peer(it, first) as peer:
            peer.serve(lambda asked: result(asked[1], b"abc"))
        it.ends("the run", started, 0, complete(203))
        it.byes(worker)

    rules = [("cat in > a", ["in"], ["a"]), ("cat in > b", ["in"], ["b"])]
    with Lines("a link that is behind is given no further task", {"in": bytes(LARGE)}, rules, {"a": b"abc", "b": b"abc"}) as it:
        started = it.master()
        with Reader(it, hello((4, 4096, 16_384), 4096 * MEBI), 0, 1) as peer:
            it.wait("its task", lambda: it.is_logged("started 0 0"))
            time.sleep(3)
            it.note("three seconds later", [] if logs.kinds(it.records()) == ["opened", "started 0 0"] else [f"it logged {logs.kinds(it.records())}"])
            peer.serve(lambda asked: result(asked[1], b"abc"))
            it.ends("the run", started, 0, complete(2))
            it.note("the peer", [] if (peer.count("put"), peer.count("task")) == (1, 2) else [f"it heard {short(peer.heard)}"])

    with Lines("a peer that talks, and takes nothing for the idle limit, is left", {"in": bytes(LARGE)}, ONE, {"out": bytes(LARGE)}) as it:
        started = it.master("--idle-limit", "5")
        with Reader(it, hello(ONE_CORE, MEBI * 4096), 0, 0.5, again=totals(ONE_CORE, MEBI * 4096)):
            it.wait("its task", lambda: it.is_logged("started 0 0"))
            begun = time.monotonic()
            worker = it.worker("--cores", "1")
            it.wait("its loss", lambda: it.is_logged("lost 0 0"))
            it.note("the peer", [] if time.monotonic() - begun > 3 else ["it was left too soon"])
            it.ends("the run", started, 0, COMPLETE, LOST_ONCE)
        it.byes(worker)


def few_files():
    resource.setrlimit(resource.RLIMIT_NOFILE, (256, 256))


def lines_crowds():
    """More strangers than a master takes at once."""
    rules = [(f"sleep 0.05; echo {at} > o{at}", [], [f"o{at}"]) for at in range(300)]
    made = {f"o{at}": f"{at}\n".encode() for at in range(300)}
    first = hello(NO_CORE, 0)
    rows = [("1,100 connections that say nothing", (1_100,)), ("1,100 that say at once what begins no hello, and stay", (1_100, b"GET /", 5, 0.1)), ("300 that say a byte of a hello a second", (300, first))]
    for name, crowd in rows:
        with Lines(f"{name}, at a master of 256 open files", {}, rules, made) as it:
            started = it.master(preexec_fn=few_files)
            worker = it.worker("--cores", "1")
            it.wait("the first task", lambda: it.is_logged("started 0 0"))
            with Crowd(it.port, *crowd):
                it.ends("the run", started, 0, complete(300))
            it.byes(worker)
            it.loses_none()
            starts = [found.moment for found in it.records() if found.kind == "started"]
            gaps = [(later - sooner) / 1e6 - 0.05 for sooner, later in zip(starts, starts[1:])]
            it.note("the gaps between rules", [] if statistics.median(gaps) < 0.1 else [f"their median is {statistics.median(gaps):.3f} seconds"])

    # They are left at their eighth second, 40 at a time.
    with Lines("a worker behind 100 connections that say nothing", {"in": "abc"}, ONE, {"out": b"abc"}) as it:
        started = it.master()
        with Crowd(it.port, 100):
            time.sleep(1)
            worker = it.worker()
            it.ends("the run", started, 0, COMPLETE, ONE_RUN)
            it.byes(worker)

    count = 2_000_000 // SHARE
    with Lines(f"{count:,} equal totals of one peer, and then a worker", {"in": "abc"}, ONE, {"out": b"abc"}) as it:
        started = it.master()
        with Peer(it, first) as peer:
            peer.link.settimeout(LONG_SECONDS)
            piece = totals(NO_CORE, 0) * (count // 100)
            for _ in range(100):
                peer.tell(piece)
            worker = it.worker()
            it.ends("the run", started, 0, COMPLETE, ONE_RUN)
            it.byes(worker)
            it.note("the peer", [] if peer.next() == ("bye",) else [f"it heard {short(peer.heard)}"])


def lines_stopped():
    """Programs that are stopped amid what they are told or tell, for longer than a second, and then go on."""
    for below in (False, True):
        for what, way in (("a put", "down"), ("a result", "up")):
            names = ["worker", "foreman", "master"] if below else ["worker", "master"]
            for name in names if FULL or not below else names[:2]:
                with Lines(f"a {name} is stopped amid {what}{', below a foreman' if below else ''}", {"in": bytes(LARGE)}, ONE, {"out": bytes(LARGE)}) as it:
                    started = it.master()
                    # The line that is watched is that of the worker, or that from the foreman to the master.
                    with Proxy(it.gate if below and name == "worker" else it.port) as proxy:
                        foremen = [it.foreman(host_port=it.port if name == "worker" else proxy.port)] if below else []
                        worker = it.under("--cores", "1", port=it.gate if below and name != "worker" else proxy.port)
                        stopped = {"worker": worker, "master": started, "foreman": foremen[0] if below else None}[name]
                        proxy.when(way, AMID, lambda: os.kill(stopped.pid, signal.SIGSTOP))
                        it.wait("the stop", proxy.acted.is_set)
                        time.sleep(3)
                        it.note("meanwhile", [] if proxy.passed[way] < LARGE else ["all had passed"])
                        os.kill(stopped.pid, signal.SIGCONT)
                        it.ends("the run", started, 0, COMPLETE, ONE_RUN)
                        it.foremen_bye(*foremen)
                        it.byes(worker)


def lines_cut():
    """Lines over which nothing passes any more, and workers that are killed while their result is on its way."""
    rules = [(WAIT.format(0), [], ["o0"])]
    for name, below in [("a worker's line", None), ("the line of a worker of a foreman", "worker"), ("a foreman's line", "foreman")]:
        with Lines(f"{name} is cut without a word", {}, rules, {"o0": b"0\n"}) as it:
            started = it.master("--idle-limit", "5")
            with Proxy(it.gate if below == "worker" else it.port) as proxy:
                foremen = [it.foreman(host_port=it.port if below == "worker" else proxy.port)] if below else []
                first = it.under("--cores", "1", port=it.gate if below == "foreman" else proxy.port)
                it.wait("the task", lambda: it.there("up.0"))
                proxy.cut()
                second = it.worker("--cores", "1")
                it.beside("go")
                it.ends("the run", started, 0, complete(1), LOST_ONCE)
                it.byes(second)
                it.note("the first worker", [] if first.poll() is None else ["it heard of the cut"])
            # Now the proxy has closed its ends of the lines.
            it.gone(first, *foremen)

    rules = [("cat in > out; touch ROOM/up.0; while [ ! -e ROOM/go ]; do sleep 0.05; done", ["in"], ["out"])]
    for below in (False, True):
        with Lines(f"a worker is killed while its result is half sent{', below a foreman' if below else ''}", {"in": bytes(LARGE)}, rules, {"out": bytes(LARGE)}) as it:
            started = it.master()
            foremen = [it.foreman()] if below else []
            port = it.gate if below else it.port
            with Proxy(port) as proxy:
                first = it.under("--cores", "1", port=proxy.port, env=it.elsewhere())
                it.wait("the task", lambda: it.there("up.0"))
                # It is there before the other is lost, so a foreman has who runs it then.
                second = it.under("--cores", "1", port=port)
                time.sleep(0.5)
                proxy.when("up", AMID, lambda: os.kill(first.pid, signal.SIGKILL))
                it.beside("go")
                it.wait("the kill", proxy.acted.is_set)
                it.note("meanwhile", [] if proxy.passed["up"] < LARGE else ["all had passed"])
                it.kill(first)
                it.ends("the run", started, 0, COMPLETE, ONE_RUN if below else LOST_ONCE)
                it.byes(second)
                it.foremen_bye(*foremen)


def lines_strangers():
    """First bytes that can't begin a hello are answered by the end of the link, before more is sent: by a master at the fifth byte, and
    by a foreman once as many came as a hello has."""
    right = struct.pack(">I", HELLO_BODY) + b"\1"
    rows = [("a length above a hello's", struct.pack(">I", HELLO_BODY + 1) + b"\1"), ("a length below a hello's", struct.pack(">I", HELLO_BODY - 1) + b"\1"), ("the kind of a put", right[:-1] + b"\2"),
            ("a kind that there isn't", right[:-1] + b"\x0a"), ("a request of another protocol", b"GET /")]
    for below in (False, True):
        with Lines(f"first bytes that can't begin a hello{', at a foreman' if below else ''}", {}, [(WAIT.format(0), [], ["o0"])], {"o0": b"0\n"}) as it:
            started = it.master()
            foremen = [it.foreman()] if below else []
            worker = it.under("--cores", "1", port=it.gate if below else it.port)
            it.wait("the task", lambda: it.there("up.0"))
            for name, sent in rows:
                with Peer(it.at_gate() if below else it, sent.ljust(HELLO_BYTES if below else 0, b"\0")) as peer:
                    peer.leaves(name, 3)
            for name, sent in [("the first bytes of a hello", right), ("the length of a hello", right[:-1])]:
                with Peer(it.at_gate() if below else it, sent) as peer:
                    it.note(name, [] if not peer.is_left(3) else ["it was left at once"])
            it.beside("go")
            it.ends("the run", started, 0, complete(1), ["opened", "started 0 0", "done 0 0", "ended complete"])
            it.foremen_bye(*foremen)
            it.byes(worker)


def lines_ends():
    """What was taken is sent before a program ends, for ten seconds at most, and what it begins with."""
    data = bytes(LARGE)
    with Talk("a result behind the end of the work, to a master that reads late") as it:
        it.tell(put(3, data), task(5, "cat in > out", [(3, "in")]), LEAVE)
        time.sleep(4)
        it.hears("the result", done(5, data))
        it.ends(0, BYE)

    rules = [("LOCAL cat in > a", ["in"], ["a"]), ("LOCAL while [ ! -e ROOM/m ]; do sleep 0.01; done; echo m > m", [], ["m"]), ("cat large > b", ["large"], ["b"]), ("LOCAL cat a m > c", ["a", "m"], ["c"])]
    for reads in (True, False):
        name = "a peer that reads late hears the put, the task and the end of the work" if reads else "a run that ends waits some ten seconds for a peer that takes nothing"
        with Lines(name, {"in": "abc", "large": data}, rules, {"a": b"abd", "m": b"m\n"}, local=(0, 1, 3)) as it:
            started = it.master()
            with Reader(it, hello(ONE_CORE, 4096 * MEBI), 0, 1) as peer:
                it.wait("its task", lambda: any(kind.startswith("started 2 ") for kind in logs.kinds(it.records())))
                it.wait("the first file", lambda: any(kind.startswith("done 0 ") for kind in logs.kinds(it.records())))
                with open(it.path("a"), "wb") as file:
                    file.write(b"abd")
                it.beside("m")
                if reads:
                    time.sleep(3)
                    heard = [peer.next() for _ in range(5)]
                    attempt = heard[1][1] if heard[1] else None
                    wanted = [("put", data), "task", ("cancel", attempt), ("bye",), None]
                    shown = [(heard[0][0], heard[0][3]) if heard[0] else None, heard[1] and heard[1][0], *heard[2:]]
                    it.note("the peer", [] if shown == wanted else [f"it heard {short(heard)}"])
                it.ends("the run", started, 4, "makeflow: file a damaged\n", seconds=20)

    if FULL:
        with Lines("over a link on which an attempt runs and nothing was said for a minute, the key of nobody is forgotten", {"in": "abc"}, ONE, {"out": b"abc"}) as it:
            started = it.master()
            with Peer(it, hello(ONE_CORE, MEBI)) as peer:
                asked = peer.next_task()
                begun = time.monotonic()
                peer.link.settimeout(150)
                found = peer.next()
                it.note("the peer", [] if found and found[0] == "unlink" and time.monotonic() - begun > 50 else [f"it heard {short(found)}"])
                peer.tell(result(asked[1], b"abc"))
                it.ends("the run", started, 0, COMPLETE, ONE_RUN)

        with Lines("a worker that is silent for longer than a minute is left under an idle limit of 70", {"in": "abc"}, ONE, {"out": b"abc"}) as it:
            started = it.master("--idle-limit", "70")
            with Peer(it, hello(ONE_CORE, MEBI)) as peer:
                peer.next_task()
                begun = time.monotonic()
                it.wait("its loss", lambda: it.is_logged("lost 0 0"), seconds=150)
                it.note("the loss", [] if 60 < time.monotonic() - begun < 90 else ["it was left at another time"])
                worker = it.worker("--cores", "1")
                it.ends("the run", started, 0, COMPLETE, LOST_ONCE)
            it.byes(worker)

    with Lines("a port that is in use", {"in": "abc"}, ONE, {}) as it, socket.create_server(("", it.port)):
        it.note("the run", outcome(it.begin(("-T", "wq", "-p", str(it.port), "flow")), 5, NETWORK_FAULT))


GROUPS = [lines_large, lines_sick, lines_readers, lines_crowds, lines_stopped, lines_cut, lines_strangers, lines_ends]
