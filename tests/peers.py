"""Cases of makeflow -T wq with small peers here, that speak with it by the frames and messages of docs/WIRE.md, or that speak
no such thing."""
import socket
import struct
import time

import logs
from places import COMPLETE, MEBI, MOST, SECONDS, complete, short
from resumes import ONE, ONE_RUN
from workers import HOST, LEAVE, MOST_BODY, Body, Wire, cancel, counted, hello, put, task
from wq import MOST_LINKS, WAIT, Farm

LEFT_SECONDS = 20
ONE_CORE = (1, 4096, 16384)
NO_CORE = (0, 4096, 16384)


def result(attempt, *contents):
    return counted(b"\4" + struct.pack(">QBI", attempt, 0, len(contents)) + b"".join(map(counted, contents)))


def not_run(attempt):
    return counted(b"\4" + struct.pack(">QB", attempt, 4))


def lacks(attempt, *files):
    return counted(b"\5" + struct.pack(">QI", attempt, len(files)) + b"".join(struct.pack(">I", it) for it in files))


def totals(amounts, cache):
    return counted(b"\x08" + struct.pack(">III", *amounts) * 2 + struct.pack(">Q", cache))


class Said(Body):
    """The fields of one message of the master."""

    def text(self):
        return self.take(self.number("I")).decode()

    def message(self):
        kind = self.number("B")
        if kind == 2:
            found = ("put", self.number("Q"), self.number("I"), self.take(self.number("I")))
        elif kind == 3:
            attempt, run, command = self.number("Q"), self.number("Q"), self.text()
            needs = tuple(self.number("I") for _ in range(3)) if self.number("B") else None
            env = [(self.text(), self.text()) for _ in range(self.number("I"))]
            inputs = [(self.number("I"), self.text()) for _ in range(self.number("I"))]
            outputs = [(self.text(), self.number("Q")) for _ in range(self.number("I"))]
            found = ("task", attempt, run, command, needs, env, inputs, outputs)
        elif kind == 6:
            found = ("cancel", self.number("Q"))
        elif kind == 7:
            found = ("unlink", self.number("Q"), self.number("I"))
        else:
            found = ("bye",) if kind == 9 else (f"kind {kind}", self.take(len(self.data) - self.at))
        return found if self.at == len(self.data) else ("too long a body", self.data)


class Peer(Wire):
    """A peer of a master, that speaks here: `with Peer(..) as it:`. It says nothing by itself."""

    def __init__(self, farm, *frames):
        self.data = bytearray()
        self.link = socket.create_connection((HOST, farm.port), timeout=SECONDS)
        self.link.setsockopt(socket.IPPROTO_TCP, socket.TCP_NODELAY, 1)
        self.begun, self.farm, self.heard = time.monotonic(), farm, []
        if frames:
            self.tell(*frames)

    def __enter__(self):
        return self

    def __exit__(self, *_):
        self.link.close()

    def next(self):
        """The master's next message, or None where it has closed the link."""
        found = self.hear(lambda body: Said(body).message())
        self.heard.append(found)
        return found

    def next_task(self):
        """The next task, behind any puts."""
        while (found := self.next()) and found[0] == "put":
            pass
        return found

    def count(self, kind):
        return sum(it is not None and it[0] == kind for it in self.heard)

    def serve(self, answer):
        """Answers each task until the work is over or the link ends."""
        while (found := self.next()) and found[0] != "bye":
            if found[0] == "task":
                self.tell(answer(found))

    def is_left(self, seconds=LEFT_SECONDS):
        """Whether the master closes the link within so many seconds, and says nothing but Bye before."""
        self.link.settimeout(seconds)
        try:
            found = self.next()
            while found and found[0] == "bye":
                found = self.next()
        except (TimeoutError, OSError) as error:
            return isinstance(error, ConnectionError)
        return found is None

    def leaves(self, step, seconds=LEFT_SECONDS):
        self.farm.note(step, [] if self.is_left(seconds) else [f"it wasn't left within {seconds} seconds: {short(self.heard[-3:])}"])


def peers_one_after_another():
    """More links than may live at once, each for one rule."""
    with Farm(f"{MOST_LINKS + 1} workers one after another", {}, [(f"echo {at} > o{at}", [f"o{at - 1}"] if at else [], [f"o{at}"]) for at in range(MOST_LINKS + 1)],
              {f"o{at}": f"{at}\n".encode() for at in range(MOST_LINKS + 1)}) as it:
        started = it.master()
        for at in range(MOST_LINKS + 1):
            with Peer(it, hello(ONE_CORE, 4096 * MEBI)) as peer:
                found = peer.next_task()
                it.note(f"peer {at}", [] if found and found[0] == "task" else [f"it heard {short(found)}"])
                if found and found[0] == "task":
                    peer.tell(result(found[1], f"{at}\n".encode()))
                    it.wait("its result", lambda: any(kind.startswith(f"done {at} ") for kind in logs.kinds(it.records())))
        it.ends("the run", started, 0, complete(MOST_LINKS + 1))


def peers_strangers():
    """What comes and is no worker. Each is left, and the run goes on at an honest one."""
    first = hello(NO_CORE, 0)
    before = [("bytes of no frame", b"\xff" * 64), ("a request of another protocol", b"GET / HTTP/1.1\r\nHost: localhost\r\n\r\n"), (f"a length of {MOST_BODY + 1}", struct.pack(">I", MOST_BODY + 1)),
              ("an empty body", counted(b"")), ("a kind that there isn't", counted(b"\x0a")), ("a part of a hello as a frame", counted(first[4:-1])), ("a hello with a byte more", counted(first[4:] + b"\0")),
              ("a hello of another version", first[:6] + b"\2" + first[7:]), ("totals", totals(NO_CORE, 0)), ("a result", result(0, b"")), ("what is missing", lacks(0, 0)), ("a put", put(0, b"abc")),
              ("a task", task(0, "true")), ("a cancel", cancel(0)), ("the end of the work", LEAVE)]
    behind = [("a second hello", first), ("a kind that there isn't", counted(b"\x0a")), ("a put", put(0, b"abc")), ("the end of the work", LEAVE), (f"a length of {MOST_BODY + 1}", struct.pack(">I", MOST_BODY + 1)),
              ("what is missing, of no file", counted(b"\5" + bytes(8) + bytes(4))), ("a result of no form", counted(b"\4" + bytes(8) + b"\5"))]
    rules = [(WAIT.format(0), [], ["o0"]), ("cat o0 > o1", ["o0"], ["o1"])]
    with Farm("strangers at the port", {}, rules, {"o0": b"0\n", "o1": b"0\n"}) as it:
        started = it.master()
        worker = it.worker("--cores", "1")
        it.wait("the task", lambda: it.there("up.0"))
        silent, slow, part = Peer(it), Peer(it), Peer(it, first[:20])
        with silent, slow, part:
            time.sleep(2)
            slow.tell(first)
            for name, sent in before:
                with Peer(it, sent) as peer:
                    peer.leaves(name)
            for name, sent in behind:
                with Peer(it, first, sent) as peer:
                    peer.leaves(f"{name}, behind a hello")
            for at in range(len(first)):
                Peer(it, first[:at]).link.close()
            with Peer(it, first, struct.pack(">I", MOST_BODY)) as peer:
                it.note("a long frame that doesn't come", [] if not peer.is_left(2) else ["it was left at once"])
            silent.leaves("one that says nothing", 120)
            part.leaves("a part of a hello", 120)
            it.note("a silent one", [] if time.monotonic() - silent.begun > 5 else ["it was left too soon"])
            with Peer(it, first, result(0, b""), result(7, b"", b""), lacks(9, 0)) as peer:
                it.note("one that tells of attempts that it doesn't have", [] if not peer.is_left(2) else ["it was left"])
                it.beside("go")
                it.ends("the run", started, 0, complete(2), ["opened", "started 0 0", "done 0 0", "started 1 1", "done 1 1", "ended complete"])
                it.byes(worker)
                it.note("that one", [] if ("bye",) in peer.heard or peer.next() == ("bye",) else [f"it heard {short(peer.heard)}"])
            it.note("one whose hello came late", [] if slow.next() == ("bye",) else [f"it heard {short(slow.heard)}"])

    with Farm("hellos that come byte by byte, and in one piece with a result", {"in": "abc"}, ONE, {"out": b"abc"}) as it:
        started = it.master()
        with Peer(it) as peer:
            for byte in hello(ONE_CORE, MEBI):
                peer.tell(bytes([byte]))
            found = peer.next_task()
            peer.tell(result(found[1], b"abc"))
            it.ends("the run", started, 0, COMPLETE, ONE_RUN)
            it.note("the peer", [] if peer.next() == ("bye",) and peer.next() is None else [f"it heard {short(peer.heard)}"])


def peers_wrong_results():
    """Peers that answer a task as they may not: each is left, and its attempt lost."""
    data = [("another number of contents", lambda at: result(at)), ("a content above its bound", lambda at: result(at, b"abcd")), ("a missing output that there isn't", lambda at: counted(b"\4" + struct.pack(">QBI", at, 2, 1))),
            ("an output too long that there isn't", lambda at: counted(b"\4" + struct.pack(">QBIQ", at, 3, 1, 9))), ("a missing input that it wasn't given", lambda at: lacks(at, 7)), ("a second hello", lambda at: hello(ONE_CORE, MEBI)),
            ("no message", lambda at: counted(b"\x0a"))]
    for name, answer in data:
        with Farm(f"a task is answered by {name}", {"in": "abc"}, ONE, {"out": b"abc"}, bounds={"out": 3}) as it:
            started = it.master()
            with Peer(it, hello(ONE_CORE, MEBI)) as peer:
                found = peer.next_task()
                peer.tell(answer(found[1]))
                peer.leaves("the peer")
            it.wait("the loss", lambda: it.is_logged("lost 0 0"))
            worker = it.worker()
            it.ends("the run", started, 0, COMPLETE, ["opened", "started 0 0", "lost 0 0", "started 0 1", "done 0 1", "ended complete"])
            it.byes(worker)
            it.note("the log", [] if it.links() == [1, 2] else [f"the links are {it.links()}"])

    for name, how in [("closes its link", lambda peer: peer.link.close()), ("sends half a result and closes its link", lambda peer: (peer.tell(result(0, b"abc")[:-2]), peer.link.close()))]:
        with Farm(f"a peer {name} behind its task", {"in": "abc"}, ONE, {"out": b"abc"}) as it:
            started = it.master()
            with Peer(it, hello(ONE_CORE, MEBI)) as peer:
                it.note("the peer", [] if peer.next_task()[0] == "task" else ["it got no task"])
                how(peer)
            it.wait("the loss", lambda: it.is_logged("lost 0 0"))
            worker = it.worker()
            it.ends("the run", started, 0, COMPLETE, ["opened", "started 0 0", "lost 0 0", "started 0 1", "done 0 1", "ended complete"])
            it.byes(worker)

    with Farm("a result that comes twice counts once", {"in": "abc"}, [*ONE, ("cat out > more", ["out"], ["more"])], {"out": b"abc", "more": b"abc"}) as it:
        started = it.master()
        with Peer(it, hello(ONE_CORE, MEBI)) as peer:
            found = peer.next_task()
            peer.tell(result(found[1], b"abc"), result(found[1], b"abd"))
            found = peer.next_task()
            peer.tell(result(found[1], b"abc"))
            it.ends("the run", started, 0, complete(2), ["opened", "started 0 0", "done 0 0", "started 1 1", "done 1 1", "ended complete"])


def peers_contents():
    """What goes over a link: each content once, again only where it is asked for, and word of what is collected."""
    rules = [(f"cat in > o{at}", ["in"], [f"o{at}"]) for at in range(100)]
    with Farm("an input of 100 rules goes over a link once", {"in": b"x" * MEBI}, rules, {f"o{at}": b"abc" for at in range(100)}) as it:
        started = it.master()
        with Peer(it, hello((4, 4096, 16384), 4096 * MEBI)) as peer:
            peer.serve(lambda task: result(task[1], b"abc"))
            it.ends("the run", started, 0, complete(100))
            puts = [(run, file, len(data)) for run, file, data in (heard[1:] for heard in peer.heard if heard and heard[0] == "put")]
            it.note("the peer", [] if puts == [(0, 0, MEBI)] and peer.count("task") == 100 else [f"it heard {puts} and {peer.count('task')} tasks"])
            it.note("the peer", [] if peer.heard[-1] == ("bye",) else [f"the last that it heard is {short(peer.heard[-1])}"])

    rules = [("cat in > a", ["in"], ["a"]), ("cat a in > b", ["a", "in"], ["b"])]
    with Farm("what a task says", {"in": "abc"}, rules, {"a": b"abc", "b": b"abcabc"}, head="export X=one\n", bounds={"a": 3}) as it:
        started = it.master()
        with Peer(it, hello(ONE_CORE, MEBI)) as peer:
            heard = [peer.next(), peer.next()]
            peer.tell(result(0, b"abc"))
            heard += [peer.next(), peer.next()]
            peer.tell(result(1, b"abcabc"))
            heard += [peer.next(), peer.next()]
            wanted = [("put", 0, 2, b"abc"), ("task", 0, 0, "cat in > a", (1, 0, 0), [("X", "one")], [(2, "in")], [("a", 3)]), ("put", 0, 0, b"abc"),
                      ("task", 1, 0, "cat a in > b", (1, 0, 0), [("X", "one")], [(0, "a"), (2, "in")], [("b", MOST)]), ("bye",), None]
            it.note("the peer", [] if heard == wanted else [f"it heard {short(heard)}, not {short(wanted)}"])
            it.ends("the run", started, 0, complete(2))

    with Farm("a rule of a whole worker states no needs", {"in": "abc"}, ONE, {"out": b"abc"}, cores=None) as it:
        started = it.master()
        with Peer(it, hello(ONE_CORE, MEBI)) as peer:
            found = peer.next_task()
            it.note("the task", [] if found[4] is None else [f"it states {found[4]}"])
            peer.tell(result(found[1], b"abc"))
            it.ends("the run", started, 0, COMPLETE, ONE_RUN)

    lost = ["opened", "started 0 0", "lost 0 0", "started 0 1", "done 0 1", "ended complete"]
    for times, adds in [(1, ONE_RUN), (2, ONE_RUN), (3, lost)]:
        with Farm(f"an input is missing {times} times", {"in": "abc"}, ONE, {"out": b"abc"}) as it:
            started = it.master()
            with Peer(it, hello(ONE_CORE, MEBI)) as peer:
                for _ in range(times):
                    found = peer.next_task()
                    peer.tell(lacks(found[1], 0))
                found = peer.next_task()
                it.note("the task", [] if found[1] == (1 if times == 3 else 0) else [f"it is {short(found)}"])
                peer.tell(result(found[1], b"abc"))
                it.ends("the run", started, 0, COMPLETE, adds)
                it.note("the peer", [] if (peer.count("put"), peer.count("task")) == (times + 1, times + 1) else [f"it heard {short(peer.heard)}"])

    with Farm("a job that a worker couldn't run runs again", {"in": "abc"}, ONE, {"out": b"abc"}) as it:
        started = it.master()
        with Peer(it, hello(ONE_CORE, MEBI)) as peer:
            peer.tell(not_run(peer.next_task()[1]))
            found = peer.next_task()
            peer.tell(result(found[1], b"abc"))
            it.ends("the run", started, 0, COMPLETE, lost)
            it.note("the peer", [] if peer.count("put") == 1 else [f"it heard {short(peer.heard)}"])

    with Farm("what a worker was given in an earlier run isn't its own in the next", {"in": "abc"}, ONE, {"out": b"abc"}) as it:
        dead = it.master()
        with Peer(it, hello(ONE_CORE, MEBI)) as peer:
            it.note("the first run", [] if peer.next_task()[2] == 0 else [f"it heard {short(peer.heard)}"])
            dead.kill()
            dead.communicate()
        started = it.master()
        with Peer(it, hello(ONE_CORE, MEBI)) as peer:
            found = peer.next_task()
            it.note("the second run", [] if found[1:3] == (1, 1) and peer.heard[0] == ("put", 1, 0, b"abc") else [f"it heard {short(peer.heard)}"])
            peer.tell(result(0, b"abd"), result(1, b"abc"))
            it.ends("the run", started, 0, COMPLETE, ["opened", "started 0 0", "resumed", "started 0 1", "done 0 1", "ended complete"])


def peers_halts():
    """What runs at a worker is called off where the run stops at once."""
    rules = [("LOCAL cat in > a", ["in"], ["a"]), ("LOCAL while [ ! -e ROOM/m ]; do sleep 0.01; done; echo m > m", [], ["m"]), ("cat in > b", ["in"], ["b"]), ("LOCAL cat a m > c", ["a", "m"], ["c"])]
    with Farm("an input is damaged while a rule runs at a worker", {"in": "abc"}, rules, {"a": b"abd", "m": b"m\n"}, local=(0, 1, 3)) as it:
        started = it.master()
        with Peer(it, hello(ONE_CORE, MEBI)) as peer:
            found = peer.next_task()
            it.wait("the first file", lambda: any(kind.startswith("done 0 ") for kind in logs.kinds(it.records())))
            with open(it.path("a"), "wb") as file:
                file.write(b"abd")
            it.beside("m")
            it.note("the peer", [] if [peer.next(), peer.next()] == [("cancel", found[1]), ("bye",)] else [f"it heard {short(peer.heard)}"])
            it.ends("the run", started, 4, "makeflow: file a damaged\n")
            it.note("the log", [] if f"lost 2 {found[1]}" in logs.kinds(it.records()) else [f"it logged {logs.kinds(it.records())}"])


GROUPS = [peers_one_after_another, peers_strangers, peers_wrong_results, peers_contents, peers_halts]
