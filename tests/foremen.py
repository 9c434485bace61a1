"""Cases of foremen: the built work_queue_foreman between the built makeflow and built workers on this machine, and with small peers
here."""
import os
import socket
import threading
import time
from types import SimpleNamespace

import logs
from peers import NO_CORE, ONE_CORE, Peer, result, totals
from places import COMPLETE, MEBI, PROGRAM, SECONDS, Place, complete, outcome, say, short
from resumes import ONE, ONE_RUN
from workers import BYE as WORKER_BYE
from workers import HOST, LEAVE, MOST_BODY, WORKER, Wire, counted, hello, put, task
from wq import NO_MASTER, WAIT, Farm, free_port, listens

FOREMAN = "work_queue_foreman"
BYE, CLOSED, FAULT, BAD, USAGE = (f"{FOREMAN}: {it}\n" for it in ("bye", "closed", "fault", "bad message", "usage"))


class Yard(Farm):
    """A farm with a foreman, at whose port workers come."""

    def __init__(self, *what, **how):
        super().__init__(*what, **how)
        self.place.put(f"{os.path.dirname(PROGRAM)}/{FOREMAN}", f"{self.place.room}/{FOREMAN}")
        self.place.give()
        self.gate = free_port()
        self.threads, self.over = [], False

    def __exit__(self, *error):
        self.over = True
        return super().__exit__(*error)

    def foreman(self, *words, port=None, host_port=None, waits=True):
        started = self.begin(("-p", str(port or self.gate), *words, HOST, str(host_port or self.port)), FOREMAN)
        if waits:
            self.wait("the foreman's port", lambda: listens(port or self.gate) or started.poll() is not None)
        return started

    def under(self, *words, port=None, **how):
        """A worker of the foreman."""
        return self.begin((*words, HOST, str(port or self.gate)), WORKER, **how)

    def again(self, start):
        """Starts a program again whenever it ends for want of its parent; answers its ends."""
        ends = []

        def loop():
            while not self.over:
                started = start()
                out, err = started.communicate()
                ends.append((started.returncode, out, err))
                if started.returncode not in NO_MASTER:
                    return
                time.sleep(0.1)

        thread = threading.Thread(target=loop, daemon=True)
        thread.start()
        self.threads.append(thread)
        return ends

    def joined(self, step, ends, printed):
        until = time.monotonic() + SECONDS
        while (not ends or ends[-1][0] in NO_MASTER) and time.monotonic() < until:
            time.sleep(0.05)
        self.note(step, [] if ends and ends[-1] == (0, printed.encode(), b"") else [f"its ends are {ends[-2:]}"])

    def at_gate(self):
        return SimpleNamespace(port=self.gate, note=self.note)


def foremen_first():
    """Three processes over one rule, and all of them started by loops."""
    with Yard("a master, a foreman and a worker", {"in": "abc"}, ONE, {"out": b"abc"}, cores=None) as it:
        started = it.master()
        foreman = it.foreman()
        worker = it.under()
        it.ends("the run", started, 0, COMPLETE, ONE_RUN)
        it.note("the foreman", outcome(foreman, 0, BYE))
        it.note("the worker", outcome(worker, 0, WORKER_BYE))
        it.note("the log", [] if it.links() == [1] else [f"the links are {it.links()}"])

    with Yard("a foreman and a worker are started again until the master listens", {"in": "abc"}, ONE, {"out": b"abc"}, cores=None) as it:
        worker = it.again(it.under)
        foreman = it.again(lambda: it.foreman(waits=False))
        it.wait("ends", lambda: worker and foreman)
        it.ends("the run", it.master(), 0, COMPLETE, ONE_RUN)
        it.joined("the foreman", foreman, BYE)
        it.joined("the worker", worker, WORKER_BYE)

    rules = [(f"cat in > o{at}", ["in"], [f"o{at}"]) for at in range(20)]
    with Yard("20 rules at a foreman of two workers", {"in": "abc"}, rules, {f"o{at}": b"abc" for at in range(20)}) as it:
        started = it.master()
        foreman = it.foreman()
        workers = [it.under("--cores", "2") for _ in range(2)]
        it.ends("the run", started, 0, complete(20))
        it.note("the foreman", outcome(foreman, 0, BYE))
        for at, worker in enumerate(workers):
            it.note(f"worker {at}", outcome(worker, 0, WORKER_BYE))

    with Yard("a foreman of a foreman", {"in": "abc"}, ONE, {"out": b"abc"}, cores=None) as it:
        started = it.master()
        upper = it.foreman()
        port = free_port()
        lower = it.foreman(port=port, host_port=it.gate)
        worker = it.under(port=port)
        it.ends("the run", started, 0, COMPLETE, ONE_RUN)
        for name, each in (("the upper foreman", upper), ("the lower foreman", lower)):
            it.note(name, outcome(each, 0, BYE))
        it.note("the worker", outcome(worker, 0, WORKER_BYE))


def foremen_losses():
    """Workers and foremen that are lost in mid task."""
    rules = [(WAIT.format(0), [], ["o0"]), ("cat o0 > o1", ["o0"], ["o1"])]
    made = {"o0": b"0\n", "o1": b"0\n"}
    with Yard("a worker of a foreman is lost in mid task", {}, rules, made) as it:
        started = it.master()
        foreman = it.foreman()
        first = it.under("--cores", "1", env=it.elsewhere())
        it.wait("the task", lambda: it.there("up.0"))
        second = it.under("--cores", "1")
        time.sleep(0.5)
        os.remove(f"{it.place.room}/up.0")
        it.kill(first)
        it.wait("the task again", lambda: it.there("up.0"))
        it.beside("go")
        it.ends("the run", started, 0, complete(2))
        it.note("the log", [] if not any(kind.startswith("lost") for kind in logs.kinds(it.records())) else ["an attempt was lost"])
        it.note("the foreman", outcome(foreman, 0, BYE))
        it.note("the other worker", outcome(second, 0, WORKER_BYE))

    with Yard("a foreman is lost in mid task, and started again", {}, rules, made) as it:
        started = it.master()
        foreman = it.foreman()
        worker = it.again(lambda: it.under("--cores", "1"))
        it.wait("the task", lambda: it.there("up.0"))
        os.remove(f"{it.place.room}/up.0")
        it.kill(foreman)
        it.beside("go")
        other = it.foreman()
        it.ends("the run", started, 0, complete(2))
        it.note("the other foreman", outcome(other, 0, BYE))
        it.joined("the worker", worker, WORKER_BYE)
        it.note("the worker's ends", [] if any(status == 4 for status, _, _ in worker) else [f"no end has status 4: {worker}"])


def foremen_strangers():
    """What comes to a foreman's port and is no worker. Each is left, and the run goes on."""
    first = hello(NO_CORE, 0)
    rows = [("bytes of no frame", b"\xff" * 64), (f"a length of {MOST_BODY + 1}", (MOST_BODY + 1).to_bytes(4, "big")), ("an empty body", counted(b"")), ("totals", totals(NO_CORE, 0)),
            ("a result", result(0, b"")), ("a put", put(0, b"abc")), ("a task", task(0, "true")), ("the end of the work", LEAVE), ("a second hello", first + first),
            ("a put behind a hello", first + put(0, b"abc")), ("a length behind a hello", first + (MOST_BODY + 1).to_bytes(4, "big"))]
    rules = [(WAIT.format(0), [], ["o0"])]
    with Yard("strangers at a foreman's port", {}, rules, {"o0": b"0\n"}) as it:
        started = it.master()
        foreman = it.foreman()
        worker = it.under("--cores", "1")
        it.wait("the task", lambda: it.there("up.0"))
        for name, sent in rows:
            with Peer(it.at_gate(), sent) as peer:
                peer.leaves(name)
        it.beside("go")
        it.ends("the run", started, 0, complete(1))
        it.note("the foreman", outcome(foreman, 0, BYE))
        it.note("the worker", outcome(worker, 0, WORKER_BYE))


class Above(Wire):
    """The parent of a foreman, that speaks here, and a hello of the foreman's that is due."""

    def __init__(self, yard, hall):
        self.data = bytearray()
        self.link, _ = hall.accept()
        self.link.settimeout(SECONDS)
        yard.note("the hello", [] if (found := self.hear()) == ("hello", 1, (0, 0, 0), (0, 0, 0), 0) else [f"it said {short(found)}"])


def foremen_ends():
    """How a foreman ends."""
    place = Place({})
    try:
        place.put(f"{os.path.dirname(PROGRAM)}/{FOREMAN}", f"{place.room}/{FOREMAN}")
        place.give()
        for words in [(), (HOST,), (HOST, "0"), ("-p", "0", HOST, "1"), ("--cores", "1", HOST, "1"), (HOST, "1", "2"), ("--help",)]:
            say(f"a foreman with the words {words}", outcome(place.start(words, program=FOREMAN), 2, USAGE))
        say("a foreman that nobody takes", outcome(place.start(("-p", str(free_port()), HOST, str(free_port())), program=FOREMAN), 5, FAULT))
    finally:
        place.close()
    rows = [("the work is over", LEAVE, 0, BYE), ("a message that only goes up", hello(NO_CORE, 0), 6, BAD), ("bytes of no frame", b"\xff" * 8, 6, BAD), ("the parent closes", None, 4, CLOSED)]
    for name, sent, status, printed in rows:
        with Yard(f"a foreman ends: {name}", {}, [], {}) as it, socket.create_server((HOST, it.port)) as hall:
            hall.settimeout(SECONDS)
            started = it.foreman(waits=False)
            above = Above(it, hall)
            with Peer(it.at_gate(), hello(ONE_CORE, 4096 * MEBI)) as peer:
                it.note("the totals", [] if (found := above.hear(lambda body: body)) and found[0] == 8 else [f"it said {short(found)}"])
                above.tell(sent) if sent else above.link.close()
                it.note("the end", outcome(started, status, printed))
                found = peer.next()
                it.note("the worker", [] if found == (("bye",) if status == 0 else None) else [f"it heard {short(found)}"])
            above.link.close()
    with Yard("a foreman whose port is taken", {}, [], {}) as it, socket.create_server((HOST, it.port)), socket.create_server(("", it.gate)):
        it.note("the end", outcome(it.foreman(waits=False), 5, FAULT))


def foremen_contents():
    """What many rules take in goes down once, and the same attempt comes back with its own result."""
    with Yard("a content goes to a worker of a foreman once", {}, [], {}) as it, socket.create_server((HOST, it.port)) as hall:
        hall.settimeout(SECONDS)
        started = it.foreman(waits=False)
        above = Above(it, hall)
        with Peer(it.at_gate(), hello(ONE_CORE, 4096 * MEBI)) as peer:
            above.hear(lambda body: body)
            above.tell(put(3, b"abc"), task(5, "true", [(3, "in")], needs=ONE_CORE), task(6, "true", [(3, "in")], needs=ONE_CORE))
            for attempt in (5, 6):
                found = peer.next_task()
                it.note("a task", [] if found and found[0] == "task" else [f"it heard {short(found)}"])
                peer.tell(result(found[1], b"out %d" % attempt))
                it.note("its result", [] if (came := above.hear()) == ("done", attempt, [b"out %d" % attempt]) else [f"it said {short(came)}"])
            it.note("the puts", [] if peer.count("put") == 1 else [f"{peer.count('put')} puts"])
            above.tell(LEAVE)
            it.note("the end", outcome(started, 0, BYE))
        above.link.close()


GROUPS = [foremen_first, foremen_losses, foremen_strangers, foremen_ends, foremen_contents]
