"""Cases of a worker by itself: a small master here speaks with the built work_queue_worker over a socket of this machine, by
the frames and messages of docs/WIRE.md."""
import os
import signal
import socket
import struct
import time

from places import MEBI, MOST, PROGRAM, SECONDS, Place, content_of, outcome, say, short

WORKER = "work_queue_worker"
BYE, CLOSED, FAULT, BAD, USAGE = (f"{WORKER}: {it}\n" for it in ("bye", "closed", "fault", "bad message", "usage"))
MOST_BODY = 71_303_168
MOST_JOBS = 64
HOST = "127.0.0.1"
WHOLE = (4, 4096, 16384)
OWN_SECONDS = 0.15


def counted(data):
    return struct.pack(">I", len(data)) + data


def text(it):
    return counted(it.encode())


def put(file, content, run=1):
    return counted(b"\2" + struct.pack(">QI", run, file) + counted(content))


def task(attempt, command, inputs=(), outputs=("out",), env=(), needs=None, run=1):
    """`inputs` are (file, remote name), `outputs` a remote name or one with its bound, `env` (name, value)."""
    bounded = [(it, MOST) if isinstance(it, str) else it for it in outputs]
    body = b"\3" + struct.pack(">QQ", attempt, run) + text(command)
    body += b"\1" + struct.pack(">III", *needs) if needs else b"\0"
    body += struct.pack(">I", len(env)) + b"".join(text(name) + text(value) for name, value in env)
    body += struct.pack(">I", len(inputs)) + b"".join(struct.pack(">I", file) + text(remote) for file, remote in inputs)
    body += struct.pack(">I", len(bounded)) + b"".join(text(remote) + struct.pack(">Q", bound) for remote, bound in bounded)
    return counted(body)


def cancel(attempt):
    return counted(b"\6" + struct.pack(">Q", attempt))


def unlink(file, run=1):
    return counted(b"\7" + struct.pack(">QI", run, file))


def hello(amounts, cache):
    return counted(b"\1" + struct.pack(">H", 1) + struct.pack(">III", *amounts) * 2 + struct.pack(">Q", cache))


LEAVE = counted(b"\x09")


class Body:
    """The fields of one message that came up, read from the left."""

    def __init__(self, data):
        self.data, self.at = data, 0

    def take(self, size):
        if self.at + size > len(self.data):
            raise ValueError(f"a body that is too short: {short(self.data)}")
        self.at += size
        return self.data[self.at - size:self.at]

    def number(self, form):
        return struct.unpack(f">{form}", self.take(struct.calcsize(f">{form}")))[0]

    def outcome(self):
        kind = self.number("B")
        if kind == 0:
            return [self.take(self.number("I")) for _ in range(self.number("I"))]
        if kind == 1:
            return ("status", self.number("i"))
        if kind == 2:
            return ("missing", self.number("I"))
        return ("too long", self.number("I"), self.number("Q")) if kind == 3 else "not run" if kind == 4 else f"outcome {kind}"

    def message(self):
        """What the body says: a tuple that begins with the message's name."""
        kind = self.number("B")
        if kind == 1:
            version = self.number("H")
            total, largest = (tuple(self.number("I") for _ in range(3)) for _ in range(2))
            found = ("hello", version, total, largest, self.number("Q"))
        elif kind == 4:
            found = ("done", self.number("Q"), self.outcome())
        elif kind == 5:
            found = ("missing", self.number("Q"), [self.number("I") for _ in range(self.number("I"))])
        else:
            found = (f"kind {kind}", self.take(len(self.data) - self.at))
        return found if self.at == len(self.data) else ("too long a body", self.data)


def done(attempt, *contents):
    return ("done", attempt, list(contents))


def worker_place():
    place = Place({})
    place.put(f"{os.path.dirname(PROGRAM)}/{WORKER}", f"{place.room}/{WORKER}")
    return place


class Wire:
    """One end of a link, over the socket `link`; `data` has what came and wasn't taken yet."""

    def tell(self, *frames):
        self.link.sendall(b"".join(frames))

    def fill(self, size):
        """Whether so many bytes are there; they aren't where the other end has closed the link."""
        while len(self.data) < size:
            try:
                piece = self.link.recv(MEBI)
            except ConnectionResetError:
                piece = b""
            if not piece:
                return False
            self.data += piece
        return True

    def hear(self, read=lambda body: Body(body).message()):
        """The next message, or None where the other end has closed the link."""
        if not self.fill(4):
            return ("a part of a length", bytes(self.data)) if self.data else None
        size = 4 + struct.unpack(">I", self.data[:4])[0]
        if not self.fill(size):
            return ("a part of a frame", len(self.data), size)
        body = bytes(self.data[4:size])
        del self.data[:size]
        return read(body)


class Talk(Wire):
    """A worker and its master: `with Talk(..) as it:`. The worker has said the hello that is due when the body begins.
    All that is wrong is said together at the end. ROOM in a command is the folder around the place."""

    def __init__(self, name, *words, amounts=WHOLE, cache=4096 * MEBI, host=HOST, **streams):
        self.name, self.words, self.host, self.streams = name, words, host, streams
        self.hello, self.found, self.data = ("hello", 1, amounts, amounts, cache), [], bytearray()
        self.place, self.hall = worker_place(), socket.create_server((HOST, 0))
        self.hall.settimeout(SECONDS)
        self.link, self.worker = None, None

    def __enter__(self):
        try:
            self.worker = self.place.start((*self.words, self.host, str(self.hall.getsockname()[1])), program=WORKER, **self.streams)
            self.link, _ = self.hall.accept()
            self.link.settimeout(SECONDS)
            self.link.setsockopt(socket.IPPROTO_TCP, socket.TCP_NODELAY, 1)
            self.hears("the hello", self.hello)
        except (OSError, ValueError) as error:
            self.found.append(f"no hello came: {error!r}")
        return self

    def __exit__(self, kind, error, trace):
        try:
            if error:
                self.found.append(f"the test itself failed at line {trace.tb_lineno}: {error!r}")
            if self.worker and self.worker.returncode is None:
                self.found.append("it had to be killed")
                self.worker.kill()
                self.worker.communicate()
            if self.found and self.worker:
                self.end_commands()
            say(self.name, self.found + ([] if error else self.place.wrong({})))
        finally:
            for it in (self.link, self.hall):
                if it:
                    it.close()
            self.place.close()
        return isinstance(error, Exception)

    def end_commands(self):
        """Where the case failed, commands may be left that wait for ever."""
        try:
            os.killpg(self.worker.pid, signal.SIGKILL)
        except ProcessLookupError:
            pass

    def note(self, step, wrong):
        self.found += [f"{step}: {it}" for it in wrong]

    def asks(self, attempt, command, *parts, **more):
        """A task whose command may name ROOM."""
        self.tell(task(attempt, command.replace("ROOM", self.place.room), *parts, **more))

    def hears(self, step, *wanted):
        """These messages come next, in any order."""
        found = [self.hear() for _ in wanted]
        wrong = [it for it in wanted if it not in found] + [it for it in found if it not in wanted]
        self.note(step, [f"it said {short(found)}, not {short(list(wanted))}"] if wrong else [])

    def ends(self, status, printed, step="the end"):
        """It says nothing more, and ends so."""
        more = self.hear()
        self.note(step, [f"it said {short(more)}"] if more else [])
        self.note(step, outcome(self.worker, status, printed))

    def leaves(self):
        self.tell(LEAVE)
        self.ends(0, BYE)

    def close(self):
        self.link.close()

    def reset(self):
        """The link breaks: what closes it now is no end of what was sent, but a reset."""
        self.link.setsockopt(socket.SOL_SOCKET, socket.SO_LINGER, struct.pack("ii", 1, 0))
        self.link.close()

    def beside(self, name):
        """Makes a file that commands find under ROOM."""
        with open(f"{self.place.room}/{name}", "w"):
            pass

    def there(self, *names):
        return all(os.path.exists(f"{self.place.room}/{it}") for it in names)

    def wait(self, what, holds, seconds=SECONDS):
        until = time.monotonic() + seconds
        while not holds():
            if time.monotonic() > until:
                raise TimeoutError(f"{what} didn't come within {seconds} seconds")
            time.sleep(0.02)

    def own_seconds(self):
        """The processor time that the worker itself took, without its commands."""
        ticks = content_of(f"/proc/{self.worker.pid}/stat").decode().rsplit(")", 1)[1].split()[11:13]
        return sum(map(int, ticks)) / os.sysconf("SC_CLK_TCK")


def worker_hellos():
    """What it says first, by its words."""
    spelled = bytes.fromhex("00000023 01 0001 00000004 00001000 00004000 00000004 00001000 00004000 0000000100000000".replace(" ", ""))
    right = (hello(WHOLE, 4096 * MEBI), LEAVE, cancel(5)) == (spelled, bytes.fromhex("0000000109"), bytes.fromhex("00000009060000000000000005"))
    say("frames as they stand in docs/WIRE.md", [] if right else ["this master spells them in another way"])
    rows = [((), WHOLE, 4096), (("--cores", "1", "--memory", "2", "--disk", "3", "--cache", "5"), (1, 2, 3), 5), (("--cores=0", "--cache=0"), (0, 4096, 16384), 0),
            (("--disk", "1000000000", "--cores", "1000000000", "--memory=1000000000", "--cache", "1000000"), (10**9, 10**9, 10**9), 10**6)]
    for words, amounts, cache in rows:
        with Talk(f"a worker says hello: {' '.join(words) or 'no options'}", *words, amounts=amounts, cache=cache * MEBI) as it:
            it.leaves()
    with Talk("a worker of a host by its name", host="localhost") as it:
        it.leaves()


def worker_jobs():
    """One job after the other, and what is said of each."""
    with Talk("a worker runs a task over a content that was put") as it:
        it.tell(put(3, b"abc"), task(5, "cat in > out", [(3, "in")]))
        it.hears("the task", done(5, b"abc"))
        it.asks(6, "cat one two", [(3, "one"), (3, "two")], ())
        it.hears("a task without outputs", done(6))
        it.asks(7, "cat sub/in > made/here; echo $A > more", [(3, "sub/in")], ("made/here", "more"), [("A", "one two")], (1, 2, 3))
        it.hears("other names and a variable", done(7, b"abc", b"one two\n"))
        it.asks(2**64 - 1, "cat in > out", [(2**32 - 1, "in")], run=2**64 - 1)
        it.hears("the highest numbers", ("missing", 2**64 - 1, [2**32 - 1]))
        it.leaves()

    failures = [("a failing command", "exit 3", ("out",), ("status", 3)), ("one that wrote its output", "echo > out; exit 1", ("out",), ("status", 1)),
                ("a command that isn't there", "no-such-program", ("out",), ("status", 127)), ("a command that is killed", "kill -9 $$", ("out",), ("status", 137)),
                ("an output that is missing", "echo > a", ("a", "b"), ("missing", 1)), ("a folder as output", "mkdir b; echo > a", ("a", "b"), ("missing", 1)),
                ("an output above its bound", "echo > a; echo four > b", ("a", ("b", 4)), ("too long", 1, 5)),
                ("an output at its bound", "echo four > b", (("b", 5),), [b"four\n"])]
    with Talk("a worker tells how commands fail") as it:
        for at, (name, command, outputs, wanted) in enumerate(failures):
            it.asks(at, command, outputs=outputs)
            it.hears(name, ("done", at, wanted))
        it.leaves()

    with Talk("the end of a command by a signal is told a second later") as it:
        it.asks(0, "kill -9 $$")
        begun = time.monotonic()
        it.hears("the command", ("done", 0, ("status", 137)))
        passed = time.monotonic() - begun
        it.found += [] if 0.9 < passed < 5 else [f"it came after {passed:.1f} s"]
        it.leaves()

    with Talk("what a worker's command finds", env={"A": "the worker's own"}) as it:
        it.tell(put(3, b"#!/bin/sh\necho made\n"))
        rows = [("its inputs alone", "ls -A > out", b"in\nout\n"), ("an input that may be run", "./in > out", b"made\n"), ("no input", "cat > out", b""),
                ("no open file", "ls /proc/self/fd > out", b"0\n1\n2\n3\n"), ("no variable of the worker's", "env | grep -v -e ^PWD= -e ^OLDPWD= -e ^SHLVL= -e ^_= > out", b"PATH=/usr/local/bin:/usr/bin:/bin\n"),
                ("a folder of its own", "stat -c %a . > out; echo noise; echo noise >&2", b"700\n"), ("a closed folder is left", "mkdir -p a/b; chmod 0 a; echo > out", b"\n")]
        for at, (name, command, made) in enumerate(rows):
            it.asks(at, command, [(3, "in")])
            it.hears(name, done(at, made))
        it.leaves()

    data = os.urandom(MEBI) * (MOST // MEBI)
    with Talk(f"a content of {MOST} bytes goes down and comes up") as it:
        it.tell(put(3, data), task(5, "cat in > out", [(3, "in")]))
        it.hears("the task", done(5, data))
        it.leaves()

    with Talk("frames that come byte by byte") as it:
        for byte in put(3, b"abc") + task(5, "cat in > out", [(3, "in")]):
            it.tell(bytes([byte]))
        it.hears("the task", done(5, b"abc"))
        it.leaves()


def worker_jobs_at_once():
    """As many jobs at once as there are cores, and at most 64."""
    meet = "touch ROOM/{0}; while [ ! -e ROOM/{1} ]; do sleep 0.01; done; echo {0} > out"
    with Talk("two tasks of a worker of two cores wait for each other", "--cores", "2", amounts=(2, 4096, 16384)) as it:
        it.asks(1, meet.format("a", "b"))
        it.asks(2, meet.format("b", "a"))
        it.hears("the tasks", done(1, b"a\n"), done(2, b"b\n"))
        it.leaves()

    for cores in (0, 1):
        with Talk(f"a worker of {cores} cores runs one job at a time", "--cores", str(cores), amounts=(cores, 4096, 16384)) as it:
            for at in range(6):
                it.asks(at, f"touch ROOM/on.{at}; sleep 0.05; ls ROOM | grep -c ^on. > out; rm ROOM/on.{at}")
            it.hears("the tasks", *(done(at, b"1\n") for at in range(6)))
            it.leaves()

    with Talk("70 tasks of a worker of 100 cores", "--cores", "100", amounts=(100, 4096, 16384)) as it:
        def running():
            return sum(name.startswith("on.") for name in os.listdir(it.place.room))

        for at in range(70):
            it.asks(at, f"touch ROOM/on.{at}; while [ ! -e ROOM/go ]; do sleep 0.2; done; echo {at} > out")
        it.wait(f"{MOST_JOBS} jobs", lambda: running() >= MOST_JOBS)
        time.sleep(1)
        it.note("before any ends", [] if running() == MOST_JOBS else [f"{running()} jobs ran"])
        it.beside("go")
        it.hears("the tasks", *(done(at, f"{at}\n".encode()) for at in range(70)))
        it.leaves()

    with Talk("a report comes while other jobs run") as it:
        it.asks(1, "while [ ! -e ROOM/go ]; do sleep 0.01; done; echo > out")
        it.asks(2, "echo two > out")
        it.hears("the short one", done(2, b"two\n"))
        it.tell(put(3, b"abc"), task(3, "cat in > out", [(3, "in")]))
        it.hears("one that came later", done(3, b"abc"))
        it.beside("go")
        it.hears("the long one", done(1, b"\n"))
        it.leaves()


def worker_inputs():
    """Contents that aren't there, that are taken away, and for which there is no room."""
    def lacks(it, attempt, inputs, missing, run=1):
        it.asks(attempt, "cat in.* > out", [(file, f"in.{at}") for at, file in enumerate(inputs)], run=run)
        it.hears(f"attempt {attempt}", ("missing", attempt, missing))

    with Talk("what is missing is put, and the task comes again") as it:
        lacks(it, 5, [9, 3, 7, 3], [3, 7, 9])
        it.tell(put(3, b"c"), put(9, b"a"))
        lacks(it, 5, [9, 3, 7, 3], [7])
        it.tell(put(7, b"b"), task(5, "cat 0 1 2 3 > out", [(9, "0"), (3, "1"), (7, "2"), (3, "3")]))
        it.hears("the task", done(5, b"acbc"))
        lacks(it, 6, [3], [3], run=2)
        it.tell(put(3, b"of run 2", run=2), task(6, "cat in > out", [(3, "in")], run=2), task(7, "cat in > out", [(3, "in")]))
        it.hears("two runs", done(6, b"of run 2"), done(7, b"c"))
        it.tell(unlink(3))
        lacks(it, 8, [9, 3], [3])
        it.leaves()

    with Talk("no room for a content", "--cache", "0", cache=0) as it:
        it.tell(put(3, b"abc"))
        lacks(it, 5, [3], [3])
        it.tell(put(4, b""), task(6, "cat in > out", [(4, "in")]))
        it.hears("an empty content", done(6, b""))
        it.leaves()

    with Talk("the oldest content leaves", "--cache", "1", cache=MEBI) as it:
        it.tell(put(3, b"a" * (MEBI // 2)), put(4, b"b" * (MEBI // 2)), put(5, b"c"))
        lacks(it, 1, [3, 4, 5], [3])
        it.tell(task(2, "cat in more | wc -c > out", [(4, "in"), (5, "more")]))
        it.hears("the others", done(2, f"{MEBI // 2 + 1}\n".encode()))
        it.leaves()

    with Talk("a content of a job that runs doesn't leave", "--cache", "1", cache=MEBI) as it:
        it.tell(put(3, b"a" * MEBI))
        it.asks(1, "touch ROOM/up; while [ ! -e ROOM/go ]; do sleep 0.01; done; wc -c < in > out", [(3, "in")])
        it.wait("the job", lambda: it.there("up"))
        it.tell(put(4, b"b"))
        lacks(it, 2, [4], [4])
        it.beside("go")
        it.hears("the job", done(1, f"{MEBI}\n".encode()))
        it.tell(put(4, b"b"), task(3, "cat in > out", [(4, "in")]))
        it.hears("room again", done(3, b"b"))
        lacks(it, 4, [3], [3])
        it.leaves()


def worker_ends():
    """Cancels, and the end of the work while jobs run."""
    waits = "touch ROOM/up.{0}; while [ ! -e ROOM/go ]; do sleep 0.01; done; echo {0} > out; touch ROOM/ran.{0}"
    with Talk("a task that is cancelled says nothing more") as it:
        for at in (5, 6):
            it.asks(at, waits.format(at))
        it.asks(5, waits.format("again"))
        it.wait("both", lambda: it.there("up.5", "up.6"))
        it.tell(cancel(5), cancel(9))
        it.asks(7, "echo seven > out")
        it.hears("what came later", done(7, b"seven\n"))
        it.beside("go")
        it.hears("the other", done(6, b"6\n"))
        it.leaves()
        it.note("the jobs", [] if it.there("ran.5", "ran.6") and not it.there("up.again") else ["the cancelled one wasn't run once"])

    with Talk("the work is over while jobs run and wait", "--cores", "2", amounts=(2, 4096, 16384)) as it:
        for at in range(5):
            it.asks(at, waits.format(at))
        it.tell(LEAVE, task(9, "echo > out"))
        it.wait("two jobs", lambda: sum(it.there(f"up.{at}") for at in range(5)) == 2)
        it.beside("go")
        it.hears("all", *(done(at, f"{at}\n".encode()) for at in range(5)))
        it.ends(0, BYE)

    with Talk("the link breaks behind the end of the work") as it:
        it.asks(1, waits.format(1))
        it.asks(2, waits.format(2))
        it.tell(LEAVE)
        it.wait("two jobs", lambda: it.there("up.1", "up.2"))
        it.reset()
        it.beside("go")
        it.note("the end", outcome(it.worker, 0, BYE))

    for name, how, status, printed in [("closes the link", Talk.close, 4, CLOSED), ("resets the link", Talk.reset, 5, FAULT),
                                       ("sends no message", lambda it: it.tell(counted(b"\x0a")), 6, BAD)]:
        with Talk(f"the master {name} while a job runs, and another waits", "--cores", "1", amounts=(1, 4096, 16384)) as it:
            for at in (1, 2):
                it.asks(at, waits.format(at))
            it.wait("the job", lambda: it.there("up.1"))
            how(it)
            time.sleep(0.3)
            it.note("the job", ["it wasn't waited for"] if it.worker.poll() is not None else [])
            it.beside("go")
            it.note("the end", outcome(it.worker, status, printed))
            it.note("the jobs", [] if it.there("ran.1") and not it.there("up.2") else ["they weren't ended so"])


def worker_faults():
    """Ends but Bye, with their statuses and lines."""
    for name, sent in [("at once", b""), ("within a length", b"\0\0\0"), ("within a frame", put(3, b"abc")[:-1]), ("behind a message", cancel(5))]:
        with Talk(f"the master closes the link {name}") as it:
            it.tell(sent)
            it.close()
            it.note("the end", outcome(it.worker, 4, CLOSED))
    with Talk("the master resets the link") as it:
        it.reset()
        it.note("the end", outcome(it.worker, 5, FAULT))

    bad = [("a request of another protocol", b"GET / HTTP/1.1\r\nHost: localhost\r\n\r\n"), (f"a length of {MOST_BODY + 1}", struct.pack(">I", MOST_BODY + 1)),
           ("an empty body", counted(b"")), ("a kind that there isn't", counted(b"\x0a")), ("a body that is too short", counted(b"\6\0")), ("a body that is too long", counted(b"\x09\0")),
           ("a hello", hello(WHOLE, 0)), ("totals", counted(b"\x08" + bytes(32))), ("a result", counted(b"\4" + bytes(8) + b"\4")), ("what is missing", counted(b"\5" + bytes(8) + b"\0\0\0\1\0\0\0\2")),
           ("an input of a bad name", task(1, "true", [(3, "../in")])), ("a command that isn't UTF-8", task(1, "t??e").replace(b"??", b"\xff\xff"))]
    for name, sent in bad:
        for before in (b"", cancel(5)):
            with Talk(f"the master sends {name}{', behind a message' if before else ''}") as it:
                it.tell(before, sent)
                it.ends(6, BAD)

    with Talk(f"a length of {MOST_BODY} is waited for") as it:
        it.tell(struct.pack(">I", MOST_BODY))
        time.sleep(0.5)
        it.note("half a second later", [] if it.worker.poll() is None else ["it had ended"])
        it.close()
        it.note("the end", outcome(it.worker, 4, CLOSED))

    nobody = socket.socket()
    nobody.bind((HOST, 0))
    one_call("a port at which nobody listens", (HOST, str(nobody.getsockname()[1])), 5, FAULT)
    nobody.close()


def one_call(name, words, status, printed, **streams):
    """A worker that has no master."""
    place = worker_place()
    try:
        say(f"{WORKER}: {name}", outcome(place.start(words, program=WORKER, **streams), status, printed) + place.wrong({}))
    finally:
        place.close()


def worker_words():
    """Words that are no command line, and a standard output that takes nothing."""
    for words in [(), (HOST,), ("--cores", "1"), (HOST, "0"), (HOST, "65536"), (HOST, "x"), (HOST, "09123"), (HOST, "+9123"), (HOST, "1", "2"), ("--cores", "1", "--cores", "1", HOST, "1"), ("--cores", "1000000001", HOST, "1"),
                  ("--cache", "1000001", HOST, "1"), ("--memory", "-1", HOST, "1"), ("--disk", "1M", HOST, "1"), ("-p", "1", HOST, "1"), ("--jx", HOST, "1"), ("--help",), ("--version",), (b"\xff", "1")]:
        one_call(f"the words {words}", words, 2, USAGE)
    with open("/dev/full", "wb") as full:
        one_call("wrong words, standard output full", (), 5, "", stdout=full)
        with Talk("the work is over, standard output full", stdout=full) as it:
            it.tell(LEAVE)
            it.ends(5, "")
    with Talk("the work is over, standard output closed", stdout=None, preexec_fn=lambda: os.close(1)) as it:
        it.tell(LEAVE)
        it.ends(5, "")


def worker_rests():
    """It takes next to no processor time while its commands sleep, before it was told that the work is over and after it."""
    for told in (False, True):
        with Talk(f"own time while two commands sleep 3 seconds{', behind the end of the work' if told else ''}") as it:
            for at in (1, 2):
                it.asks(at, f"touch ROOM/up.{at}; sleep 3; echo > out")
            it.tell(LEAVE if told else b"")
            it.wait("both", lambda: it.there("up.1", "up.2"))
            before = it.own_seconds()
            time.sleep(2.5)
            own = it.own_seconds() - before
            it.hears("the tasks", done(1, b"\n"), done(2, b"\n"))
            it.note("meanwhile", [] if own < OWN_SECONDS else [f"it took {own:.2f} seconds of its own"])
            if told:
                it.ends(0, BYE)
            else:
                it.leaves()


GROUPS = [worker_hellos, worker_jobs, worker_jobs_at_once, worker_inputs, worker_ends, worker_faults, worker_words, worker_rests]
