"""Cases of the scripts: makeflow_log, makeflow_watch, makeflow_why, keep_output and
work_queue_factory, beside the built programs. Batch systems and ssh are stood in for by commands
that stand here. Whatever is waited for may take a minute; nothing is shown by how long it took.
"""
import fcntl
import json
import os
import pty
import re
import select
import signal
import struct
import subprocess
import termios

from places import COMPLETE, PROGRAM, SECONDS, USER, Place, complete, content_of, outcome, say, seen
from resumes import ONE, Course
from workers import HOST, WORKER
from wq import NETWORK_FAULT, Farm, free_port, listens

FACTORY = "work_queue_factory"
MOMENT = re.compile(r"\d{4}-\d\d-\d\dT\d\d:\d\d:\d\d\.\d{3}Z")
HELD = "touch ROOM/up.{0}; while [ ! -e ROOM/go ]; do sleep 0.05; done; {1}"


def python_user():
    """How to start the scripts: as the programs, where that user finds a python3."""
    words = {"stdin": subprocess.DEVNULL, "stdout": subprocess.DEVNULL,
             "stderr": subprocess.DEVNULL, "timeout": SECONDS}
    try:
        found = subprocess.run(["/usr/bin/env", "python3", "-c", ""], check=False, **words,
                               **USER).returncode == 0
    except (OSError, subprocess.SubprocessError):
        found = False
    return {} if found else dict.fromkeys(USER)


SCRIPT_USER = python_user()


def processes_in(room):
    """The processes that have a path of this room in their words, or stand in it, by number."""
    found = {}
    for number in filter(str.isdigit, os.listdir("/proc")):
        words, at = [], ""
        try:
            with open(f"/proc/{number}/cmdline", "rb") as it:
                words = it.read().decode("utf-8", "replace").split("\0")
            at = os.readlink(f"/proc/{number}/cwd")
        except OSError:
            pass
        if at.startswith(f"{room}/") or any(room in it for it in words):
            found[int(number)] = words
    return found


class Look(Course):
    """A course with the scripts beside it, and what they print."""

    def __init__(self, *what, **how):
        super().__init__(*what, **how)
        self.place.put_tools()
        self.place.give()
        self.sides = []

    def __exit__(self, kind, error, trace):
        for it in self.sides:
            if it.poll() is None:
                it.kill()
                it.wait()
        return super().__exit__(kind, error, trace)

    def script(self, name, *words, status=0, env=None):
        """The lines that a script prints, with TIME in the place of each moment."""
        started = self.place.start(words, env, program=name, **SCRIPT_USER)
        self.sides.append(started)
        out, err = started.communicate(timeout=SECONDS)
        self.note(f"{name} {' '.join(words)}", [f"on standard error {err!r}"] if err else [])
        self.note(f"{name} {' '.join(words)}",
                  [] if started.returncode == status
                  else [f"status {started.returncode}, not {status}"])
        return MOMENT.sub("TIME", out.decode()).splitlines()

    def prints(self, name, words, lines, status=0):
        found = self.script(name, *words, status=status)
        self.note(f"{name} {' '.join(words)}",
                  [] if found == lines else [f"it printed {found}, not {lines}"])

    def beside_it(self, words=("flow",), program="makeflow", **how):
        """Starts a program that runs on, what it prints goes to a file."""
        path = f"{self.place.room}/said.{len(self.sides)}"
        with open(path, "wb") as it:
            started = self.place.start(words, program=program,
                                       **{"stdout": it, "stderr": it, **how})
        self.sides.append(started)
        return started, lambda: content_of(path).decode().splitlines()

    def check(self, step, is_so, found):
        """Notes what was found where it isn't as wanted."""
        self.note(step, [] if is_so else [f"found {found}"])

    def no_log(self, step):
        self.note(step,
                  [f"it left {it}" for it in seen(self.place.work) if it.endswith(".makeflowlog")])


def watched():
    """A run that begins and ends while makeflow_watch looks, and the same run once it is over."""
    rules = [("cat in > out", ["in"], ["out"]),
             (HELD.format(1, "cat out > 'm e'"), ["out"], ["'m e'"])]
    half = f"[{'#' * 10}{'.' * 10}] 0 waiting, 1 running, 1 complete, 0 failed of 2"
    running = re.compile(re.escape(half) + r': rule 1 "m e" \d+ s here')
    first = f"[{'.' * 20}] 2 waiting, 0 running, 0 complete, 0 failed of 2"
    last = [f"[{'#' * 20}] 0 waiting, 0 running, 2 complete, 0 failed of 2", "# ended complete"]
    with Look("makeflow_watch", {"in": "abc"}, rules, {"out": b"abc", "m e": b"abc"}) as it:
        watch, said = it.beside_it(program="makeflow_watch", **SCRIPT_USER)
        it.wait("a line before the run", lambda: said() or watch.poll() is not None)
        it.check("before the run", said()[0] == first, said())
        it.no_log("before the run")
        run, ended = it.beside_it()
        it.wait("a line of the rule that runs",
                lambda: any(map(running.fullmatch, said())) or watch.poll() is not None)
        it.beside("go")
        it.wait("both ends", lambda: run.poll() is not None and watch.poll() is not None)
        it.check("the run", (run.returncode, ended()) == (0, [complete(2).strip()]), ended())
        it.check("the end", (watch.returncode, said()[-2:]) == (0, last), said())
        it.prints("makeflow_watch", ("flow",), last)
        it.prints("makeflow_watch", ("-l", "flow.makeflowlog", "flow"), last)


def watched_in_vain():
    """What makeflow_watch can't look at."""
    usage = "usage: makeflow_watch FLOW [-l NAME] [--jx]"
    refusals = [(("none",), "makeflow: no flow file none", 3),
                (("flow", "-l", "in"), "makeflow: the log's name is in the flow", 3),
                ((), f"makeflow_watch: the following arguments are required: FLOW; {usage}", 2),
                (("flow", "-x"), f"makeflow_watch: unrecognized arguments: -x; {usage}", 2)]
    with Look("makeflow_watch: refusals", {"in": "abc"}, ONE, {}) as it:
        for words, line, status in refusals:
            it.prints("makeflow_watch", words, [line], status)
        it.no_log("refusals")


def watched_on_a_terminal():
    """On a terminal there is one line, which is written over and fits."""
    name = "makeflow_watch on a terminal"
    try:
        here, there = pty.openpty()
    except OSError as error:
        print(f"{name}: no terminal is to be had ({error}), skipped")
        return
    fcntl.ioctl(there, termios.TIOCSWINSZ, struct.pack("HHHH", 24, 40, 0, 0))
    with Look(name, {"in": "abc"}, [("cat in > out", ["in"], ["out"])], {"out": b"abc"}) as it:
        it.call("the run", 0, COMPLETE)
        watch, _ = it.beside_it(program="makeflow_watch", stdout=there, **SCRIPT_USER)
        it.wait("its end", lambda: watch.poll() is not None)
        wanted = b"\r\x1b[K[##########] 1 of 1, 0 run, 0 failed\r\n# ended complete\r\n"
        printed = b""
        while len(printed) < len(wanted) and select.select([here], [], [], SECONDS)[0]:
            printed += os.read(here, 4096)
        it.check("the end", (watch.returncode, printed) == (0, wanted), printed)
    for it in (here, there):
        os.close(it)


WAITS = 'rule 2 "c" waits for "b" of rule 1'
DRY = [
    'rule 0 "a" can run',
    'rule 1 "b" waits for "a" of rule 0',
    WAITS,
    "3 rules: 0 complete, 0 running, 0 failed, 1 ready, 2 waiting",
]
NO_SOURCE = [
    'rule 0 "a" waits for "in", a source that isn\'t there',
    'rule 1 "b" waits for "a" of rule 0',
    f'{WAITS}, "in", a source that isn\'t there',
    "3 rules: 0 complete, 0 running, 0 failed, 0 ready, 3 waiting",
]
TRIED = [
    'rule 0 "a" is complete',
    'rule 1 "b" has failed: attempt 1 here (status 3), attempt 2 here (status 3)',
    WAITS,
    "3 rules: 1 complete, 0 running, 1 failed, 0 ready, 1 waiting",
]
MENDED = [
    'rule 0 "a" is complete',
    'rule 1 "b" is complete',
    'rule 2 "c" is complete',
    "3 rules: 3 complete, 0 running, 0 failed, 0 ready, 0 waiting",
]
LOGGED = [
    "# opened run 0",
    "TIME rule 0 started, attempt 0 here",
    "TIME rule 0 complete, attempt 0 here",
    "TIME rule 1 started, attempt 1 here",
    "TIME rule 1 waits again, attempt 1 here: status 3",
    "TIME rule 1 started, attempt 2 here",
    "TIME rule 1 failed, attempt 2 here: status 3",
    "# ended failed",
]


def explained():
    """makeflow_why and makeflow_log before a run, behind a failed one, and behind a mended one."""
    rules = [("cat in > a", ["in"], ["a"]),
             ("test -e ROOM/mended || exit 3; cat a > b", ["a"], ["b"]),
             ("cat b in > c", ["b", "in"], ["c"])]
    made = {"a": b"abc", "b": b"abc", "c": b"abcabc"}
    with Look("makeflow_why and makeflow_log", {"in": "abc"}, rules, made) as it:
        it.prints("makeflow_why", ("flow",), DRY)
        it.prints("makeflow_log", ("flow",), [])
        it.no_log("before a run")
        os.rename(it.path("in"), f"{it.place.room}/in")
        it.prints("makeflow_why", ("flow",), NO_SOURCE)
        it.no_log("before a run")
        os.rename(f"{it.place.room}/in", it.path("in"))
        failed = "makeflow: rule 1 failed: status 3\n"
        it.call("a run that fails", 1, failed, ("-r", "1", "flow"))
        it.prints("makeflow_why", ("flow",), TRIED)
        it.prints("makeflow_log", ("flow",), LOGGED)
        it.beside("mended")
        it.call("a run that is mended", 0, complete(3))
        it.prints("makeflow_why", ("flow", "-l", "flow.makeflowlog"), MENDED)


def explained_in_vain():
    """What makeflow_why and makeflow_log can't look at."""
    with Look("makeflow_why and makeflow_log: refusals", {"in": "abc"}, ONE, {}) as it:
        for name in ("makeflow_why", "makeflow_log"):
            usage = f"usage: {name} FLOW [-l NAME] [--jx]"
            for words, line, status in [
                    (("none",), "makeflow: no flow file none", 3),
                    (("--jx", "flow"), "makeflow: flow: syntax fault at 3", 3),
                    ((), f"{name}: the following arguments are required: FLOW; {usage}", 2),
                    (("flow", "flow"), f"{name}: unrecognized arguments: flow; {usage}", 2)]:
                it.prints(name, words, [line], status)
        it.no_log("refusals")


def explained_outputs():
    """What makeflow_why says of outputs, whose names stand in quotes."""
    for command, why in [("true", 'output "o\\no" missing'),
                         ("echo long > 'o\no'", 'output "o\\no" too long, 5 bytes')]:
        flow = {"rules": [{"command": command, "outputs": [{"dag_name": "o\no", "size": 3}]}]}
        with Look(f"makeflow_why: {why}", {}, [], {}) as it:
            it.put("flow", json.dumps(flow))
            run = it.place.start(("--jx", "flow"))
            printed = run.communicate(timeout=SECONDS)[0].decode()
            it.check("the run", run.returncode == 1 and "rule 0 failed: output" in printed, printed)
            it.prints("makeflow_why", ("--jx", "flow"), [
                f'rule 0 "o\\no" has failed: attempt 0 here ({why})',
                "1 rules: 0 complete, 0 running, 1 failed, 0 ready, 0 waiting"])


def placed():
    """Where a rule runs, and where it was lost, with a worker that is killed."""
    name = "makeflow_watch, makeflow_why and makeflow_log of a run at workers"
    with Works(name, 1, HELD.format(0, "echo 0 > o0")) as it:
        it.begin_master()
        first = it.worker(env=it.elsewhere())
        it.wait("the command", lambda: it.there("up.0"))
        it.prints("makeflow_why", ("flow",),
                  ['rule 0 "o0" runs: attempt 0 at link 1',
                   "1 rules: 0 complete, 1 running, 0 failed, 0 ready, 0 waiting"])
        watch, said = it.beside_it(program="makeflow_watch", **SCRIPT_USER)
        it.wait("a line", lambda: said() or watch.poll() is not None)
        it.check("makeflow_watch", re.search(r': rule 0 "o0" \d+ s at link 1$', said()[0]), said())
        it.kill(first)
        it.wait("the loss", lambda: it.is_logged("lost 0 0"))
        it.prints("makeflow_why", ("flow",),
                  ['rule 0 "o0" can run; attempt 0 at link 1 (lost)',
                   "1 rules: 0 complete, 0 running, 0 failed, 1 ready, 0 waiting"])
        it.beside("go")
        it.worker(env=it.elsewhere())
        it.is_complete()
        it.wait("the end of makeflow_watch", lambda: watch.poll() is not None)
        it.prints("makeflow_log", ("flow",), [
            "# opened run 0",
            "TIME rule 0 started, attempt 0 at link 1",
            "TIME rule 0 waits again, attempt 0 at link 1",
            "TIME rule 0 started, attempt 1 at link 2",
            "TIME rule 0 complete, attempt 1 at link 2",
            "# ended complete"])


def kept_texts(folder):
    """What keep_output wrote into a folder, with HOST in the place of this machine's name."""
    names = os.listdir(folder) if os.path.isdir(folder) else []
    texts = [content_of(f"{folder}/{it}").decode() for it in names]
    return [re.sub(r"(?m)^host: .*$", "host: HOST", it) for it in texts]


def kept_text(command, status, out, err):
    return (f"command: {command}\nstatus: {status}\nhost: HOST\n"
            f"standard output:\n{out}standard error:\n{err}")


def keeps(name, words, status, out, err, texts, env=None):
    """One call of keep_output. Where `err` is None standard error isn't looked at."""
    place = Place({})
    place.put_tools()
    place.give()
    folder = f"{place.room}/kept"
    try:
        started = place.start(words, {"KEEP_OUTPUT": folder} if env is None else env,
                              program="keep_output", stdin=subprocess.PIPE)
        found = started.communicate(b"typed\n", timeout=SECONDS)
        left = kept_texts(folder)
        wanted = (status, out, found[1] if err is None else err)
        wrong = [] if (started.returncode, *found) == wanted else [f"{started.returncode}, {found}"]
        if err is None:
            left, texts = ([it.split("standard error:\n")[0] for it in them]
                           for them in (left, texts))
        wrong += [] if left == texts else [f"it kept {left}"]
        say(f"keep_output: {name}", wrong + place.wrong({}))
    finally:
        place.close()


def kept():
    """keep_output by itself and in a flow."""
    both = "cat; echo why >&2; exit 3"
    text = kept_text(f"sh -c {both}", 3, "typed\n", "why\n")
    well = ("sh", "-c", "cat; echo why >&2")
    keeps("a command that ends well", well, 0, b"typed\n", b"why\n", [])
    keeps("a command that fails", ("sh", "-c", both), 3, b"typed\n", b"why\n", [text])
    keeps("without the variable", ("sh", "-c", both), 3, b"typed\n", b"why\n", [], {})
    keeps("no words", (), 2, b"", b"keep_output: usage: keep_output COMMAND [WORDS]\n", [])
    kill = "echo said; kill -TERM $$"
    text = kept_text(f"sh -c {kill}", 143, "said\n", "")
    keeps("a command that is killed", ("sh", "-c", kill), 143, b"said\n", None, [text])
    keeper = content_of(f"{os.path.dirname(PROGRAM)}/keep_output")
    with Look("keep_output in a flow", {"in": "abc", "keep_output": keeper}, [], {}) as it:
        folder = f"{it.place.room}/kept"
        command = "./keep_output sh -c 'cat in; echo why >&2; exit 3' > out"
        it.put("flow", f"export KEEP_OUTPUT={folder}\nout: in keep_output\n\t{command}\n")
        it.note("the run", outcome(it.place.start(), 1, "makeflow: rule 0 failed: status 3\n"))
        text = kept_text("sh -c cat in; echo why >&2; exit 3", 3, "abc", "why\n")
        it.check("what was kept", kept_texts(folder) == [text], kept_texts(folder))


class Works(Farm, Look):
    """A farm of rules of one core, whose workers a factory starts. All that has a path of the room
    is ended with it."""

    def __init__(self, name, rules, command, **how):
        plan = [(command.replace("N", str(it)), [], [f"o{it}"]) for it in range(rules)]
        super().__init__(name, {}, plan, {f"o{it}": f"{it}\n".encode() for it in range(rules)},
                         **how)
        self.run = None

    def __exit__(self, kind, error, trace):
        if not error:
            self.is_empty("the end")
        for number in processes_in(self.place.room):
            try:
                os.kill(number, signal.SIGKILL)
            except ProcessLookupError:
                pass
        return super().__exit__(kind, error, trace)

    def begin_master(self, *words):
        """A run, at a port that it could take."""
        for _ in range(10):
            port = ("-T", "wq", "-p", str(self.port))
            self.run, self.printed = self.beside_it((*port, *words, "flow"))
            self.wait("the port", lambda: listens(self.port) or self.run.poll() is not None)
            if self.run.poll() is None or self.printed() != [NETWORK_FAULT.strip()]:
                return
            self.port = free_port()

    def is_complete(self):
        self.wait("the end of the run", lambda: self.run.poll() is not None)
        wanted = (0, [complete(len(self.rules)).strip()])
        found = (self.run.returncode, self.printed())
        self.check("the run", found == wanted, found)
        self.note("the log",
                  [f"a rule has failed: {it.rule}" for it in self.records() if it.kind == "failed"])

    def factory(self, *words, env=None):
        """A factory, of which workers have a temporary folder that may keep what is left there."""
        path = f"{self.place.room}:{os.environ.get('PATH', '/usr/bin:/bin')}"
        return self.beside_it((*words, "--step", "1", HOST, str(self.port), "flow"), FACTORY,
                              env={"PATH": path, **self.elsewhere(), **(env or {})}, **SCRIPT_USER)

    def factory_ends(self, factory, said, status, *lines):
        self.wait("the end of the factory", lambda: factory.poll() is not None)
        self.check("the factory", factory.returncode == status, f"status {factory.returncode}")
        self.note("the factory",
                  [f"it printed {said()}, without {it}" for it in lines
                   if f"{FACTORY}: {it}" not in said()])

    def stand_in(self, name, text):
        """A command that the factory finds first on its path."""
        path = f"{self.place.room}/{name}"
        with open(path, "w", encoding="utf-8") as it:
            it.write("#!/bin/sh\n" + text.replace("ROOM", self.place.room))
        os.chmod(path, 0o755)
        self.place.give()

    def stand_in_slurm(self):
        for name, text in (("sbatch", SBATCH), ("squeue", SQUEUE), ("scancel", SCANCEL)):
            self.stand_in(name, text)

    def unheard(self, name, *words, end="exit 5"):
        """A factory of one worker that nobody answers, and what tells who started it, and when, in
        nanoseconds."""
        self.stand_in(name, f'echo "$PPID $(date +%s%N)" >> ROOM/starts.{name}; {end}')
        path = f"{self.place.room}/starts.{name}"
        self.beside(f"starts.{name}")
        self.place.give()
        def starts():
            return [tuple(map(int, it.split())) for it in content_of(path).decode().splitlines()]
        return self.factory("-W", "1", *words, "--worker", f"{self.place.room}/{name}"), starts

    def workers(self):
        found = processes_in(self.place.room)
        return [it for it, words in found.items() if words[0].endswith(WORKER)]

    def is_empty(self, step):
        """Nothing runs any more but the master."""
        def others():
            found = processes_in(self.place.room)
            return [words for it, words in found.items() if not self.run or it != self.run.pid]
        try:
            self.wait("the end of all programs", lambda: not others())
        except TimeoutError:
            self.note(step, [f"left behind: {others()}"])


def factory_of_a_flow():
    """From before a run to its end: as many workers as there is work, and none behind it."""
    with Works("work_queue_factory: a flow from its begin to its end", 12,
               "sleep 0.3; echo N > oN") as it:
        factory, said = it.factory("-W", "2", "--cores", "2")
        begun = f"{FACTORY}: 12 rules left, 2 workers"
        it.wait("two workers", lambda: begun in said() or factory.poll() is not None)
        it.no_log("before the run")
        it.begin_master()
        it.is_complete()
        it.factory_ends(factory, said, 0, "12 rules left, 2 workers", "the flow is complete")
        many = [line for line in said() if re.search(r" ([3-9]|\d\d+) workers", line)]
        it.check("the factory", not many, many)
        it.is_empty("the end")
        factory, said = it.factory()
        it.factory_ends(factory, said, 0, "the flow is complete")
        it.check("a factory for a complete flow", len(said()) == 1, said())


def factory_losses():
    """A worker that is killed, and a factory that is ended and called again. No rule fails."""
    command = HELD.format("N", "echo N > oN")
    with Works("work_queue_factory: a worker that is killed", 2, command) as it:
        it.begin_master()
        factory, said = it.factory("--cores", "1", "-W", "2")
        it.wait("both rules", lambda: it.there("up.0", "up.1"))
        first = it.workers()
        os.kill(first[0], signal.SIGKILL)
        it.wait("the loss", lambda: it.is_logged("lost 0 0") or it.is_logged("lost 1 1"))
        it.wait("another worker", lambda: len({*it.workers()} - {*first}) == 1)
        it.beside("go")
        it.is_complete()
        it.factory_ends(factory, said, 0, "the flow is complete")

    with Works("work_queue_factory: ended amid a run, and called again", 2, command) as it:
        it.begin_master()
        factory, said = it.factory("--cores", "2", "-w", "2", "-W", "2")
        it.wait("both rules", lambda: it.there("up.0", "up.1"))
        factory.terminate()
        it.factory_ends(factory, said, 143)
        it.is_empty("a factory that was ended")
        it.wait("the losses", lambda: it.is_logged("lost 0 0", "lost 1 1"))
        it.beside("go")
        factory, said = it.factory("--cores", "2")
        it.is_complete()
        it.factory_ends(factory, said, 0, "the flow is complete")


def factory_words():
    """What a factory refuses."""
    usage = f"usage: {FACTORY} [OPTIONS] HOST PORT FLOW"
    port = (HOST, "9123")
    refusals = [
        ((), "the following arguments are required: HOST, PORT, FLOW"),
        ((HOST, "0", "flow"), "argument PORT: 0 is no number from 1 to 65535"),
        (("-W", "33", *port, "flow"), "argument -W: 33 is no number from 1 to 32"),
        (("-w", "3", "-W", "2", *port, "flow"), "-w 3 is above -W 2"),
        (("-T", "ssh", *port, "flow"), "--hosts NAME,NAME goes with -T ssh, and -T ssh wants it"),
        (("--submit=-x", *port, "flow"), "--submit goes with -T slurm and -T condor"),
        (("--step", "x", *port, "flow"), "argument --step: x is no number from 1 to 3600"),
    ]
    no_flow = f"{FACTORY}: makeflow_show refuses: makeflow: no flow file none"
    with Look("work_queue_factory: refusals", {"in": "abc"}, ONE, {}) as it:
        for words, why in refusals:
            it.prints(FACTORY, words, [f"{FACTORY}: {why}; {usage}"], 2)
        it.prints(FACTORY, (*port, "none"), [no_flow], 3)
        it.prints(FACTORY, ("-T", "slurm", *port, "none"), [no_flow], 3)
        it.no_log("refusals")


def factory_in_vain():
    """Workers that no further try mends, and workers that nobody answers."""
    with Works("work_queue_factory: workers that end at once", 1, "echo N > oN") as it:
        it.made = {}
        it.stand_in("mistyped", "exit 2")
        it.stand_in_slurm()
        os.makedirs(f"{it.place.room}/cluster/2")
        it.beside("cluster/2/ended")
        it.place.give()
        hopeless = [(it.factory(*words, "--worker", f"{it.place.room}/{name}"), line)
                    for words, name, line in [((), "none", "status 127, no such program"),
                                              ((), "mistyped", "status 2, usage"),
                                              (("-T", "slurm"), "mistyped", "status 2, usage")]]
        again, starts = it.unheard("again")
        brief = [it.unheard("life", "--life", "1"), it.unheard("idle", "--idle-end", "1")]
        killed, kills = it.unheard("killed", end="kill -KILL $$")
        for (factory, said), line in hopeless:
            it.factory_ends(factory, said, 1, f"a worker ended at once with {line}")
        it.wait("three starts", lambda: len(starts()) >= 3)
        gaps = [(after[1] - before[1]) / 1e9 for before, after in zip(starts(), starts()[1:])]
        it.check("a worker that nobody answers", gaps[0] >= 1 and gaps[1] >= 2, gaps)
        for _, begun in brief:
            it.wait("a second job", lambda: len({job for job, _ in begun()}) >= 2)
        it.wait("a fifth job behind four that were killed", lambda: len(kills()) >= 5)
        for factory, said in [again, killed, *(factory for factory, _ in brief)]:
            factory.terminate()
            it.factory_ends(factory, said, 143)


# Stand-ins. Each job of a batch system is a folder of ROOM/cluster: `pid` while it runs, `held`
# with the reason where it doesn't begin, `ended` behind its end. The second job doesn't begin.
SSH = r"""[ "$1 $2 $3" = "-tt -o BatchMode=yes" ] || exit 255
echo "$4" >> ROOM/hosts
[ "$4" != down ] || exit 255
PATH=ROOM:$PATH
exec /bin/sh -c "$5"
"""
BEGIN = r"""id=1
until mkdir "ROOM/cluster/$id" 2> /dev/null; do id=$((id + 1)); done
job=ROOM/cluster/$id
if [ $id = 2 ]; then
    echo 'NoRoom' > "$job/held"
    echo 'ANSWER'
    exit
fi
(
    setsid "$@" > "$out/$id.out" 2>&1 < /dev/null &
    echo $! > "$job/pid"
    wait "$!"
    : > "$job/ended"
) > /dev/null 2>&1 < /dev/null &
echo "ANSWER"
"""
SBATCH = r"""while true; do
    case $1 in
        --output=*) out=${1#--output=}; out=${out%/*} ;;
        --*) echo "$1" >> ROOM/words ;;
        *) break ;;
    esac
    shift
done
""" + BEGIN.replace("'ANSWER'", '"$id"').replace("ANSWER", "$id")
SQUEUE = r"""for job in ROOM/cluster/*; do
    [ -d "$job" ] && [ ! -e "$job/ended" ] || continue
    if [ -e "$job/held" ]; then
        echo "${job##*/} PENDING $(cat "$job/held")"
    else
        echo "${job##*/} RUNNING None"
    fi
done
"""
TAKE_BACK = r"""for job in ROOM/cluster/*; do
    [ -e "$job/held" ] && : > "$job/ended"
done
exit 0
"""
END_JOBS = r"""for job in ROOM/cluster/*; do
    [ -e "$job/pid" ] && [ ! -e "$job/ended" ] && kill -TERM "$(cat "$job/pid")"
done
exit 0
"""
SCANCEL = f"""case "$1 $2" in
    --state=PENDING*)
{TAKE_BACK}    ;;
    "--batch --signal=TERM" | --name=*)
{END_JOBS}    ;;
esac
exit 1
"""
CONDOR_SUBMIT = r"""[ "$1" = -terse ] || exit 1
cat "$2" >> ROOM/words
out=$(sed -n 's|^output = ||p' "$2")
out=${out%/*}
words=$(sed -n 's|^arguments = "\(.*\)"$|\1|p' "$2")
eval "set -- $words"
set -- "$out/job" "$@"
""" + BEGIN.replace("'ANSWER'", '"$id.0 - $id.0"').replace("ANSWER", "$id.0 - $id.0")
CONDOR_Q = SQUEUE.replace("PENDING", "5").replace("RUNNING None", "2 undefined")
CONDOR_RM = f'case $2 in\n    *"JobStatus == 1"*)\n{TAKE_BACK}    ;;\nesac\n{END_JOBS}'


def batch_ends(it, kind, line, *words):
    """A run of a flow by a batch system: the factory is ended amid it, and called again."""
    os.mkdir(f"{it.place.room}/cluster")
    it.place.give()
    it.begin_master()
    words = ("-T", kind, "--cores", "2", *words, "--worker", f"{it.place.room}/{WORKER}")
    factory, said = it.factory("-w", "2", "-W", "2", *words)
    it.wait("both rules", lambda: it.there("up.0", "up.1") or factory.poll() is not None)
    it.wait("what is said of the job that doesn't begin",
            lambda: f"{FACTORY}: {line}" in said() or factory.poll() is not None)
    factory.terminate()
    it.factory_ends(factory, said, 143)
    it.is_empty("a factory that was ended")
    it.wait("the losses", lambda: it.is_logged("lost 0 0", "lost 1 1"))
    it.note("the jobs",
            [f"job {job} is there" for job in os.listdir(f"{it.place.room}/cluster")
             if not it.there(f"cluster/{job}/ended")])
    it.beside("go")
    factory, said = it.factory(*words)
    it.is_complete()
    it.factory_ends(factory, said, 0, "the flow is complete")
    return content_of(f"{it.place.room}/words").decode().splitlines()


def factory_by_ssh():
    """Jobs go to each host that is there, and one that isn't is left out."""
    with Works("work_queue_factory -T ssh", 4, HELD.format("N", "echo N > oN")) as it:
        it.stand_in("ssh", SSH)
        it.begin_master()
        words = ("-T", "ssh", "--hosts", "n1,down,n3", "--cores", "2")
        factory, said = it.factory(*words, "-w", "3", "-W", "3")
        left_out = f"{FACTORY}: down is left out: ssh ended with 255 3 times"
        it.wait("the host that is down", lambda: left_out in said() or factory.poll() is not None)
        up = [f"up.{rule}" for rule in range(4)]
        it.wait("all rules", lambda: it.there(*up) or factory.poll() is not None)
        it.beside("go")
        it.is_complete()
        it.factory_ends(factory, said, 0, "the flow is complete")
        asked = content_of(f"{it.place.room}/hosts").decode().split()
        it.check("the hosts", {"n1", "n3"} <= {*asked} and asked.count("down") == 3, asked)


def factory_by_batch():
    """The forms of Slurm and HTCondor: what they are asked for, and that no rule fails."""
    words = ("--memory", "100", "--cache", "28")
    held = "job 2 doesn't begin: NoRoom"
    with Works("work_queue_factory -T slurm", 2, HELD.format("N", "echo N > oN")) as it:
        it.stand_in_slurm()
        asked = batch_ends(it, "slurm", held, *words, "--submit=--time=60")
        wanted = {"--parsable", "--cpus-per-task=2", "--mem=128M", "--signal=B:TERM@60",
                  "--time=60"}
        it.check("the words of sbatch", wanted <= {*asked}, asked)

    with Works("work_queue_factory -T condor", 2, HELD.format("N", "echo N > oN")) as it:
        for name, text in (("condor_submit", CONDOR_SUBMIT), ("condor_q", CONDOR_Q),
                           ("condor_rm", CONDOR_RM)):
            it.stand_in(name, text)
        asked = batch_ends(it, "condor", held, *words, '--submit=+Project = "flows"')
        wanted = {"request_cpus = 2", "request_memory = 128", '+Project = "flows"', "queue"}
        it.check("the description", wanted <= {*asked}, asked)


GROUPS = [watched, watched_in_vain, watched_on_a_terminal, explained, explained_in_vain,
          explained_outputs, placed, kept, factory_of_a_flow, factory_losses, factory_words,
          factory_in_vain, factory_by_ssh, factory_by_batch]
