"""Cases of tasks that a program submits: the built work_queue_batch and work_queue_serve, and scripts/work_queue.py over it, with
built workers and foremen on this machine."""
import json
import os
import signal
import subprocess
import threading
import time

from foremen import Yard
from peers import ONE_CORE, Peer, not_run, result
from places import MEBI, MOST, PROGRAM, ROOT, SECONDS, USER, content_of, outcome, short
from scripts import SCRIPT_USER, processes_in
from workers import hello
from wq import listens

BATCH, SERVE, MODULE = "work_queue_batch", "work_queue_serve", "work_queue.py"
MOST_LINE = 1_048_576
MOST_TASKS = 100_000
HELD = "touch ROOM/up.{0}; while [ ! -e ROOM/go ]; do sleep 0.05; done; echo {0} > out"


def of_size(size):
    """A command whose output has so many bytes."""
    return f"head -c {size} /dev/zero > out"


def printed(ends):
    """What is printed of tasks whose outputs have these sizes, None where one failed."""
    return "".join(f"{at} {'failed' if size is None else size}\n" for at, size in enumerate(ends))


class Crew(Yard):
    """A course whose tasks a program submits: it has no flow."""

    def __init__(self, name, files=None, made=None):
        super().__init__(name, files or {}, [], made or {})
        for program in (BATCH, SERVE):
            self.place.put(f"{os.path.dirname(PROGRAM)}/{program}", f"{self.place.room}/{program}")
        self.place.put(f"{ROOT}/scripts/{MODULE}", f"{self.place.room}/{MODULE}")
        self.place.give()

    def here(self, command):
        return command.replace("ROOM", self.place.room)

    def batch(self, *commands, **how):
        """The program over a file of these commands. It listens when this returns, unless it has ended."""
        self.put("commands", "".join(f"{self.here(it)}\n" for it in commands))
        return self.call_batch((str(self.port), "commands"), **how)

    def call_batch(self, words, **how):
        started = self.begin(words, BATCH, **how)
        self.wait("the port", lambda: listens(self.port) or started.poll() is not None)
        return started

    def done(self, step, started, ends, workers=(), seconds=SECONDS):
        """It ends with status 0 and these lines, and so do the workers."""
        self.note(step, outcome(started, 0, printed(ends), seconds=seconds))
        self.byes(*workers)

    def none_left(self, step):
        """No process of the place is there any more."""
        until = time.monotonic() + SECONDS
        while processes_in(self.place.room) and time.monotonic() < until:
            time.sleep(0.05)
        self.note(step, [f"{words} is left" for words in processes_in(self.place.room).values()])


class Served:
    """A work_queue_serve, what it is asked and what it answers. A task goes by the number of its line."""

    def __init__(self, crew):
        self.crew, self.lines = crew, 0
        self.started = crew.begin((str(crew.port),), SERVE, stdin=subprocess.PIPE)
        self.heard, self.told = [], threading.Condition()
        threading.Thread(target=self.listen, daemon=True).start()
        crew.note("the first answer", [] if self.next() == {"listening": crew.port} else ["it isn't that it listens"])

    def listen(self):
        for line in self.started.stdout:
            with self.told:
                self.heard.append(json.loads(line))
                self.told.notify()

    def next(self):
        with self.told:
            self.told.wait_for(lambda: self.heard, SECONDS)
            return self.heard.pop(0) if self.heard else None

    def ask(self, **request):
        return self.say(json.dumps(request).encode())

    def say(self, line):
        """Says a line, and answers its number."""
        self.started.stdin.write(line + b"\n")
        self.started.stdin.flush()
        self.lines += 1
        return self.lines

    def task(self, command, out, **more):
        return self.ask(submit=self.crew.here(command), outputs={"out": self.crew.path(out)}, **more)

    def answers(self, step, *wanted):
        """These come next, in any order."""
        found = [self.next() for _ in wanted]
        self.crew.note(step, [] if sorted(map(str, found)) == sorted(map(str, wanted)) else [f"it answered {found}, not {list(wanted)}"])

    def ends(self, step, status, *wanted):
        """There are no more requests: these are the last answers, and then it ends."""
        self.started.stdin.close()
        self.answers(step, *wanted)
        self.leaves(step, status)

    def leaves(self, step, status):
        try:
            found = self.started.wait(SECONDS)
        except subprocess.TimeoutExpired:
            found = "none yet"
        error = self.started.stderr.read() if self.started.poll() is not None else b""
        self.crew.note(step, [] if (found, self.next_now(), error) == (status, None, b"") else [f"status {found}, not {status}, on standard error {error!r}"])

    def next_now(self):
        with self.told:
            return self.heard.pop(0) if self.heard else None


class Scripted(Crew):
    """A course in which a script of python3 submits."""

    def script(self, text, *words):
        path = f"{self.place.room}/script.py"
        with open(path, "w", encoding="utf-8") as it:
            it.write(text)
        self.place.give()
        env = {"PYTHONPATH": self.place.room, "PYTHONDONTWRITEBYTECODE": "1"}
        started = subprocess.Popen(["python3", path, str(self.port), *words], cwd=self.place.work, env={"PATH": os.environ["PATH"], "TMPDIR": self.place.tmp, **env},
                                   stdin=subprocess.DEVNULL, stdout=subprocess.PIPE, stderr=subprocess.PIPE, start_new_session=True, **{**USER, **SCRIPT_USER})
        self.started.append(started)
        self.wait("the port", lambda: listens(self.port) or started.poll() is not None)
        return started


def submit_first():
    """A file of commands, and each way in which it is refused."""
    with Crew("one command") as it:
        started = it.batch("echo hi > out")
        it.done("the batch", started, [3], [it.worker()])

    with Crew("commands that succeed and fail, with empty lines between") as it:
        started = it.batch("echo hi > out", "", "exit 3", "true", "kill -9 $$", "", of_size(100_000), ": > out", "mkdir out", "echo é > out", "sleep 0.3; printf 'a b' > out")
        it.done("the batch", started, [3, None, None, None, 100_000, 0, None, 3, 3], [it.worker("--cores", "3")])

    with Crew("the largest output, and one byte more") as it:
        started = it.batch(of_size(MOST), of_size(MOST + 1))
        it.done("the batch", started, [MOST, None], [it.worker("--cores", "1")])

    with Crew("a file without a command") as it:
        it.done("the batch", it.batch("", "", ""), [])

    with Crew("a file whose last line has no newline", {"commands": "echo a > out\necho bc > out"}) as it:
        started = it.call_batch((str(it.port), "commands"))
        it.done("the batch", started, [2, 3], [it.worker()])

    refused = [
        ("no words", {}, (), 2), ("a word alone", {}, ("9123",), 2), ("three words", {"f": ""}, ("9123", "f", "f"), 2), ("port 0", {"f": ""}, ("0", "f"), 2),
        ("port 65536", {"f": ""}, ("65536", "f"), 2), ("a port with a zero in front", {"f": ""}, ("09123", "f"), 2), ("a port that is none", {"f": ""}, ("x", "f"), 2),
        ("a name that is none", {}, ("9123", "/etc/passwd"), 2), ("no file", {}, ("9123", "f"), 3), ("a byte that is no text, in line 2", {"f": b"true\na\xff\n"}, ("9123", "f"), 3),
        ("a line that is too long", {"f": "x" * (MOST_LINE + 1)}, ("9123", "f"), 3), ("too many commands", {"f": "true\n" * (MOST_TASKS + 1)}, ("9123", "f"), 3),
        ("a folder", {"f": os.mkdir}, ("9123", "f"), 5)]
    for name, files, words, status in refused:
        with Crew(f"a batch that is refused: {name}", files) as it:
            it.note("the batch", outcome(it.begin(words, BATCH), status, "", seconds=4 * SECONDS))

    with Crew("a port that is taken") as it:
        first = it.batch("echo a > out")
        it.note("the second", outcome(it.begin((str(it.port), "commands"), BATCH), 5, ""))
        it.done("the first", first, [2], [it.worker()])


def submit_killed():
    """Workers that are killed, that come late, and behind a foreman."""
    sizes = [at % 50 for at in range(1_000)]
    with Crew("1,000 tasks at four workers, of which two are killed") as it:
        started = it.batch(*(f"{f'touch ROOM/at.{at}; ' if at in (300, 600) else ''}{of_size(size)}" for at, size in enumerate(sizes)))
        workers = [it.worker("--cores", "2", env=it.elsewhere()) for _ in range(2)]
        stay = [it.worker("--cores", "2") for _ in range(2)]
        for at, worker in zip((300, 600), workers):
            it.wait(f"task {at}", lambda: it.there(f"at.{at}"))
            it.kill(worker)
        it.done("the batch", started, sizes, stay, 300)

    with Crew("tasks wait for a worker that comes late, and for one more") as it:
        started = it.batch(*(HELD.format(at) for at in range(2)))
        time.sleep(2)
        workers = [it.worker("--cores", "1")]
        it.wait("the first", lambda: it.there("up.0"))
        time.sleep(1)
        workers.append(it.worker("--cores", "1"))
        it.wait("both", lambda: it.there("up.0", "up.1"))
        it.beside("go")
        it.done("the batch", started, [2, 2], workers)

    with Crew("200 tasks through a foreman, one of whose workers is killed") as it:
        started = it.batch(*(f"{'touch ROOM/at; ' if at == 60 else ''}{of_size(at)}" for at in range(200)))
        foreman = it.foreman()
        killed, worker = it.under("--cores", "2", env=it.elsewhere()), it.under("--cores", "2")
        it.wait("a task", lambda: it.there("at"))
        it.kill(killed)
        it.done("the batch", started, range(200), (), 120)
        it.note("the foreman", outcome(foreman, 0, "work_queue_foreman: bye\n"))
        it.byes(worker)

    with Crew("the batch is killed: its worker ends, and nothing stays behind") as it:
        started = it.batch(*(HELD.format(at) for at in range(3)))
        worker = it.worker("--cores", "2")
        it.wait("two tasks", lambda: it.there("up.0", "up.1"))
        os.kill(started.pid, signal.SIGKILL)
        started.communicate()
        it.beside("go")
        it.gone(worker)
        it.none_left("then")


def submit_many():
    """As many tasks as a farm has on a busy day."""
    with Crew("10,000 tasks at four workers of four cores") as it:
        started = it.batch(*(f"echo {at} > out" for at in range(10_000)))
        workers = [it.worker("--cores", "4") for _ in range(4)]
        it.done("the batch", started, [len(f"{at}\n") for at in range(10_000)], workers, 600)


def submit_peers():
    """Peers that speak here."""
    with Crew("a worker that runs nothing rests ever longer, and is asked again") as it:
        started = it.batch("true")
        with Peer(it, hello(ONE_CORE, MEBI)) as peer:
            for _ in range(4):
                peer.tell(not_run(peer.next_task()[1]))
            begun = time.monotonic()
            found = peer.next_task()
            it.note("its rest", [] if 0.9 < time.monotonic() - begun < 5 else [f"it was asked after {time.monotonic() - begun} seconds"])
            peer.tell(result(found[1], b"abc"))
            it.done("the batch", started, [3])

    with Crew("a result that is told twice, and one of an attempt that nobody asked for") as it:
        started = it.batch("true", "true")
        with Peer(it, hello(ONE_CORE, MEBI)) as peer:
            first = peer.next_task()[1]
            peer.tell(result(first, b"abc"), result(first, b"abcd"), result(77, b""))
            peer.tell(result(peer.next_task()[1], b"a"))
            it.done("the batch", started, [3, 1])

    with Crew("a worker goes before its result, and another gives it") as it:
        started = it.batch("true")
        with Peer(it, hello(ONE_CORE, MEBI)) as peer:
            lost = peer.next_task()[1]
        with Peer(it, hello(ONE_CORE, MEBI)) as peer:
            found = peer.next_task()[1]
            it.note("the attempts", [] if (lost, found) == (0, 1) else [f"they are {lost} and {found}"])
            peer.tell(result(found, b"abc"))
            it.done("the batch", started, [3])


def submit_lines():
    """Lines that ask, and lines that answer."""
    with Crew("a task with inputs, outputs and variables", {"words": "pear\nfig\n"}, {"made": b"fig\npear\n", "more": b"one two\n"}) as it:
        served, worker = Served(it), it.worker()
        line = served.ask(submit="sort w > sorted; echo $A $B > d/more", inputs={"w": it.path("words")}, outputs={"sorted": it.path("made"), "d/more": it.path("more")},
                          env={"A": "one", "B": "two"}, cores=1, memory=1, disk=1, bound=9)
        served.answers("the task", {"line": line, "status": 0})
        served.ends("the end", 0, {"held": 0})
        it.byes(worker)

    with Crew("tasks that fail, each in its way", {"words": "abc"}) as it:
        served, worker = Served(it), it.worker("--cores", "4")
        failing = served.task("exit 3", "o0", cores=1)
        killed = served.task("kill -9 $$", "o1", cores=1)
        missing = served.task("true", "o2", cores=1)
        long = served.task("echo abcdef > out", "o3", cores=1, bound=3)
        unwritten = served.task("echo a > out", "no/o4", cores=1)
        absent = served.task("true", "o5", inputs={"in": it.path("absent")})
        folder = served.task("true", "o6", inputs={"in": it.place.work})
        served.answers("the tasks", {"line": failing, "status": 3}, {"line": killed, "status": 137}, {"line": missing, "missing": "out"},
                       {"line": long, "size": 7, "too long": "out"}, {"line": unwritten, "unwritten": "out"},
                       {"input": "in", "line": absent, "refused": "input missing"}, {"input": "in", "line": folder, "refused": "input unreadable"})
        served.ends("the end", 0, {"held": 0})
        it.byes(worker)

    with Crew("bad lines are refused with their numbers, and lose nothing", {}, {"out": b"a\n"}) as it:
        served, worker = Served(it), it.worker()
        wrong = [(b"", "not JSON"), (b"\xff", "not UTF-8"), (b"{", "not JSON"), (b"[]", "not an object"), (b'{"submit":"x","core":1}', "unknown member"), (b'{"submit":1}', "bad submit"),
                 (b'{"submit":"x","inputs":{"/a":"b"}}', "bad inputs"), (b'{"submit":"x","outputs":{"a":"b","a/b":"c"}}', "bad task"), (b'{"cancel":"1"}', "bad cancel"),
                 (b" " * 16_777_217, "too long")]
        line = served.task("sleep 0.5; echo a > out", "out")
        lines = [served.say(text) for text, _ in wrong]
        served.answers("the answers", *({"line": at, "refused": why} for at, (_, why) in zip(lines, wrong)), {"line": line, "status": 0})
        served.ends("the end", 0, {"held": 0})
        it.byes(worker)

    data = os.urandom(MEBI) * (MOST // MEBI)
    with Crew(f"a content of {MOST} bytes goes down and comes up", {"in": data}, {"out": data}) as it:
        served, worker = Served(it), it.worker()
        line = served.task("cat in > out", "out", inputs={"in": it.path("in")})
        served.answers("the task", {"line": line, "status": 0})
        served.ends("the end", 0, {"held": 0})
        it.byes(worker)

    with Crew("an input that changed between two tasks", {"in": "a"}, {"o0": b"a", "o1": b"bc"}) as it:
        served, worker = Served(it), it.worker()
        first = served.task("cat in > out", "o0", inputs={"in": it.path("in")})
        served.answers("the first", {"line": first, "status": 0})
        it.put("in", "bc")
        second = served.task("cat in > out", "o1", inputs={"in": it.path("in")})
        served.answers("the second", {"line": second, "status": 0})
        served.ends("the end", 0, {"held": 0})
        it.byes(worker)

    rounds = [b"%d" % at for at in range(8)]
    with Crew("an input that changes and keeps its size", {"in": rounds[0]}, {f"o{at}": body for at, body in enumerate(rounds)}) as it:
        served, worker = Served(it), it.worker()
        for at, body in enumerate(rounds):
            it.put("in", body)
            line = served.task("cat in > out", f"o{at}", inputs={"in": it.path("in")})
            served.answers(f"task {at}", {"line": line, "status": 0})
        served.ends("the end", 0, {"held": 0})
        it.byes(worker)

    for words in [(), ("0",), ("65536",), ("x",), ("9123", "9123"), (b"\xff",)]:
        with Crew(f"{SERVE}: the words {words}") as it:
            it.note("the call", outcome(it.begin(words, SERVE), 2, '{"stopped":"usage"}\n'))

    with Crew(f"{SERVE}: a port that is taken") as it:
        served = Served(it)
        it.note("the second", outcome(it.begin((str(it.port),), SERVE), 5, '{"stopped":"network fault"}\n'))
        served.ends("the first", 0, {"held": 0})


def submit_cancels():
    """Tasks that are let go, and ends that come early."""
    with Crew("a task that runs and one that waits are let go", {}, {"o2": b"2\n"}) as it:
        served, worker = Served(it), it.worker("--cores", "1")
        runs = served.task(HELD.format(0), "o0", cores=1)
        waits = served.task("echo 1 > out", "o1", cores=1)
        stays = served.task("echo 2 > out", "o2", cores=1)
        it.wait("the first", lambda: it.there("up.0"))
        asked = [served.ask(cancel=at) for at in (waits, runs, runs, 77)]
        served.answers("the cancels", *({"cancelled": held, "line": line, "task": task} for line, task, held in zip(asked, (waits, runs, runs, 77), (True, True, False, False))))
        # a command that was let go keeps its core until it ends
        it.beside("go")
        served.answers("the task that stays", {"line": stays, "status": 0})
        served.ends("the end", 0, {"held": 0})
        it.byes(worker)

    with Crew("requests are answered at once while a task runs", {}, {"o0": b"0\n"}) as it:
        served, worker = Served(it), it.worker("--cores", "1")
        runs = served.task(HELD.format(0), "o0", cores=1)
        it.wait("the task", lambda: it.there("up.0"))
        began = time.monotonic()
        for task in range(77, 85):
            line = served.ask(cancel=task)
            served.answers(f"the cancel of {task}", {"cancelled": False, "line": line, "task": task})
        took = time.monotonic() - began
        it.note("the time", [] if took < 4 else [f"eight answers took {took:.1f} seconds"])
        it.beside("go")
        served.answers("the task", {"line": runs, "status": 0})
        served.ends("the end", 0, {"held": 0})
        it.byes(worker)

    with Crew("the requests end while tasks are held", {}, {"o0": b"0\n", "o1": b"1\n"}) as it:
        served, worker = Served(it), it.worker("--cores", "2")
        lines = [served.task(HELD.format(at), f"o{at}", cores=1) for at in range(2)]
        it.wait("both", lambda: it.there("up.0", "up.1"))
        served.started.stdin.close()
        served.answers("what is held", {"held": 2})
        it.beside("go")
        served.answers("the tasks", *({"line": line, "status": 0} for line in lines))
        served.leaves("the end", 0)
        it.byes(worker)

    for name, leave in [("is killed", lambda it: os.kill(it.started.pid, signal.SIGKILL)), ("is told to end", lambda it: os.kill(it.started.pid, signal.SIGTERM))]:
        with Crew(f"{SERVE} {name}: its worker ends, and nothing stays behind") as it:
            served, worker = Served(it), it.worker("--cores", "1")
            served.task(HELD.format(0), "o0", cores=1)
            served.task(HELD.format(1), "o1", cores=1)
            it.wait("a task", lambda: it.there("up.0"))
            leave(served)
            served.started.wait(SECONDS)
            it.beside("go")
            it.gone(worker)
            it.none_left("then")

    with Scripted("who asked is killed, and both pipes go with him") as it:
        text = ("import json, subprocess, sys, time\nport, program, command, out = sys.argv[1:]\nit = subprocess.Popen([program, port], stdin=subprocess.PIPE, stdout=subprocess.PIPE)\n"
                "it.stdin.write(json.dumps({'submit': command, 'outputs': {'out': out}}).encode() + b'\\n')\nit.stdin.flush()\ntime.sleep(600)\n")
        started = it.script(text, f"{it.place.room}/{SERVE}", it.here(HELD.format(0)), it.path("o0"))
        worker = it.worker("--cores", "1")
        it.wait("a task", lambda: it.there("up.0"))
        os.kill(started.pid, signal.SIGKILL)
        started.communicate()
        it.wait("the port is free", lambda: not listens(it.port))
        it.beside("go")
        it.gone(worker)
        it.none_left("then")


SCRIPT = """
import sys
from work_queue import *

try:
    q = WorkQueue(port=int(sys.argv[1]))
except:
    print("Instantiation of Work Queue failed!")
    sys.exit(1)
print("listening on port %d..." % q.port)
for name in sys.argv[2:]:
    outfile = "%s.gz" % name
    t = Task("./gzip < %s > %s; echo did %s" % (name, outfile, name))
    t.specify_file("/bin/gzip", "gzip", WORK_QUEUE_INPUT, cache=True)
    t.specify_file(name, name, WORK_QUEUE_INPUT, cache=False)
    t.specify_file(outfile, outfile, WORK_QUEUE_OUTPUT, cache=False)
    t.specify_cores(1)
    taskid = q.submit(t)
    print("submitted task (id# %d)" % taskid)
print("waiting for tasks to complete...")
while not q.empty():
    t = q.wait(5)
    if t:
        print("task (id# %d) complete: %d %s" % (t.id, t.return_status, t.output.strip()))
print("all tasks complete!")
sys.exit(0)
"""

CALLS = """
import os, sys, time
import work_queue as wq

q = wq.WorkQueue(int(sys.argv[1]), name=None)
room = sys.argv[2]

def run(command, **more):
    t = wq.Task(command)
    t.specify_cores(1)
    for call, words in more.items():
        getattr(t, call)(*words)
    return q.submit(t)

def told(t):
    print(t.id, t.tag, t.return_status, t.result, repr(t.output))

assert q.empty() and q.wait(0) is None and q.hungry()
first = run("echo out; echo err >&2; echo a > a; exit 3", specify_output_file=("a", "a"), specify_tag=("first",))
told(q.wait(60))
assert open("a").read() == "a\\n" and q.empty()
run("cat b", specify_buffer=("text", "b"))
told(q.wait())
run("echo $X", specify_environment_variable=("X", "a b"))
told(q.wait(60))
run("true", specify_output_file=("c",))
told(q.wait(60))
run("true", specify_input_file=("absent",))
told(q.wait(60))
run("kill -9 $$")
told(q.wait(60))
run("unbalanced ( '")
t = q.wait(60)
print(t.return_status, t.result, "yntax" in t.output or "nexpected" in t.output or "nterminated" in t.output)
held = run("touch %s/up.0; sleep 3" % room, specify_tag=("held",))
while not os.path.exists(room + "/up.0"):
    time.sleep(0.05)
waits = run("true", specify_tag=("waits",))
assert q.wait(0.2) is None
print(q.cancel_by_taskid(waits).tag, q.cancel_by_tasktag("held").tag, q.cancel_by_taskid(held), q.empty())
for refuse in (lambda: q.activate_fast_abort(3), lambda: wq.WorkQueue(0, name="x"), lambda: wq.Task("x").specify_priority(1)):
    try:
        refuse()
    except NotImplementedError as e:
        print(e)
print(q.stats.tasks_submitted, q.stats.tasks_done, q.stats.tasks_cancelled, q.stats.tasks_waiting)
"""

CALLED = """1 first 3 0 'out\\nerr\\n'
2 None 0 0 'text'
3 None 0 0 'a b\\n'
4 None 0 2 ''
5 None -1 1 'work_queue: input missing absent\\n'
6 None 137 8 ''
2 0 True
waits held None True
work_queue: WorkQueue.activate_fast_abort isn't offered here, see docs/FROM_CCTOOLS.md
work_queue: WorkQueue(name=..) isn't offered here, see docs/FROM_CCTOOLS.md
work_queue: Task.specify_priority isn't offered here, see docs/FROM_CCTOOLS.md
9 7 2 0
"""


def submit_python():
    """Scripts of python3 with real workers."""
    if not os.path.exists("/bin/gzip"):
        print("scripts of python3: /bin/gzip isn't there, skipped")
        return
    names = [f"in.{at}" for at in range(4)]
    with Scripted("the script of Work Queue's manual", {it: it * 1000 for it in names}) as it:
        started = it.script(SCRIPT, *names)
        worker = it.worker("--cores", "2")
        out, err = started.communicate(timeout=SECONDS)
        lines = out.decode().splitlines()
        wanted = [f"listening on port {it.port}...", *(f"submitted task (id# {at + 1})" for at in range(4)), "waiting for tasks to complete...",
                  *sorted(f"task (id# {at + 1}) complete: 0 did in.{at}" for at in range(4)), "all tasks complete!"]
        found = [*lines[:6], *sorted(lines[6:-1]), *lines[-1:]]
        it.note("the script", [] if (started.returncode, found, err) == (0, wanted, b"") else [f"status {started.returncode}, printed {short(out)}, {short(err)}"])
        it.byes(worker)
        made = {f"{name}.gz": content_of(it.path(f"{name}.gz")) for name in names}
        it.note("the outputs", [f"{name} is wrong" for name, data in made.items() if subprocess.run(["gzip", "-d"], input=data, stdout=subprocess.PIPE, check=False).stdout != name[:-3].encode() * 1000])
        it.made = made

    with Scripted("each call of the module", {}, {"a": b"a\n"}) as it:
        started = it.script(CALLS, it.place.room)
        worker = it.worker("--cores", "1")
        it.note("the script", outcome(started, 0, CALLED, seconds=120))
        it.byes(worker)

    with Scripted("a port that is taken") as it:
        served = Served(it)
        it.note("the script", outcome(it.script(SCRIPT), 1, "Instantiation of Work Queue failed!\n"))
        served.ends("the first", 0, {"held": 0})

    with Scripted("a script that ends while a task is held") as it:
        text = "import sys, work_queue as wq\nq = wq.WorkQueue(int(sys.argv[1]))\nq.submit(wq.Task('touch %s/up; while [ ! -e %s/go ]; do sleep 0.05; done' % (sys.argv[2], sys.argv[2])))\nwhile not q.wait(0.1):\n    import os\n    if os.path.exists(sys.argv[2] + '/up'): break\n"
        started = it.script(text, it.place.room)
        worker = it.worker()
        it.note("the script", outcome(started, 0, ""))
        it.beside("go")
        it.gone(worker)
        it.none_left("then")

    with Scripted("300 tasks of a script") as it:
        text = ("import sys, work_queue as wq\nq = wq.WorkQueue(int(sys.argv[1]))\nfor i in range(300):\n    t = wq.Task('echo %d' % i)\n    t.specify_cores(1)\n    t.specify_tag(str(i))\n    q.submit(t)\n"
                "found = 0\nwhile not q.empty():\n    t = q.wait(5)\n    if t:\n        assert t.output == t.tag + '\\n' and t.return_status == 0, t.output\n        found += 1\nprint(found)\n")
        started = it.script(text)
        workers = [it.worker("--cores", "4") for _ in range(2)]
        it.note("the script", outcome(started, 0, "300\n", seconds=240))
        it.byes(*workers)


GROUPS = [submit_first, submit_killed, submit_many, submit_peers, submit_lines, submit_cancels, submit_python]
