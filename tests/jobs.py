"""Cases of several jobs at once: that they run at once, never more than -j says, and that the log and the files are those of
a run of one job at a time."""
import os
import signal
import time

import logs
from crashes import KILL_SECONDS, Kills, files_of, memory_folder, serial, wrong_resume
from places import Place, complete, content_of, outcome, say, text_of
from resumes import Course
from storage import CUT, LINES, tree

MANY = 2_000
MEET = "touch ROOM/{0}; while [ ! -e ROOM/{1} ]; do sleep 0.01; done; echo {0} > {0}"


def words(jobs, *more):
    return ("-j", str(jobs), *more, "flow")


def ends(course, step, started, status, printed, adds=None):
    """The end of a call that was started, and its log."""
    course.note(step, outcome(started, status, printed))
    records = course.records()
    bad = logs.illegal(records, course.rules, course.bounds)
    course.note(step, [bad] if bad else [])
    course.note(step, [] if adds is None or sorted(logs.kinds(records)) == sorted(adds) else [f"it logged {logs.kinds(records)}"])
    course.print_log(f"the log printed after {step}")
    return logs.kinds(records)


def at_once():
    """Two rules of which each waits for the other, and how many run at most."""
    for how in (("flow",), words(2)):
        with Course(f"two rules wait for one another: {' '.join(how)}", {}, [(MEET.format("a", "b"), [], ["a"]), (MEET.format("b", "a"), [], ["b"])],
                    {"a": b"a\n", "b": b"b\n"}) as it:
            it.call("the run", 0, complete(2), how)
    for jobs in (1, 3, 16):
        rules = [(f"touch ROOM/on.{at}; sleep 0.03; ls ROOM | grep -c ^on. > o{at}; sleep 0.03; rm ROOM/on.{at}", [], [f"o{at}"]) for at in range(24)]
        with Course(f"at most {jobs} of 24 rules at once", {}, rules, {}) as it:
            it.call("the run", 0, complete(24), words(jobs))
            counts = [int(content_of(it.path(f"o{at}"))) for at in range(24)]
            it.note("the run", [] if max(counts) <= jobs and (jobs == 1 or max(counts) > 1) else [f"so many ran at once: {counts}"])
            it.made = {f"o{at}": f"{count}\n".encode() for at, count in enumerate(counts)}
    with Course("cores of this machine bound the jobs too", {}, [(f"touch ROOM/on.{at}; sleep 0.1; ls ROOM | grep -c ^on. > o{at}; rm ROOM/on.{at}", [], [f"o{at}"]) for at in range(6)], {}) as it:
        it.put("flow", ".MAKEFLOW CORES 1\n" + text_of(it.plan))
        it.call("the run", 0, complete(6), words(6, "--local-cores", "2"))
        it.made = {f"o{at}": content_of(it.path(f"o{at}")) for at in range(6)}
        it.note("the run", [] if {it.made[name] for name in it.made} <= {b"1\n", b"2\n"} else [f"so many ran at once: {it.made}"])


def rows_at_once():
    """Flows of the other chapters with four jobs at once."""
    place = Place({"flow": CUT, "cut.sh": 'cut -c "$1"\n'})
    try:
        made = {"raw.txt": b"abcd\n", "p1.txt": b"a\n", "p2.txt": b"b\n", "p3.txt": b"c\n", "p4.txt": b"d\n", "all.txt": b"a\nb\nc\nd\n"}
        say("a cut in four: -j 4", outcome(place.start(words(4)), 0, complete(6)) + place.wrong(made) + place.wrong_logs(0))
    finally:
        place.close()
    for mode, status, printed, left in [("ref_cnt", 0, complete(3, 2), ["c"]), ("on_demand", 0, complete(3, 1), ["b", "c"]),
                                        ("none", 6, "makeflow: no room for rule 2: needs 40, stored 80, limit 100\n", ["a", "b"])]:
        data = b"x" * 40
        rules = [("cat s > a", ["s"], ["a"]), ("cat a > b", ["a"], ["b"]), ("cat b > c", ["b"], ["c"])]
        with Course(f"three in a row: -j 4 -g {mode}", {"s": data}, rules, {it: data for it in left}, bounds={"a": 40, "b": 40, "c": 40}) as it:
            it.call("the run", status, printed, words(4, "-g", mode, "--storage-limit", "100"))


def one_fails():
    """What runs beside a command that fails is heard and logged, and nothing new starts."""
    wait = "touch ROOM/up.{0}; while [ ! -e ROOM/late ]; do sleep 0.01; done; echo {0} > o{0}"
    rules = [("while [ ! -e ROOM/up.1 -o ! -e ROOM/up.2 -o ! -e ROOM/up.3 ]; do sleep 0.01; done; exit 3", [], ["o0"]),
             *((wait.format(at), [], [f"o{at}"]) for at in range(1, 4)), *((f"echo {at} > o{at}", [], [f"o{at}"]) for at in range(4, 8))]
    with Course("a command fails while three others run", {}, rules, {f"o{at}": f"{at}\n".encode() for at in range(1, 4)}) as it:
        started = it.place.start(words(4))
        it.wait("the failure", lambda: "failed 0 0" in logs.kinds(it.records()))
        time.sleep(0.2)
        it.beside("late")
        kinds = ends(it, "the run", started, 1, "makeflow: rule 0 failed: status 3\n",
                     ["opened", *(f"started {at} {at}" for at in range(4)), "failed 0 0", *(f"done {at} {at}" for at in range(1, 4)), "ended failed"])
        it.note("the run", [] if kinds[5:6] == ["failed 0 0"] else [f"it logged {kinds}"])


def one_is_damaged():
    """What runs while an input is found damaged is heard and logged, and nothing new starts."""
    rules = [("cat in > a", ["in"], ["a"]), ("while [ ! -e ROOM/go ]; do sleep 0.01; done; echo b > b", [], ["b"]),
             ("while [ ! -e ROOM/m ]; do sleep 0.01; done; echo m > m", [], ["m"]), ("cat a m > c", ["a", "m"], ["c"]), ("cat m > d", ["m"], ["d"])]
    with Course("an input is damaged while another rule runs", {"in": "abc"}, rules, {"a": b"abd", "b": b"b\n", "m": b"m\n"}) as it:
        started = it.place.start(words(4))
        it.wait("the first file", lambda: "done 0 0" in logs.kinds(it.records()))
        with open(it.path("a"), "wb") as file:
            file.write(b"abd")
        it.beside("m")
        it.wait("the stop", lambda: "lost 3 3" in logs.kinds(it.records()))
        it.beside("go")
        ends(it, "the run", started, 4, "makeflow: file a damaged\n",
             ["opened", "started 0 0", "started 1 1", "started 2 2", "done 0 0", "done 2 2", "started 3 3", "lost 3 3", "done 1 1"])


def one_is_stopped():
    """A command that is stopped and goes on later, beside others that don't wait for it."""
    rules = [("echo $$$$ > ROOM/pid; kill -STOP $$$$; echo a > a", [], ["a"]), *((f"echo {at} > o{at}", [], [f"o{at}"]) for at in range(1, 6))]
    with Course("a command is stopped and goes on", {}, rules, {"a": b"a\n", **{f"o{at}": f"{at}\n".encode() for at in range(1, 6)}}) as it:
        started = it.place.start(words(2))
        it.wait("the others", lambda: sum(kind.startswith("done") for kind in logs.kinds(it.records())) == 5)
        os.kill(int(content_of(f"{it.place.room}/pid")), signal.SIGCONT)
        ends(it, "the run", started, 0, complete(6))


def killed_amid_jobs():
    """No folder of a job is used again by the next run, though jobs of the dead program still run in theirs."""
    rules = [(f"pwd >> ROOM/pwd; while [ ! -e ROOM/go ]; do sleep 0.05; done; echo {at} > o{at}", [], [f"o{at}"]) for at in range(16)]
    with Course("killed while 16 jobs run, and gone on with", {}, rules, {f"o{at}": f"{at}\n".encode() for at in range(16)}) as it:
        def folders():
            path = f"{it.place.room}/pwd"
            return content_of(path).decode().split() if os.path.exists(path) else []

        dead = it.place.start(words(16))
        it.wait("16 jobs", lambda: len(folders()) == 16)
        os.kill(dead.pid, signal.SIGKILL)
        dead.stdout.close()
        dead.stderr.close()
        dead.wait()
        started = it.place.start(words(16))
        it.wait("16 jobs more", lambda: len(folders()) == 32)
        it.beside("go")
        ends(it, "the resume", started, 0, complete(16))
        it.note("the resume", [] if len(set(folders())) == 32 else ["two jobs had one folder"])
        time.sleep(0.3)


def many_rules():
    """Flows of rules that do next to nothing, with 16 jobs at once: the same files, the same line and a legal log each time."""
    rules = [(": > o" + str(at), ["in"] if at % 2 else [f"o{at - 1}"] if at else [], [f"o{at}"]) for at in range(MANY)]
    wrong = []
    for _ in range(10):
        place = Place({"flow": text_of(rules), "in": "abc"}, memory_folder())
        try:
            wrong += outcome(place.start(words(16)), 0, complete(MANY)) + place.wrong({f"o{at}": b"" for at in range(MANY)}) + place.wrong_logs(0)
            bad = logs.illegal(logs.read(content_of(f"{place.work}/flow.makeflowlog")), [(inputs, outs) for _, inputs, outs in rules])
            wrong += [bad] if bad else []
        finally:
            place.close()
    say(f"{MANY} rules with 16 jobs at once, ten times", wrong)


def kills_amid_many():
    """Kills at random moments of a merge with 16 jobs at once, each followed by a resume and compared with a serial run."""
    under, rules, how = memory_folder(), tree(slow=True), words(16)
    files = {"s": LINES, "flow": text_of(rules)}
    wanted = serial(rules, files)
    place = Place(files, under)
    try:
        begun = time.monotonic()
        wrong = outcome(place.start(how), 0, complete(len(rules)))
        whole = time.monotonic() - begun
        if wrong or files_of(place) != wanted:
            say("47 rules merged two by two: -j 16", wrong or ["its files aren't those of a serial run by the shell"])
            return
        name, wrong = Kills(files, wanted, whole, under, place, lambda it: wrong_resume(it, rules, wanted, how), how, KILL_SECONDS).run()
        say(f"-j 16: {name}", wrong)
    finally:
        place.close()


GROUPS = [at_once, rows_at_once, one_fails, one_is_damaged, one_is_stopped, killed_amid_jobs, many_rules, kills_amid_many]
