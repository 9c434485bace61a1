"""Cases of a folder's edges: names that lead to one file, a log that goes, looks beside a start and a run, whose files are
left behind, and what becomes of a killed program's commands."""
import fcntl
import os
import random
import shutil
import signal
import subprocess
import time

import logs
from places import COMPLETE, FOLDER_FAULT, NOBODY, SECONDS, USER, USUAL_LOG, Place, complete, content_of, outcome, seen, short
from resumes import AGAIN, ONE, ONE_RUN, TWO, Course
from workers import Talk, done

LOOK = ("--print-log", "flow")


def link_to(target):
    return lambda path: os.symlink(target, path)


def hard_link_to(target):
    return lambda path: os.link(f"{os.path.dirname(path)}/{target}", path)


def never_written(name, files, rules):
    """A flow with names that lead to one file: a run and the next one are refused, and nothing is written at all, the log
    and folders too."""
    with Course(name, {"in": "abc", **files}, rules, {}) as it:
        for step in ("the run", "the next one"):
            it.refused(step, 5, FOLDER_FAULT)


def one_file():
    """Two names of a flow that lead to one file, of which one is to be written: nothing is, not even what leads elsewhere."""
    other = ("cat in > other", ["in"], ["other"])
    two = [other, ("cat in > a", ["in"], ["a"]), ("cat in in > b", ["in"], ["b"])]
    both = [("cat in > a; cat in in > b", ["in"], ["a", "b"])]
    here = {"a": link_to("t"), "b": link_to("t")}
    for name, files in [("links to a file", {"t": "old", **here}), ("links to nothing", here),
                        ("links to nothing by another link", {"a": link_to("more"), "more": link_to("t"), "b": link_to("./t")}),
                        ("one file, by a link to the other that is there", {"a": "old", "b": link_to("a")}),
                        ("one file, by a link to the other that isn't there", {"b": link_to("a")})]:
        never_written(f"two outputs are {name}", files, two)
        never_written(f"two outputs of one rule are {name}", files, both)
    folders = [other, ("cat in > d/x", ["in"], ["d/x"]), ("cat in in > e/x", ["in"], ["e/x"])]
    for name, files in [("a new file", {"d": os.mkdir, "e": link_to("d")}), ("an old file", {"d/x": "old", "e": link_to("d")}),
                        ("a folder that isn't there yet", {"e": link_to("d")}), ("a folder that isn't there yet, and a slash", {"e": link_to("d/")}),
                        ("a folder by its full path", {"e": lambda path: os.symlink(f"{os.path.dirname(path)}/d", path)})]:
        never_written(f"two folders are one by a link, with {name}", files, folders)
    deep = [("cat in > d/f/x", ["in"], ["d/f/x"]), ("cat in in > e/x", ["in"], ["e/x"])]
    never_written("two folders are one by a link to a folder below one that isn't there yet", {"e": link_to("d/f")}, deep)


def one_of_the_others():
    """An output that leads to a source, to the flow file or to the log."""
    from_in = [("cat in in > out", ["in"], ["out"])]
    for name, files in [("a source", {"out": link_to("in")}), ("the flow file", {"out": link_to("flow")}), ("the log that isn't there", {"out": link_to(USUAL_LOG)}),
                        ("a log that is begun", {USUAL_LOG: b"MFLOG01\n\0", "out": link_to(USUAL_LOG)})]:
        never_written(f"an output is a link to {name}", files, from_in)
    never_written("an output is a link to a source by a folder", {"d/in": "abc", "e": link_to("d")}, [("cat d/in > e/in", ["d/in"], ["e/in"])])
    never_written("a source is a link to an output", {"in": link_to("out"), "out": "abc"}, from_in)
    never_written("the log is a link to an output that isn't there", {USUAL_LOG: link_to("out")}, from_in)
    with Course("an output is a link to a source that isn't there", {"zin": link_to("out")}, [("cat zin > out", ["zin"], ["out"])], {}) as it:
        it.refused("the run", 4, "makeflow: source zin missing\n")
    with Course("two sources are one file", {"in": "abc", "also": link_to("in")}, [("cat in also > out", ["in", "also"], ["out"])], {"out": b"abcabc"}) as it:
        it.call("the run", 0, COMPLETE, adds=ONE_RUN)
    with Course("an output is a hard link to a source, and is parted from it", {"in": "abc", "out": hard_link_to("in")}, from_in, {"out": b"abcabc"}) as it:
        it.call("the run", 0, COMPLETE, adds=ONE_RUN)
        it.call("the resume", 0, COMPLETE, adds=AGAIN)
    with Course("an output is a link to a file elsewhere, in a folder that is a link too", {"in": "abc", "far": os.mkdir, "near": link_to("far"), "near/out": link_to("real")},
                [("cat in > near/out", ["in"], ["near/out"])], {"far/real": b"abc"}) as it:
        it.call("the run", 0, COMPLETE, adds=ONE_RUN)
        it.call("the resume", 0, COMPLETE, adds=AGAIN)


def one_file_later():
    """Names that become one file once something is made: what is complete isn't written again, and the rest is refused."""
    same = [("cat in > a", ["in"], ["a"]), ("cat in > b", ["in"], ["b"])]
    with Course("an output is put as a link to another one once both are made", {"in": "abc"}, same, {"a": b"abc", "b": "a"}) as it:
        it.call("the run", 0, complete(2))
        os.remove(it.path("b"))
        os.symlink("a", it.path("b"))
        it.place.give()
        it.call("the resume", 0, complete(2), adds=AGAIN)
    late = [("cat in > a", ["in"], ["a"]), ("test -e ROOM/go && cat in in > b", ["in"], ["b"])]
    with Course("an output is put as a link to one that is made", {"in": "abc"}, late, {"a": b"abc", "b": "a"}) as it:
        it.call("the run", 1, "makeflow: rule 1 failed: status 1\n")
        os.symlink("a", it.path("b"))
        it.place.give()
        it.beside("go")
        before = it.looked()
        for step in ("the next run", "one more"):
            it.note(step, outcome(it.place.start(), 5, FOLDER_FAULT))
        it.stays("the next run", before)
    with Course("two outputs are put as links to one place once the run failed", {"in": "abc"}, [("false", ["in"], ["a"]), ("false", ["in"], ["b"])], {}) as it:
        it.call("the run", 1, "makeflow: rule 0 failed: status 1\n")
        for name in "ab":
            os.symlink("t", it.path(name))
        it.place.give()
        it.place.before = seen(it.place.work)
        it.refused("the next run", 5, FOLDER_FAULT)


def linked_logs():
    with Course("the log is a link to a file elsewhere", {"in": "abc", "logs": os.mkdir, USUAL_LOG: link_to("logs/real")}, ONE, {"out": b"abc"}) as it:
        it.call("the run", 0, COMPLETE, adds=ONE_RUN)
        it.call("the resume", 0, COMPLETE, adds=AGAIN)
        it.note("the log", [] if os.path.islink(it.path(USUAL_LOG)) and os.path.isfile(it.path("logs/real")) else ["it isn't where its link points to"])
        it.made["logs/real"] = content_of(it.path("logs/real"))
    with Course("the log is a link to an empty source", {"in": "", USUAL_LOG: link_to("in")}, ONE, {}) as it:
        for step in ("the run", "the next one"):
            it.refused(step, 5, FOLDER_FAULT)
    with Course("the log is a link to the flow file", {"flow": "", USUAL_LOG: link_to("flow")}, [], {}) as it:
        it.refused("the run", 5, FOLDER_FAULT)
    with Course("the log is a hard link of the flow file", {"flow": "", USUAL_LOG: hard_link_to("flow")}, [], {}) as it:
        it.refused("the run", 5, FOLDER_FAULT)


def lost_logs():
    """The log is removed, or another file takes its name, while a run goes on."""
    slow = [TWO[0], ("while ! test -e ROOM/go; do sleep 0.05; done; cat a > b", ["a"], ["b"])]
    for name, lose, left in [("removed", os.remove, None), ("replaced", lambda path: shutil.copyfile(path, f"{path}.new") and os.replace(f"{path}.new", path), 2)]:
        with Course(f"the log is {name} while a run goes on", {"in": "abc"}, slow, {"a": b"abc", "b": b"abc"}) as it:
            run = it.place.start()
            try:
                it.wait("the start of rule 1", lambda: "started 1 1" in logs.kinds(logs.read(it.data())))
                lose(it.path(USUAL_LOG))
                it.place.give()
                before = it.data()
                it.beside("go")
                it.note("the run", outcome(run, 5, FOLDER_FAULT))
                it.note("the log", [] if os.path.exists(it.path(USUAL_LOG)) == (left is not None) and it.data() == before else ["something was written to it"])
            finally:
                it.beside("go")
                if run.poll() is None:
                    run.kill()
                    run.communicate()
            it.call("the next run", 0, complete(2))


def beginners():
    """Of several that begin one flow in the same moment one goes on, and the others are refused."""
    slow = [("sleep 1; cat in > out", ["in"], ["out"])]
    for _ in range(5):
        with Course("four programs that begin together", {"in": "abc"}, slow, {"out": b"abc"}) as it:
            runs = [it.place.start() for _ in range(4)]
            ends = [(run.communicate(timeout=SECONDS)[0], run.returncode) for run in runs]
            one, refused = (COMPLETE.encode(), 0), (FOLDER_FAULT.encode(), 5)
            it.note("four of them", [] if ends.count(one) == 1 and ends.count(refused) == 3 else [f"they ended as {ends}"])
            it.call("a run behind them", 0, COMPLETE, adds=AGAIN)


def looks():
    """Who only looks at a log keeps no run out, and leaves nothing behind."""
    with Course("a look where there is no log", {"in": "abc"}, ONE, {"out": b"abc"}) as it:
        for step in ("the look", "the next one"):
            it.refused(step, 0, "", LOOK)
        it.refused("a cleaning", 0, "makeflow: cleaned, 0 files removed\n", ("-c", "flow"))
        it.call("the run", 0, COMPLETE, adds=ONE_RUN)
    for size in (0, 3, 9):
        with Course(f"a look at a log of {size} bytes", {"in": "abc", USUAL_LOG: b"MFLOG01\n\0"[:size]}, ONE, {"out": b"abc"}) as it:
            it.refused("the look", 0, "", LOOK)
            it.call("the run", 0, COMPLETE, adds=ONE_RUN)
    with Course("60 first runs, each in the moment of some looks", {"in": "abc"}, ONE, {}) as it:
        chance = random.Random(42)
        for _ in range(60):
            before = [it.place.start(LOOK) for _ in range(2)]
            time.sleep(chance.uniform(0, 0.02))
            run = it.place.start()
            time.sleep(chance.uniform(0, 0.02))
            seen = [*before, it.place.start(LOOK)]
            it.note("a run", outcome(run, 0, COMPLETE))
            for look in seen:
                it.note("a look", first_part(look, logs.printed(it.records(), 1, logs.Store(it.rules).names)))
            for name in (USUAL_LOG, "out"):
                os.remove(it.path(name))
    many = [(f"echo {at} > o{at}", [], [f"o{at}"]) for at in range(150)]
    with Course("looks without a pause beside a run", {}, many, {f"o{at}": f"{at}\n".encode() for at in range(150)}) as it:
        run, seen = it.place.start(), []
        while run.poll() is None and not it.found:
            look = it.place.start(LOOK)
            seen.append((look.communicate(timeout=SECONDS)[0], look.returncode))
        it.note("the run", outcome(run, 0, complete(150)))
        whole = logs.printed(it.records(), 150, logs.Store(it.rules).names).encode()
        it.note("a look", [f"it ended as {short(end)}" for end in seen if end[1] != 0 or not whole.startswith(end[0])])


def first_part(look, whole):
    """What is wrong with a look that may have come before any record was written."""
    out, err = look.communicate(timeout=SECONDS)
    fine = look.returncode == 0 and not err and whole.encode().startswith(out)
    return [] if fine else [f"it ended with status {look.returncode}, {short(out)} and {short(err)}"]


def group_of(pid):
    """The numbers of the processes in a group that haven't ended."""
    found = []
    for name in os.listdir("/proc"):
        try:
            words = content_of(f"/proc/{name}/stat").decode(errors="replace").rsplit(") ", 1)[1].split() if name.isdigit() else []
        except (OSError, IndexError):
            continue
        if len(words) > 2 and words[2] == str(pid) and words[0] not in "ZX":
            found.append(int(name))
    return found


# Such a command leaves its folder, and has more below it, some in the background, one of which has lost its parent.
DEEP = "cd / && {{ (sleep 1000; true) & (sleep 1000 | cat) & ( (sleep 1000; true) & ); echo {0} > ROOM/on.{0}; sleep 1000; true; }}"


def killed_alone():
    """A program that is killed takes its commands with it, and one that ends by itself leaves nothing either."""
    three = [(DEEP.format(at), ["in"], [f"o{at}"]) for at in range(3)]
    with Course("the commands of a makeflow that is killed alone", {"in": "abc"}, three, {}) as it:
        run = it.place.start()
        it.wait("three commands", lambda: all(os.path.exists(f"{it.place.room}/on.{at}") for at in range(3)))
        ended_with(it, run)
        left_to_the_next(it)
    with Course("two makeflows in one folder, one of them killed", {"in": "abc"}, [(f"{DEEP.format(0)}; cat in > out", ["in"], ["out"])], {"other": b"abc"}) as it:
        it.put("other.flow", f"other: in\n\ttouch {it.place.room}/on.1; while ! test -e {it.place.room}/go; do sleep 0.05; done; cat in > other\n")
        first, second = it.place.start(), it.place.start(("other.flow",))
        try:
            it.wait("both commands", lambda: all(os.path.exists(f"{it.place.room}/on.{at}") for at in range(2)))
            ended_with(it, first)
        finally:
            it.beside("go")
        it.note("the other one", outcome(second, 0, COMPLETE))
        it.note("behind it", [f"processes {left} are left" for left in [group_of(second.pid)] if left])
        left_to_the_next(it)
    with Course("a run that ends by itself leaves no process", {"in": "abc"}, TWO, {"a": b"abc", "b": b"abc"}) as it:
        run = it.place.start()
        it.note("the run", outcome(run, 0, complete(2)))
        it.note("behind it", [f"processes {left} are left" for left in [group_of(run.pid)] if left])
    with Talk("the commands of a worker that is killed alone", "--cores", "2", amounts=(2, 4096, 16384)) as it:
        for at in range(2):
            it.asks(at, DEEP.format(at))
        it.wait("two commands", lambda: it.there("on.0", "on.1"))
        ended_with(it, it.worker)
        left_to_the_next(it)
    with Talk("a worker that ends by itself leaves no process") as it:
        it.asks(5, "echo a > out")
        it.hears("the task", done(5, b"a\n"))
        it.leaves()
        it.note("behind it", [f"processes {left} are left" for left in [group_of(it.worker.pid)] if left])


def ended_with(it, program):
    """Kills a program alone, and waits for the end of all that it started."""
    it.note("the commands", [] if len(group_of(program.pid)) > 4 else [f"only {group_of(program.pid)} run"])
    program.send_signal(signal.SIGKILL)
    program.communicate(timeout=SECONDS)
    try:
        it.wait("the end of the commands", lambda: not group_of(program.pid))
    finally:
        if group_of(program.pid):
            os.killpg(program.pid, signal.SIGKILL)


def left_to_the_next(it):
    """Removes the folders of killed jobs, as the next program would."""
    for name in os.listdir(it.place.tmp):
        shutil.rmtree(f"{it.place.tmp}/{name}")


def apart(place, words=("flow",)):
    """Starts the program in a PID namespace of its own, as the user as whom all runs here."""
    user = ["setpriv", f"--reuid={NOBODY}", f"--regid={NOBODY}", "--clear-groups"] if USER else []
    settings = {"PATH": os.environ.get("PATH", "/usr/bin:/bin"), "LANG": "C", "TMPDIR": place.tmp}
    return subprocess.Popen(["unshare", "--pid", "--fork", "--mount-proc", *user, place.program, *words], cwd=place.work, env=settings, start_new_session=True,
                            stdin=subprocess.DEVNULL, stdout=subprocess.PIPE, stderr=subprocess.PIPE)


def can_be_apart():
    if os.geteuid():
        return False
    tried = subprocess.run(["unshare", "--pid", "--fork", "--mount-proc", "setpriv", "--clear-groups", "true"], capture_output=True)
    return tried.returncode == 0


def containers():
    """Two programs in two PID namespaces, with one host name and one temporary folder: neither takes what the other uses."""
    if not can_be_apart():
        print("left out: programs in PID namespaces can't be started here", flush=True)
        return
    slow = [("cat in > out; while ! test -e ROOM/go; do sleep 0.05; done", ["in"], ["out"])]
    with Course("two programs in two PID namespaces", {"in": "abc"}, slow, {"out": b"abc"}) as it:
        other = Place({"flow": "more: in\n\tcat in > more\n", "in": "abc"}, like=it.place)
        first = apart(it.place)
        try:
            it.wait("the first one's job", lambda: any(os.path.exists(f"{it.place.tmp}/{name}/out") for name in os.listdir(it.place.tmp)))
            other.tmp = it.place.tmp
            it.note("the second one", outcome(apart(other), 0, COMPLETE))
            it.note("the first one's job", [] if any(os.path.exists(f"{it.place.tmp}/{name}/out") for name in os.listdir(it.place.tmp)) else ["its folder is gone"])
            it.beside("go")
            it.note("the first one", outcome(first, 0, COMPLETE))
            it.note("the log", [] if logs.kinds(it.records()) == ONE_RUN else [f"it has {logs.kinds(it.records())}"])
        finally:
            it.beside("go")
            if first.poll() is None:
                os.killpg(first.pid, 9)
                first.communicate()
            other.tmp = f"{other.room}/tmp"
            other.close()
    with Course("what a program in another PID namespace left goes", {"in": "abc"}, [("test -e ROOM/go || sleep 60; cat in > out", ["in"], ["out"])], {"out": b"abc"}) as it:
        first = apart(it.place)
        it.wait("the first one's job", lambda: os.listdir(it.place.tmp))
        os.killpg(first.pid, 9)
        first.communicate()
        it.wait("its end", lambda: not held(it.place.tmp))
        it.beside("go")
        it.call("the resume", 0, COMPLETE)


def held(folder):
    """Whether somebody holds what stands in a folder."""
    for name in os.listdir(folder):
        at = os.open(f"{folder}/{name}", os.O_RDONLY)
        try:
            fcntl.flock(at, fcntl.LOCK_EX | fcntl.LOCK_NB)
        except BlockingIOError:
            return True
        finally:
            os.close(at)
    return False


def odd_commands():
    """Commands that begin as the options of a shell do."""
    for first in ["-x", "+x", "--", "-"]:
        with Course(f"a command that begins with {first}", {"in": "abc"}, [(f"{first} 2> err; cat in > out", ["in"], ["out"])], {"out": b"abc"}) as it:
            it.call("the run", 0, COMPLETE, adds=ONE_RUN)


def deep_names():
    """Names as deep and as long as may be, and one with a part that no file can have."""
    for what, name in [("200 folders", "d/" * 200 + "out"), ("folders of the longest names", "/".join(it * 255 for it in "abcd"))]:
        parts = name.split("/")
        folders = {"/".join(parts[:at]): None for at in range(1, len(parts))}
        with Course(f"an output below {what}", {"in": "abc"}, [(f"cat in > {name}", ["in"], [name])], {name: b"abc", **folders}) as it:
            it.call("the run", 0, COMPLETE, adds=ONE_RUN)
            it.call("the resume", 0, COMPLETE, adds=AGAIN)
    with Course("an output with a part of 256 bytes", {"in": "abc"}, [(f"cat in > {'n' * 256}", ["in"], ["n" * 256])], {}) as it:
        for step in ("the run", "the next one"):
            run = it.place.start()
            out, err = run.communicate(timeout=SECONDS)
            fine = run.returncode in (1, 5) and out.startswith(b"makeflow: ") and out.count(b"\n") == 1 and not err
            it.note(step, [] if fine else [f"it ended with status {run.returncode}, {short(out)} and {short(err)}"])


def sick_starts():
    """A program whose starter left its signals otherwise than usual, started as the guide says."""
    def started(how, place):
        return subprocess.Popen(["/bin/sh", "-c", f'{how} "$0" flow', place.program], cwd=place.work, env={"PATH": "/usr/bin:/bin", "TMPDIR": place.tmp}, start_new_session=True,
                                stdin=subprocess.DEVNULL, stdout=subprocess.PIPE, stderr=subprocess.PIPE, **USER)

    with Course("SIGCHLD ignored", {"in": "abc"}, TWO, {"a": b"abc", "b": b"abc"}) as it:
        it.note("the run", outcome(started("trap '' CHLD; exec", it.place), 0, complete(2)))
    with Course("SIGCHLD ignored, and a command that fails", {"in": "abc"}, [("exit 7", ["in"], ["out"])], {}) as it:
        it.note("the run", outcome(started("trap '' CHLD; exec", it.place), 1, "makeflow: rule 0 failed: status 7\n"))
    with Course("a limit on the size of files, with SIGXFSZ ignored", {"in": "abc"}, [("cat in > out", ["in"], ["out"])] * 1, {}) as it:
        it.note("the run", outcome(started("trap '' XFSZ; ulimit -f 0; exec", it.place), 5, FOLDER_FAULT))


GROUPS = [one_file, one_of_the_others, one_file_later, linked_logs, lost_logs, beginners, looks, killed_alone, containers, odd_commands, deep_names, sick_starts]
