"""Cases of what a job could reach that isn't its own: by hard links, reflinks and modes, through a process that outlives
it, and beside a job that runs at the same time. Links in the place of a job's files and folders stand in tests/run."""
import os

from places import complete, content_of
from resumes import Course

ONE_MORE = "echo more >> {}"


def mode_of(path):
    return os.stat(path).st_mode & 0o7777


def with_mode(mode):
    def make(path):
        with open(path, "w") as it:
            it.write("abc")
        os.chmod(path, mode)
    return make


def hard_links():
    """A command links a file that it has to elsewhere, or one from elsewhere into its folder, and writes to the link."""
    kept = [("ln in ROOM/kept; cat in > a", ["in"], ["a"]), (f"{ONE_MORE.format('ROOM/kept')}; cat in > b", ["in", "a"], ["b"])]
    with Course("a hard link to an input, kept and written to by the next job", {"in": "abc"}, kept, {"a": b"abc", "b": b"abc"}) as it:
        it.call("the run", 0, complete(2))
    kept = [("cat in > a; ln a ROOM/kept", ["in"], ["a"]), (f"{ONE_MORE.format('ROOM/kept')}; cat a > b", ["a"], ["b"])]
    with Course("a hard link to an output, kept and written to by the next job", {"in": "abc"}, kept, {"a": b"abc", "b": b"abc"}) as it:
        it.call("the run", 0, complete(2))
    for name, command in [("a source", "ln ROOM/work/in out"), ("its input", "ln in out"), ("its input, which is written to", f"ln in out; {ONE_MORE.format('in')}; rm in; echo x > in")]:
        made = b"abcmore\n" if "written" in name else b"abc"
        with Course(f"an output that is a hard link to {name}", {"in": "abc"}, [(command, ["in"], ["out"])], {"out": made}) as it:
            it.call("the run", 0, complete(1))
            it.note("the run", [f"{file} has {os.stat(it.path(file)).st_nlink} names" for file in ("in", "out") if os.stat(it.path(file)).st_nlink != 1])
    with Course("a hard link to a file elsewhere in the place of an input", {"in": "abc", "theirs": "kept"}, [("rm in; ln ROOM/work/theirs in; cat in > out", ["in"], ["out"])], {"out": b"kept"}) as it:
        it.call("the run", 0, complete(1))


def reflinks():
    """Where the file system has none these are copies."""
    with Course("a reflink of an input that is changed", {"in": "abc"}, [("cp --reflink=auto in copy; echo more >> copy; cat in > out", ["in"], ["out"])], {"out": b"abc"}) as it:
        it.call("the run", 0, complete(1))
    with Course("an output that is a reflink of a source, changed", {"in": "abc"}, [("cp --reflink=auto ROOM/work/in out; echo more >> out", ["in"], ["out"])], {"out": b"abcmore\n"}) as it:
        it.call("the run", 0, complete(1))
    with Course("an input that is changed behind a reflink of it", {"in": "abc"},
                [("cp --reflink=auto in ROOM/kept; echo more >> in; cat in > a", ["in"], ["a"]), ("cat ROOM/kept in > b", ["in", "a"], ["b"])], {"a": b"abcmore\n", "b": b"abcabc"}) as it:
        it.call("the run", 0, complete(2))


def modes():
    """A command owns the copies that it has, and their modes, and no others."""
    closed = [("cat in > a; chmod 0 in a; chmod 600 a", ["in"], ["a"]), ("cat in a > b", ["in", "a"], ["b"])]
    with Course("an input that a job closes", {"in": "abc"}, closed, {"a": b"abc", "b": b"abcabc"}) as it:
        it.call("the run", 0, complete(2))
    for mode in (0o400, 0o444, 0o600, 0o640, 0o777, 0o1644, 0o4755):
        with Course(f"a source of mode {mode:o}, whose copy is written to", {"in": with_mode(mode)}, [("stat -c %a in > out; chmod 777 in; echo more >> in", ["in"], ["out"])], {"out": b"755\n"}) as it:
            it.call("the run", 0, complete(1))
    for mode in (0o4777, 0o1777, 0o600):
        with Course(f"an output of mode {mode:o}", {"in": "abc"}, [(f"cat in > out; chmod {mode:o} out", ["in"], ["out"])], {"out": b"abc"}) as it:
            it.call("the run", 0, complete(1), preexec_fn=lambda: os.umask(0o022))
            it.note("the run", [] if mode_of(it.path("out")) == 0o644 else [f"its mode is {mode_of(it.path('out')):o}"])


LATE = "(while [ ! -e ROOM/next ]; do sleep 0.02; done; {}; touch ROOM/wrote) > /dev/null 2>&1 &"
NEXT = "touch ROOM/next; while [ ! -e ROOM/wrote ]; do sleep 0.02; done"


def late_processes():
    """A process that a job leaves behind writes, once its job has ended, while the next one runs."""
    for name, late, folder in [
        ("by names of its folder", "echo late > in; echo late > b; echo late > more", ""),
        ("by the path of its folder", "echo late > $$PWD/in; echo late > $$PWD/b; echo late > $$PWD/more", ""),
        ("by names of a folder in it", "cd d; echo late > in; echo late > b; echo late > more", "d/"),
        ("by the path of a folder in it", "echo late > $$PWD/d/in; echo late > $$PWD/d/b; echo late > $$PWD/d/more", "d/"),
        ("into a folder that it makes where its own was", "mkdir $$PWD; echo late > $$PWD/in; rm -r $$PWD", ""),
        ("and removes what it finds", "rm -rf in b $$PWD/in $$PWD/b $$PWD", ""),
    ]:
        rules = [(f"{LATE.format(late)} cat {folder}in > {folder}a", [f"in->{folder}in"], [f"a->{folder}a"]),
                 (f"{NEXT}; cat {folder}in > {folder}b; ls -A {folder} >> {folder}b", [f"in->{folder}in", f"a->{folder}a"], [f"b->{folder}b"])]
        with Course(f"a process that outlives its job writes {name}", {"in": "abc"}, rules, {"a": b"abc", "b": b"abca\nb\nin\n"}) as it:
            it.call("the run", 0, complete(2))
    for name, opened, late in [("an output", "a", "echo late >&3"), ("an input", "in", "echo late >&3")]:
        rules = [(f"exec 3>> {opened}; {LATE.format(late)} exec 3>&-; cat in > a", ["in"], ["a"]), (f"{NEXT}; cat in a > b", ["in", "a"], ["b"])]
        with Course(f"a process that outlives its job writes to {name} that it has open", {"in": "abc"}, rules, {"a": b"abc", "b": b"abcabc"}) as it:
            it.call("the run", 0, complete(2))
    with Course("no two jobs of a run have one folder", {"in": "abc"}, [(f"pwd >> ROOM/pwd; cat in > o{at}", ["in"], [f"o{at}"]) for at in range(20)], {f"o{at}": b"abc" for at in range(20)}) as it:
        it.call("the run", 0, complete(20), ("-j", "4", "flow"))
        folders = content_of(f"{it.place.room}/pwd").split()
        it.note("the run", [] if len(set(folders)) == 20 else [f"they had {len(set(folders))} folders"])


def beside_another():
    """Two jobs at once that take in one file, which one of them changes while the other runs."""
    wait = "while [ ! -e ROOM/{0} ]; do sleep 0.02; done"
    rules = [(f"touch ROOM/b; {wait.format('a')}; chmod 777 in; echo more >> in; touch ROOM/more; cat in > one", ["in"], ["one"]),
             (f"touch ROOM/a; {wait.format('b')}; {wait.format('more')}; cat in > two", ["in"], ["two"])]
    with Course("two jobs at once take in one file, which one of them changes", {"in": "abc"}, rules, {"one": b"abcmore\n", "two": b"abc"}) as it:
        it.call("the run", 0, complete(2), ("-j", "2", "flow"))


GROUPS = [hard_links, reflinks, modes, late_processes, beside_another]
