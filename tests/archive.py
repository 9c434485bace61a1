"""Cases of makeflow_archive and makeflow_archive_prune. An archive stands beside the place's folder, and a link in the
folder, `results`, leads to it. Which commands ran is told by marks that they leave beside the folder."""
import hashlib
import os
import random
import shutil
import signal
import struct
import subprocess
import time

from places import COMPLETE, NOBODY, PROGRAM, SECONDS, USAGE, USER, USUAL_LOG, Place, complete, content_of, outcome, say, seen, short, text_of
from resumes import cleaned, fill, mounted
from scripts import SCRIPT_USER
from wq import free_port

NAME = "makeflow_archive"
PRUNE = "makeflow_archive_prune"
RULES = 60
KILLS = 30
MEETINGS = 20
MANY_ENTRIES = 20_000
DAY = 86_400
ALONE = ("results", "flow")


def u32(number):
    return struct.pack(">I", number)


def u64(number):
    return struct.pack(">Q", number)


def counted(data):
    return u32(len(data)) + data


def spelled(command, env, inputs, outputs):
    """A job as the archive spells it."""
    return (counted(command) + u32(len(env)) + b"".join(counted(name) + counted(value) for name, value in env)
            + u32(len(inputs)) + b"".join(counted(name) + counted(data) for name, data in inputs)
            + u32(len(outputs)) + b"".join(counted(name) + u64(bound) for name, bound in outputs))


def entry(job, outs):
    """The name and the bytes of a job's entry."""
    body = u64(len(job)) + job + u32(len(outs)) + b"".join(map(counted, outs))
    return hashlib.sha256(job).hexdigest(), b"\1" + body + hashlib.sha256(body).digest()


class Shelf(Place):
    """A place with makeflow_archive, and an archive beside its folder."""

    def __init__(self, files, linked=True, **how):
        super().__init__(files, **how)
        for name in (NAME, PRUNE):
            self.put(f"{os.path.dirname(PROGRAM)}/{name}", f"{self.room}/{name}")
        self.shelf, self.marks = f"{self.room}/shelf", f"{self.room}/marks"
        os.mkdir(self.shelf)
        if linked:
            os.symlink(self.shelf, f"{self.work}/results")
        self.give()
        self.before = seen(self.work)

    def put_flow(self, rules):
        """The flow of these rules, each of which leaves a mark where it runs."""
        marked = [(f"echo {at} >> {self.marks}; {command}", inputs, outs) for at, (command, inputs, outs) in enumerate(rules)]
        self.write("flow", text_of(marked))
        return marked

    def write(self, name, content):
        with open(f"{self.work}/{name}", "wb") as it:
            it.write(content.encode() if isinstance(content, str) else content)
        self.give()
        self.before[name] = seen(self.work)[name]

    def ran(self):
        """The rules whose commands ran since the last look."""
        found = sorted(map(int, content_of(self.marks).split())) if os.path.exists(self.marks) else []
        if found:
            os.remove(self.marks)
        return found

    def call(self, status, printed, words=ALONE, program=NAME, **how):
        return outcome(self.start(words, program=program, **how), status, printed)

    def clean(self, files):
        return self.call(0, cleaned(files), ("-c", "flow"), "makeflow")

    def forget(self, made):
        """The folder as before any run, but for the archive."""
        for name in [*made, USUAL_LOG]:
            if os.path.exists(f"{self.work}/{name}"):
                os.remove(f"{self.work}/{name}")

    def entries(self):
        return sorted(os.listdir(self.shelf))

    def prune(self, *words, status=0):
        told = subprocess.run([f"{self.room}/{PRUNE}", *words], cwd=self.work, stdin=subprocess.DEVNULL, capture_output=True, text=True, timeout=SECONDS, check=False, **SCRIPT_USER)
        return [] if told.returncode == status and not told.stderr else [f"{PRUNE} ended with {told.returncode}: {told.stdout}{told.stderr}"]


def a_row(count):
    """Rules that each add a line to what an earlier one made, and what they make of the source."""
    rules = [("cat s > o0; echo 0 >> o0", ["s"], ["o0"])]
    made = {"o0": b"abc\n0\n"}
    for at in range(1, count):
        near = f"o{(at - 1) // 2}"
        rules.append((f"cat {near} > o{at}; echo {at} >> o{at}", [near], [f"o{at}"]))
        made[f"o{at}"] = made[near] + f"{at}\n".encode()
    return rules, made


def archive_first():
    rules, made = a_row(RULES)
    shelf = Shelf({"s": "abc\n"})
    try:
        shelf.put_flow(rules)
        wrong = shelf.call(0, complete(RULES)) + shelf.wrong(made) + shelf.wrong_logs(0)
        wrong += [] if shelf.ran() == list(range(RULES)) and len(shelf.entries()) == RULES else ["not each rule ran and was kept once"]
        kept = seen(shelf.shelf)
        wrong += shelf.clean(RULES) + shelf.call(0, complete(RULES)) + shelf.wrong(made) + shelf.wrong_logs(0)
        ran = shelf.ran()
        wrong += [f"these ran again: {ran}"] if ran else []
        wrong += [] if seen(shelf.shelf) == kept else ["an entry was touched"]
        say("60 rules, cleaned and run again: no command runs", wrong)
        shelf.clean(RULES)
        wrong = shelf.call(0, complete(RULES), ("flow",), "makeflow") + shelf.wrong(made)
        say("without the archive each runs", wrong + ([] if shelf.ran() == list(range(RULES)) else ["not each rule ran"]))
    finally:
        shelf.close()
    for jobs in (1, 16):
        shelf = Shelf({"s": "abc\n"}, linked=False)
        try:
            shelf.put_flow(rules)
            words = ("results", "-j", str(jobs), "flow")
            wrong = shelf.call(0, complete(RULES), words) + shelf.clean(RULES) + shelf.call(0, complete(RULES), words)
            ran = shelf.ran()
            wrong += [] if ran == list(range(RULES)) else [f"these ran: {ran}"]
            shutil.rmtree(f"{shelf.work}/results")
            say(f"the archive is a folder of the flow's, which is made: -j {jobs}", wrong + shelf.wrong(made))
        finally:
            shelf.close()


def archive_format():
    """An entry as the documents say it is."""
    shelf = Shelf({"in": "abc", "flow": ".SIZE out 3\nexport MODE=plain\nout: in\n\tcat in > out\n"})
    try:
        wrong = shelf.call(0, COMPLETE) + shelf.wrong({"out": b"abc"})
        name, data = entry(spelled(b"cat in > out", [(b"MODE", b"plain")], [(b"in", b"abc")], [(b"out", 3)]), [b"abc"])
        found = {it: content_of(f"{shelf.shelf}/{it}") for it in shelf.entries()}
        wrong += [] if found == {name: data} else [f"the archive has {short(found)}, not {short({name: data})}"]
        say("an entry's name and bytes", wrong)
    finally:
        shelf.close()


def archive_changes():
    """What is part of a job, and what isn't."""
    rules, made = a_row(7)
    shelf = Shelf({"s": "abc\n"})
    try:
        shelf.put_flow([*rules, ("cat t > p", ["t"], ["p"])])
        shelf.write("t", "xyz")
        wrong = shelf.call(0, complete(8)) + shelf.clean(8)
        shelf.ran()
        shelf.write("t", "other")
        wrong += shelf.call(0, complete(8)) + shelf.wrong({**made, "p": b"other"})
        ran = shelf.ran()
        say("a changed source: only what depends on it runs again", wrong + ([] if ran == [7] else [f"these ran: {ran}"]))
    finally:
        shelf.close()
    plain = "out: in\n\tcat in > out; echo $$MODE >> out; echo x >> ROOM/marks\n"
    changes = [("another variable", "export MODE=a\n" + plain, b"abca\n"), ("another name", "export OTHER=b\n" + plain, b"abc\n"),
               ("another bound", ".SIZE out 9\n" + plain, b"abc\n"), ("another command", plain.replace("; echo x", ";  echo x"), b"abc\n")]
    for name, text, made in changes:
        shelf = Shelf({"in": "abc"})
        try:
            shelf.write("flow", plain.replace("ROOM", shelf.room))
            wrong = shelf.call(0, COMPLETE) + shelf.clean(1)
            os.remove(f"{shelf.work}/{USUAL_LOG}")
            shelf.write("flow", text.replace("ROOM", shelf.room))
            wrong += shelf.call(0, COMPLETE) + shelf.wrong({"out": made})
            wrong += [] if content_of(shelf.marks) == b"x\nx\n" and len(shelf.entries()) == 2 else ["it was answered"]
            say(f"{name} is another job", wrong)
        finally:
            shelf.close()


def archive_failures():
    """A failed command is no result."""
    shelf = Shelf({"in": "abc"})
    try:
        shelf.write("flow", f"out: in\n\techo x >> {shelf.marks}; exit 3\n")
        wrong = []
        for _ in range(2):
            wrong += shelf.call(1, "makeflow: rule 0 failed: status 3\n")
        wrong += [] if content_of(shelf.marks) == b"x\nx\n" and not shelf.entries() else ["a failure was kept"]
        say("a failure isn't kept", wrong + shelf.wrong({}))
    finally:
        shelf.close()


def archive_words():
    pair = {"flow": "out: in\n\tcat in > out\n", "in": "abc"}
    for words in [(), ("results",), ("flow",), ("../results", "flow"), ("/tmp", "flow"), ("", "flow"), (".", "flow"), (b"\xff", "flow"),
                  ("x" * 901, "flow"), ("-j", "4", "results", "flow"), ("results", "-x", "flow"), ("results", "flow", "flow"), ("results", "--help")]:
        shelf = Shelf(pair)
        try:
            say(f"the words {short(words)}", shelf.call(2, USAGE, words) + shelf.wrong({}) + shelf.wrong_logs(2) + ([] if not shelf.entries() else ["the archive was touched"]))
        finally:
            shelf.close()
    for words in [("./results", "flow"), ("results/", "-j", "2", "flow"), ("results/deep/er", "flow"), ("--", "flow")]:
        shelf = Shelf(pair)
        try:
            wrong = shelf.call(0, COMPLETE, words)
            if words[0] == "--":
                shutil.rmtree(f"{shelf.work}/--")
            say(f"the words {words}", wrong + shelf.wrong({"out": b"abc"}) + shelf.wrong_logs(0))
        finally:
            shelf.close()


def archive_kills():
    """Kills of a run that fills an archive. Runs from it make what a serial run makes."""
    rules, made = a_row(RULES)
    wrong, late, moments = [], 0, random.Random(48)
    shelf = Shelf({"s": "abc\n"})
    try:
        shelf.put_flow(rules)
        begun = time.monotonic()
        wrong += shelf.call(0, complete(RULES))
        whole = time.monotonic() - begun
    finally:
        shelf.close()
    for _ in range(KILLS):
        shelf = Shelf({"s": "abc\n"})
        try:
            shelf.put_flow(rules)
            moment = moments.uniform(0, whole)
            started = shelf.start(ALONE, program=NAME, stdout=subprocess.DEVNULL)
            time.sleep(moment)
            os.killpg(started.pid, signal.SIGKILL)
            started.communicate()
            late += started.returncode != -signal.SIGKILL
            for step in ("resumed", "anew", "once more"):
                told = shelf.call(0, complete(RULES)) + [it for it in shelf.wrong(made) if not it.startswith("left behind")]
                wrong += [f"killed after {moment:.3f} s, {step}: {it}" for it in told]
                if step != "once more":
                    wrong += shelf.clean(RULES)
                    shelf.ran()
            again = shelf.ran()
            wrong += [f"killed after {moment:.3f} s: these ran again: {again}"] if again else []
        finally:
            shelf.close()
    say(f"{KILLS - late} kills of a run that fills an archive, within {whole:.1f} s", wrong)


def archive_damage():
    """An entry with each byte turned, cut and grown is never answered by a wrong output."""
    shelf = Shelf({"in": "abc", "flow": "out: in\n\tcat in > out\n"})
    try:
        wrong = shelf.call(0, COMPLETE)
        name = shelf.entries()[0]
        whole = content_of(f"{shelf.shelf}/{name}")
        damaged = [whole[:at] + bytes([whole[at] ^ (1 << at % 8)]) + whole[at + 1:] for at in range(len(whole))]
        damaged += [whole[:at] for at in range(0, len(whole), 8)] + [whole + b"\0", b"\1" * 1_000_000]
        for at, data in enumerate(damaged):
            shelf.forget(["out"])
            with open(f"{shelf.shelf}/{name}", "wb") as it:
                it.write(data)
            shelf.give()
            told = shelf.call(0, COMPLETE) + shelf.wrong({"out": b"abc"})
            told += [] if content_of(f"{shelf.shelf}/{name}") == whole else ["the entry isn't whole again"]
            wrong += [f"damage {at}: {it}" for it in told]
        say(f"an entry damaged in {len(damaged)} ways", wrong)
    finally:
        shelf.close()


def sick(name, make, undo=None, ran=2, user_only=False):
    """An archive in which nothing can be kept: the flow runs as if there were none."""
    shelf = Shelf({"in": "abc"})
    try:
        shelf.write("flow", f"out: in\n\techo 0 >> {shelf.marks}; cat in > out\n")
        make(shelf)
        wrong = []
        for _ in range(2):
            shelf.forget(["out"])
            wrong += shelf.call(0, COMPLETE) + shelf.wrong({"out": b"abc"}) + shelf.wrong_logs(0)
        found = shelf.ran()
        say(name, wrong + ([] if len(found) == ran else [f"it ran {len(found)} times"]))
    finally:
        if undo:
            undo(shelf)
        shelf.close()


def locked(shelf):
    os.chmod(shelf.shelf, 0o555)


def no_folder(shelf):
    os.rmdir(shelf.shelf)
    with open(shelf.shelf, "w", encoding="ascii") as it:
        it.write("no folder")
    shelf.give()


def full(shelf):
    if mounted(shelf.shelf, 65_536):
        fill(f"{shelf.shelf}/filler", 0)


def pipes(shelf):
    """Under the entry's name stands a pipe, at which nobody may wait."""
    job = spelled(f"echo 0 >> {shelf.marks}; cat in > out".encode(), [], [(b"in", b"abc")], [(b"out", 67_108_864)])
    os.mkfifo(f"{shelf.shelf}/{entry(job, [b'abc'])[0]}")
    shelf.give()


def huge(shelf):
    """Under the entry's name stands a file that is longer than any memory, most of it a hole."""
    job = spelled(f"echo 0 >> {shelf.marks}; cat in > out".encode(), [], [(b"in", b"abc")], [(b"out", 67_108_864)])
    with open(f"{shelf.shelf}/{entry(job, [b'abc'])[0]}", "wb") as it:
        it.write(b"\1")
        it.truncate(1 << 40)
    shelf.give()


def archive_fills():
    """The archive's disk fills up amid an entry. What was begun is no entry, but takes what room there is; with more room both jobs are kept."""
    if os.geteuid():
        print("skipped an archive whose disk fills up: no disk can be mounted", flush=True)
        return
    sizes = [20_000, 200_000, 30_000]
    rules = [(f"head -c {size} /dev/zero > o{at}", ["s"], [f"o{at}"]) for at, size in enumerate(sizes)]
    made = {f"o{at}": bytes(size) for at, size in enumerate(sizes)}
    shelf = Shelf({"s": "abc\n"})
    try:
        shelf.put_flow(rules)
        mounted(shelf.shelf, 131_072)
        words, wrong = ("results", "-j", "1", "flow"), []
        for ran in ([0, 1, 2], [1, 2]):
            wrong += shelf.call(0, complete(3), words) + shelf.wrong(made) + shelf.wrong_logs(0)
            found = shelf.ran()
            wrong += [] if found == ran else [f"these ran: {found}, not {ran}"]
            wrong += shelf.clean(3)
        subprocess.run(["mount", "-o", "remount,size=1048576", shelf.shelf], capture_output=True, check=True)
        for ran in ([1, 2], []):
            wrong += shelf.call(0, complete(3), words) + shelf.wrong(made)
            found = shelf.ran()
            wrong += [] if found == ran else [f"with room these ran: {found}, not {ran}"]
            wrong += shelf.clean(3)
        say("an archive whose disk fills up amid an entry", wrong)
    finally:
        subprocess.run(["umount", "-l", shelf.shelf], capture_output=True, check=False)
        shelf.close()


def archive_sick():
    if USER or os.geteuid():
        sick("an archive that may not be written", locked)
        sick("an archive of another owner", lambda shelf: (os.chown(shelf.shelf, 0, 0), os.chmod(shelf.shelf, 0o755)) if USER else locked(shelf))
    sick("an archive that is a file", no_folder)
    sick("a pipe under an entry's name", pipes)
    sick("a file of 1 TiB under an entry's name", huge, ran=1)
    if os.geteuid() == 0:
        sick("an archive on a full disk", full, lambda shelf: subprocess.run(["umount", "-l", shelf.shelf], capture_output=True, check=False))
    else:
        print("skipped an archive on a full disk: no disk can be mounted", flush=True)


def archive_meets():
    """Two runs of one flow in two folders over one archive."""
    rules, made = a_row(20)
    wrong = []
    for at in range(MEETINGS):
        one, two = Shelf({"s": "abc\n"}), Shelf({"s": "abc\n"}, linked=False)
        try:
            os.symlink(one.shelf, f"{two.work}/results")
            two.marks = one.marks
            for it in (one, two):
                it.put_flow(rules)
                it.before = seen(it.work)
            started = [it.start(ALONE, program=NAME) for it in (one, two)]
            for it, run in zip((one, two), started):
                wrong += [f"meeting {at}: {told}" for told in outcome(run, 0, complete(20)) + it.wrong(made)]
            one.ran()
            for it in (one, two):
                wrong += it.clean(20) + it.call(0, complete(20)) + it.wrong(made)
            again = one.ran()
            wrong += [f"meeting {at}: these ran again: {again}"] if again else []
            wrong += [] if len(one.entries()) == 20 else [f"meeting {at}: the archive has {len(one.entries())} entries"]
        finally:
            one.close()
            two.close()
    say(f"{MEETINGS} times two runs with one archive", wrong)


def archive_large():
    """A look opens one file and walks over none, however many entries there are."""
    shelf = Shelf({"in": "abc", "flow": "out: in\n\tcat in > out\n"})
    try:
        for at in range(MANY_ENTRIES):
            with open(f"{shelf.shelf}/{at:064x}", "wb") as it:
                it.write(b"\1")
        wrong = shelf.call(0, COMPLETE) + shelf.clean(1)
        if not shutil.which("strace"):
            say(f"a look among {MANY_ENTRIES} entries (strace isn't installed: its calls weren't counted)", wrong)
            return
        shelf.put(shutil.which("strace"), f"{shelf.room}/strace")
        os.mkdir(f"{shelf.room}/trace")
        shelf.give()
        trace = f"{shelf.room}/trace/calls"
        wrong += outcome(shelf.start(["-f", "-o", trace, "-e", "trace=open,openat,getdents,getdents64", f"{shelf.room}/{NAME}", *ALONE], program="strace"), 0, COMPLETE)
        calls = content_of(trace).decode().splitlines()
        name = next(it for it in shelf.entries() if it.strip("0") and len(it.lstrip("0")) > 10)
        opened = [it for it in calls if "results/" in it]
        walked = [it for it in calls if "getdents" in it and "ENOTDIR" not in it]
        shelf_walks = [it for it in calls if '"results"' in it]
        wrong += [] if len(opened) == 1 and name in opened[0] else [f"it opened {opened}"]
        wrong += [] if not shelf_walks else [f"it opened the archive: {shelf_walks}"]
        say(f"a look among {MANY_ENTRIES} entries opens one file ({len(walked)} reads of other folders)", wrong)
    finally:
        shelf.close()


def archive_prunes():
    rules, made = a_row(20)
    shelf = Shelf({"s": "abc\n"})
    try:
        shelf.put_flow(rules)
        wrong = shelf.call(0, complete(20)) + shelf.clean(20)
        shelf.ran()
        old = shelf.entries()[:8]
        for name in old:
            os.utime(f"{shelf.shelf}/{name}", (time.time() - 40 * DAY,) * 2)
        with open(f"{shelf.shelf}/README", "w", encoding="ascii") as it:
            it.write("mine")
        os.utime(f"{shelf.shelf}/README", (0, 0))
        wrong += shelf.prune(shelf.shelf, "--days", "30")
        wrong += [] if len(shelf.entries()) == 13 and not set(old) & set(shelf.entries()) else ["not the old entries went"]
        wrong += shelf.call(0, complete(20)) + shelf.wrong(made)
        ran = shelf.ran()
        wrong += [] if len(ran) == 8 else [f"these ran: {ran}"]
        size = sum(os.path.getsize(f"{shelf.shelf}/{it}") for it in shelf.entries() if it != "README")
        wrong += shelf.prune("results", "--bytes", str(size // 2))
        left = sum(os.path.getsize(f"{shelf.shelf}/{it}") for it in shelf.entries() if it != "README")
        wrong += [] if 0 < left <= size // 2 else [f"{left} bytes of {size} are left"]
        wrong += shelf.prune("results", "--bytes", "0")
        wrong += [] if shelf.entries() == ["README"] else [f"{shelf.entries()} stay"]
        for words, status in [((), 2), (("results",), 2), (("results", "--days", "x"), 2), (("results", "--days", "1", "--bytes", "1"), 2), (("absent", "--days", "1"), 5)]:
            wrong += shelf.prune(*words, status=status)
        say("the oldest entries are removed", wrong)
    finally:
        shelf.close()
    shelf = Shelf({"s": "abc\n"})
    try:
        shelf.put_flow(rules)
        wrong = []
        for _ in range(5):
            run = shelf.start(ALONE, program=NAME)
            while run.poll() is None:
                wrong += shelf.prune("results", "--bytes", "0")
            wrong += outcome(run, 0, complete(20)) + shelf.wrong(made) + shelf.clean(20)
        say("entries are removed while a run keeps and looks", wrong)
    finally:
        shelf.close()


def archive_shapes():
    """Outputs that are empty, many and large; a rule that collects; a flow in JX."""
    large = bytes(range(256)) * 1_000
    rules = [(": > empty", ["s"], ["empty"]), ("cat s > a; cat s s > b", ["s"], ["a", "b"]), ("cat big > deep/copy", ["big"], ["deep/copy"])]
    made = {"empty": b"", "a": b"abc\n", "b": b"abc\nabc\n", "deep": None, "deep/copy": large}
    shelf = Shelf({"s": "abc\n", "big": large})
    try:
        shelf.put_flow(rules)
        wrong = shelf.call(0, complete(3)) + shelf.wrong(made)
        wrong += shelf.clean(4) + shelf.call(0, complete(3)) + shelf.wrong(made)
        ran = shelf.ran()
        say("empty, several and large outputs", wrong + ([] if ran == [0, 1, 2] else [f"these ran: {ran}"]))
    finally:
        shelf.close()


def archive_away():
    """With workers the LOCAL rules are answered from the archive."""
    shelf = Shelf({"s": "abc\n"})
    try:
        shelf.write("flow", f"a: s\n\tLOCAL echo 0 >> {shelf.marks}; cat s > a\n")
        words = ("results", "-T", "wq", "-p", str(free_port()), "flow")
        wrong = shelf.call(0, COMPLETE, words) + shelf.clean(1) + shelf.call(0, COMPLETE, words) + shelf.wrong({"a": b"abc\n"})
        ran = shelf.ran()
        say("with workers a LOCAL rule is answered", wrong + ([] if ran == [0] else [f"these ran: {ran}"]))
    finally:
        shelf.close()


GROUPS = [archive_first, archive_format, archive_changes, archive_failures, archive_words, archive_kills, archive_damage, archive_sick, archive_fills, archive_meets,
          archive_large, archive_prunes, archive_shapes, archive_away]
