"""Cases of programs that stop at any moment: kills, and what a crash of the machine may leave on the disk."""
import os
import random
import re
import shutil
import signal
import subprocess
import threading
import time
from concurrent.futures import ThreadPoolExecutor

import logs
from places import USUAL_LOG, Place, complete, content_of, outcome, say, seen, short, text_of

KILLS = 25
KILL_SECONDS = 75
RULES = 60
AT_ONCE = 4
PART = ".makeflow-part"


def memory_folder():
    """A folder of a memory file system, where syncs take no time, or nothing where none is to be had."""
    folder = "/dev/shm"
    if not os.path.isdir(folder) or not os.access(folder, os.W_OK):
        return None
    data = os.statvfs(folder)
    return folder if not data.f_flag & os.ST_NOEXEC and data.f_bavail * data.f_frsize > 50_000_000 else None


def two_step_flow():
    """Rules whose commands write in two steps, each over what earlier ones made. Every fifth output is in a folder."""
    names = [f"d/o{it}" if it % 5 == 0 else f"o{it}" for it in range(RULES)]
    rules = []
    for it, name in enumerate(names):
        inputs = ["s"] if it < 4 else sorted({names[it - 4], names[(it - 1) // 2]})
        rules.append((f"cat {' '.join(inputs)} | tail -c 200 > {name}; sleep 0.0{it % 3 + 1}; echo {it} >> {name}", inputs, [name]))
    return rules


def files_of(place):
    """The regular files of a place but its log, by name."""
    return {name: it[-1] for name, it in seen(place.work).items() if it[0] == "file" and name != USUAL_LOG}


def wrong_resume(place, rules, wanted, words=("flow",), collected=0, stay=None, bounds=None):
    """Resumes, and says what differs from a serial run, what is left behind, and what the log may not have. Where files are
    collected, `stay` tells by the records which of them may be there all the same, each with the contents that it may have."""
    names = [(inputs, outs) for _, inputs, outs in rules]
    wrong = [f"the resume: {it}" for it in outcome(place.start(words), 0, complete(len(rules), collected))]
    found = files_of(place)
    left = os.listdir(place.tmp)
    wrong += [f"left under the temporary folder: {left}"] if left else []
    try:
        records = logs.read(content_of(f"{place.work}/{USUAL_LOG}"))
    except (logs.Damaged, OSError) as it:
        return [*wrong, f"the log: {it}"]
    more = stay(records) if stay else {}
    for name in sorted({*wanted, *found}):
        if found.get(name) not in (wanted.get(name), *more.get(name, ())):
            wrong.append(f"{name} is {short(found.get(name))}, not {short(wanted.get(name))}")
    bad = logs.illegal(records, names, bounds)
    wrong += [f"the log: {bad}"] if bad else []
    wrong += [] if logs.kinds(records)[-1:] == ["ended complete"] else [f"the log ends with {logs.kinds(records)[-1:]}"]
    printed = logs.printed(records, len(rules), logs.Store(names).names)
    return wrong + [f"the printed log: {it}" for it in outcome(place.start(("--print-log", *words)), 0, printed)]


class Kills:
    """Trials by several threads, until there were enough kills of each kind or the time is over. `wanted` has what each
    rule makes, and `judge` tells what is wrong with a place whose run was killed."""

    def __init__(self, files, wanted, whole, under, like, judge, words=("flow",), seconds=KILL_SECONDS):
        self.files, self.wanted, self.whole, self.under, self.like, self.judge, self.words = files, wanted, whole, under, like, judge, words
        self.lock, self.wrong, self.random = threading.Lock(), [], random.Random(18)
        self.begun, self.count, self.late = {True: 0, False: 0}, {True: 0, False: 0}, 0
        self.until = time.monotonic() + seconds

    def next(self):
        """Whether the next kill is of the program alone, and when it comes; nothing where all is done. Behind every fifth
        one the resumed run is killed too."""
        with self.lock:
            alone = self.begun[True] <= self.begun[False]
            if time.monotonic() > self.until or self.begun[alone] >= KILLS or self.late > 4 * KILLS:
                return None
            self.begun[alone] += 1
            again = self.begun[alone] % 5 == 0
            return alone, [self.random.uniform(0, self.whole / (at + 1)) for at in range(2 if again else 1)]

    def kill(self, place, alone, moment):
        """Starts the program, kills it, and answers whether that came in time."""
        started = place.start(self.words, stdout=subprocess.DEVNULL)
        time.sleep(moment)
        try:
            (os.kill if alone else os.killpg)(started.pid, signal.SIGKILL)
        finally:
            started.communicate()
        return started.returncode == -signal.SIGKILL

    def trial(self, alone, moments):
        place = Place(self.files, self.under, self.like)
        try:
            if not [self.kill(place, alone, moment) for moment in moments][0]:
                with self.lock:
                    self.begun[alone] -= 1
                    self.late += 1
                    return
            found = files_of(place)
            half = [f"{name} is half written: {short(found[name])}" for name, content in self.wanted.items()
                    if name in found and found[name] not in (content, self.files.get(name, "").encode())]
            wrong = half + self.judge(place)
            with self.lock:
                self.count[alone] += 1
                self.wrong += [f"a kill of the program {'alone' if alone else 'and its jobs'} after {' and '.join(f'{it:.3f}' for it in moments)} s: {it}" for it in wrong]
        finally:
            place.close()

    def work(self):
        try:
            while following := self.next():
                self.trial(*following)
        except Exception as it:
            with self.lock:
                self.wrong.append(f"the test itself failed: {it!r}")

    def run(self):
        """How many kills of each kind came, and what was wrong."""
        with ThreadPoolExecutor(AT_ONCE) as pool:
            for _ in range(AT_ONCE):
                pool.submit(self.work)
        alone, both = self.count[True], self.count[False]
        few = [] if min(alone, both) >= 5 else ["too few kills came in time"]
        return f"{alone} kills of the program alone and {both} of program and jobs, within a run of {self.whole:.1f} s", self.wrong + few


def kills():
    """Kills at random moments, each followed by a resume and compared with a serial run."""
    under, rules = memory_folder(), two_step_flow()
    old = {outs[0]: "what stood here before, which is longer. " * 20 for it, (_, _, outs) in enumerate(rules) if it % 3 == 0}
    files = {"s": "abc\n", "flow": text_of(rules), **old}
    place = Place(files, under)
    try:
        begun = time.monotonic()
        wrong = outcome(place.start(), 0, complete(RULES))
        whole, wanted = time.monotonic() - begun, files_of(place)
        if wrong or wanted != serial(rules, files):
            say("a run of 60 rules that write in two steps", wrong or ["its files aren't those of a serial run by the shell"])
            return
        say(*Kills(files, wanted, whole, under, place, lambda it: wrong_resume(it, rules, wanted)).run())
    finally:
        place.close()


def serial(rules, files):
    """What the commands make one after another in one folder."""
    place = Place(files)
    try:
        for command, _, outs in rules:
            os.makedirs(os.path.dirname(f"{place.work}/{outs[0]}"), exist_ok=True)
            subprocess.run(["/bin/sh", "-c", command.replace("sleep", ": sleep").replace("$$", "$")], cwd=place.work, check=True, stdin=subprocess.DEVNULL)
        return files_of(place)
    finally:
        place.close()


CALLS = "open,openat,creat,close,dup,dup2,dup3,write,pwrite64,writev,lseek,truncate,ftruncate,fsync,fdatasync,sync_file_range,rename,renameat,renameat2,link,linkat,symlink,symlinkat,unlink,unlinkat,mkdir,mkdirat,rmdir,copy_file_range,sendfile,mmap,chdir"
WRITES = ("write", "pwrite64")
CALL = re.compile(r"^(\w+)\((.*)\)\s+= (-?\d+|\?|0x[0-9a-f]+)")


def literal(word):
    """The bytes of a text as strace -xx shows it."""
    if not word.startswith('"') or not word.endswith('"'):
        raise ValueError(f"cut short: {word[:60]}")
    return bytes.fromhex(word[1:-1].replace("\\x", ""))


class Disk:
    """A folder and what of it is synced: which names stand in it, and which bytes each file has. A name is on the disk
    once its folder was synced, bytes once their file was. Files are told by numbers, since they are renamed."""

    def __init__(self, root, files):
        self.root, self.open = root, {}
        self.bytes, self.synced = [], []
        self.names, self.kept = {}, {}
        for name, content in files.items():
            self.names[name] = self.kept[name] = self.new(content)
            self.synced[-1] = content
            for folder in folders_of(name):
                self.names[folder] = self.kept[folder] = None

    def new(self, content=b""):
        self.bytes.append(content)
        self.synced.append(b"")
        return len(self.bytes) - 1

    def place(self, word):
        """The name in the folder of a path, nothing where it lies outside."""
        path = os.path.normpath(os.path.join(self.root, os.fsdecode(literal(word))))
        return os.path.relpath(path, self.root) if path == self.root or path.startswith(f"{self.root}/") else None

    def write(self, number, at, data):
        old = self.bytes[number]
        self.bytes[number] = old[:at].ljust(at, b"\0") + data + old[at + len(data):]

    def sync(self, what):
        if isinstance(what, int):
            self.synced[what] = self.bytes[what]
            return
        inside = lambda name: os.path.dirname(name) == ("" if what == "." else what)
        self.kept = {name: it for name, it in self.kept.items() if not inside(name)}
        self.kept |= {name: it for name, it in self.names.items() if inside(name)}

    def image(self, names, contents):
        """The files that stand so, and the folders as None. What lies in a folder that isn't there is gone with it."""
        there = {name: it for name, it in names.items() if all(names.get(folder, 0) is None for folder in folders_of(name))}
        return {name: it if it is None else contents[it] for name, it in there.items()}

    def images(self):
        yield "all that was written", self.image(self.names, self.bytes)
        yield "nothing that wasn't synced", self.image(self.kept, self.synced)
        yield "names as they were, bytes as synced", self.image(self.names, self.synced)

    def note(self, line):
        """One call, as strace shows it. It answers whether it changed what an image may be."""
        found = CALL.match(line)
        if not found or found[3].startswith("-") or found[3] == "?":
            return False
        name, words, result = found[1], found[2].split(", "), int(found[3], 0)
        return bool(getattr(self, f"do_{name}")(words, result))

    def do_openat(self, words, result):
        at, word, flags = words[0], words[1], words[2]
        if at != "AT_FDCWD" and not os.fsdecode(literal(word)).startswith("/"):
            self.open[result] = None
            return False
        name = self.place(word)
        made = False
        if name is None:
            self.open[result] = None
        elif name == "." or self.names.get(name, 0) is None:
            self.open[result] = [name, 0]
        else:
            made = name not in self.names
            if made:
                self.names[name] = self.new()
            number = self.names[name]
            if "O_TRUNC" in flags and self.bytes[number]:
                self.bytes[number], made = b"", True
            self.open[result] = [number, len(self.bytes[number]) if "O_APPEND" in flags else 0]
        return made

    def do_open(self, words, result):
        return self.do_openat(["AT_FDCWD", *words], result)

    def do_close(self, words, result):
        self.open.pop(int(words[0]), None)

    def do_lseek(self, words, result):
        if self.open.get(int(words[0])):
            self.open[int(words[0])][1] = result

    def do_write(self, words, result):
        held = self.open.get(int(words[0]))
        if held is None:
            return False
        self.write(held[0], held[1], literal(words[1])[:result])
        held[1] += result
        return True

    def do_pwrite64(self, words, result):
        held = self.open.get(int(words[0]))
        if held is not None:
            self.write(held[0], int(words[3]), literal(words[1])[:result])
        return held is not None

    def do_ftruncate(self, words, result):
        held, size = self.open.get(int(words[0])), int(words[1])
        if held is not None:
            self.bytes[held[0]] = self.bytes[held[0]][:size].ljust(size, b"\0")
        return held is not None

    def do_truncate(self, words, result):
        name = self.place(words[0])
        if name is not None:
            self.bytes[self.names[name]] = self.bytes[self.names[name]][:int(words[1])].ljust(int(words[1]), b"\0")
        return name is not None

    def do_fsync(self, words, result):
        held = self.open.get(int(words[0]))
        if held is not None:
            self.sync(held[0])
        return held is not None

    do_fdatasync = do_fsync

    def do_rename(self, words, result):
        old, new = self.place(words[0]), self.place(words[1])
        if old is not None and new is not None:
            self.names[new] = self.names.pop(old)
        elif old is not new:
            raise ValueError("a rename across the folder's border")
        return old is not None

    def do_renameat2(self, words, result):
        return self.do_rename([words[1], words[3]], result)

    do_renameat = do_renameat2

    def do_unlink(self, words, result):
        name = self.place(words[0])
        if name is not None:
            self.names.pop(name)
        return name is not None

    do_rmdir = do_unlink

    def do_unlinkat(self, words, result):
        return self.do_unlink(words[1:], result) if words[0] == "AT_FDCWD" else False

    def do_mkdir(self, words, result):
        name = self.place(words[0])
        if name is not None:
            self.names[name] = None
        return name is not None

    def do_mkdirat(self, words, result):
        return self.do_mkdir(words[1:], result)

    def do_mmap(self, words, result):
        if "MAP_SHARED" in words[3] and "PROT_WRITE" in words[2] and words[4] != "-1":
            raise ValueError("a file is written through memory")


def folders_of(name):
    parts = name.split("/")
    return ["/".join(parts[:count]) for count in range(1, len(parts))]


def images_of(lines, disk):
    """Each image behind each call that changed what it may be, once, with where it was first met. Of each write there is
    one with half of its bytes too."""
    met = {}

    def add(where):
        for kind, image in disk.images():
            met.setdefault(tuple(sorted(image.items(), key=lambda it: it[0])), f"{kind}, {where}")

    add("before the first call")
    for number, line in enumerate(lines):
        torn = half_write(disk, line)
        if torn is not None:
            met.setdefault(tuple(sorted(torn.items(), key=lambda it: it[0])), f"half of the write of call {number}")
        if disk.note(line):
            add(f"after call {number}, {line[:line.find('(')]}")
    return met


def half_write(disk, line):
    """All that was written, and the first half of the write that this call is."""
    found = CALL.match(line)
    if not found or found[1] not in WRITES or found[3].startswith(("-", "?")) or int(found[3]) < 2:
        return None
    words = found[2].split(", ")
    held = disk.open.get(int(words[0]))
    if held is None:
        return None
    old = disk.bytes[held[0]]
    at = held[1] if found[1] == "write" else int(words[3])
    disk.write(held[0], at, literal(words[1])[:int(found[3]) // 2])
    torn = disk.image(disk.names, disk.bytes)
    disk.bytes[held[0]] = old
    return torn


def traced(place, words=("flow",)):
    """The program's own calls in a whole run, one a line, or nothing where they can't be had."""
    trace = f"{place.room}/trace"
    place.put(shutil.which("strace"), f"{place.room}/strace")
    place.give()
    started = place.start(["-o", trace, "-xx", "-s", "4000000", "-e", f"trace={CALLS}", "-e", "signal=none", f"{place.room}/makeflow", *words], program="strace")
    try:
        out, err = started.communicate(timeout=120)
    except subprocess.TimeoutExpired:
        started.kill()
        started.communicate()
        return None
    if started.returncode or not os.path.exists(trace):
        print(f"strace ended with {started.returncode}: {short(out)} {short(err)}", flush=True)
        return None
    return content_of(trace).decode().splitlines()


class Crashes:
    """A flow whose run is traced: its rules and files, what its rules make, which of that is there at the end (all of it where
    nothing else is said), and how it is resumed, as `wrong_resume` takes it."""

    def __init__(self, rules, files, made, end=None, words=("flow",), bounds=None, **resume):
        self.rules, self.files, self.words, self.resume = rules, {**files, "flow": text_of(rules, bounds)}, words, {**resume, "bounds": bounds}
        self.made = {it: text.encode() for it, text in {**self.files, **made}.items()}
        self.end = {it: text for it, text in self.made.items() if end is None or it in end or it not in made}
        self.under = memory_folder()

    def explained(self, disk, place):
        """What of a finished run the calls that were seen don't explain, or what it left unsynced."""
        real = {it: data[-1] if data[0] == "file" else None for it, data in seen(place.work).items()}
        synced = {it: content for it, content in disk.image(disk.kept, disk.synced).items() if it in real or it not in self.made}
        wrong = [] if disk.image(disk.names, disk.bytes) == real else ["the calls that were seen don't explain the files that were made"]
        wrong += [] if synced == real else ["at the end not all was synced"]
        return wrong + ([] if files_of(place) == self.end else [f"the run made {short(files_of(place))}"])

    def resumed(self, image, where, like):
        """What is wrong with a run over what a crash left."""
        wrong = [f"{it} is half written: {short(content)}" for it, content in image
                 if content is not None and it in self.made and content not in (self.made[it], self.files.get(it, "").encode())]
        place = Place({it: content for it, content in image if content is not None}, self.under, like)
        try:
            for it, content in image:
                if content is None:
                    os.makedirs(f"{place.work}/{it}", exist_ok=True)
            place.give()
            wrong += wrong_resume(place, self.rules, self.end, self.words, **self.resume)
        except Exception as it:
            wrong.append(f"the test itself failed: {it!r}")
        finally:
            place.close()
        return [f"{where}: {it}" for it in wrong]

    def run(self, name):
        """Traces a run, and resumes what a crash may leave before and behind each of its calls."""
        if not shutil.which("strace"):
            print(f"skipped {name}: strace isn't installed", flush=True)
            return
        place = Place(self.files)
        try:
            lines = traced(place, self.words)
            if lines is None:
                print(f"skipped {name}: strace can't trace here", flush=True)
                return
            disk = Disk(place.work, {it: content.encode() for it, content in self.files.items()})
            try:
                met = images_of(lines, disk)
            except (ValueError, AttributeError, KeyError, TypeError) as it:
                say(name, [f"a call that isn't understood: {it!r}"])
                return
            wrong = self.explained(disk, place)
            with ThreadPoolExecutor(AT_ONCE) as pool:
                for found in pool.map(lambda it: self.resumed(*it, place), met.items()):
                    wrong += found
            changes = sum(bool(re.match("write|ftrunc|fsync|fdatasync|rename|unlink|mkdir", it)) for it in lines)
            say(f"{name}: {len(met)} images of {changes} calls that write, sync, rename or remove", wrong)
        finally:
            place.close()


def crash_images():
    """What a crash may leave before and behind each call by which the program changes or syncs a file, resumed."""
    rules = [("cat s > a", ["s"], ["a"]), ("cat a s > d/b; echo more > c", ["a", "s"], ["d/b", "c"]), ("cat a d/b c > e", ["a", "d/b", "c"], ["e"])]
    made = {"a": "abc\n", "d/b": "abc\nabc\n", "c": "more\n", "e": "abc\nabc\nabc\nmore\n"}
    Crashes(rules, {"s": "abc\n", "a": "an old file, which is longer", "e": "old"}, made).run("what a crash may leave")


RULES_TO_COUNT = 40


def syncs_behind(lines, disk):
    """What is written, the log or a part file, and how often a file and a folder are synced behind that, in order. A record
    of the log is written in two steps, the second one of a byte."""
    found = [["", 0, 0]]
    for line in lines:
        call = CALL.match(line)
        held = disk.open.get(int(call[2].split(", ")[0])) if call and call[1] in (*WRITES, "fsync", "fdatasync") else None
        if held and call[1] in WRITES:
            name = next(name for name, number in disk.names.items() if number == held[0])
            if name != found[-1][0] or name == USUAL_LOG and int(call[3]) > 1:
                found.append([name, 0, 0])
        elif held:
            found[-1][1 if isinstance(held[0], int) else 2] += 1
        disk.note(line)
    return found


def too_many(found, records):
    """Which of these syncs there are too many of: two a record, and of an output its file and its folder, where that is new
    also the folder in which it is."""
    behind_log, behind_parts = [it for it in found if it[0] == USUAL_LOG], [it for it in found if it[0].endswith(PART)]
    if len(behind_log) != len(records) + 1 or len(behind_parts) != RULES_TO_COUNT:
        return [f"{len(behind_log)} writes of a log of {len(records)} records, {len(behind_parts)} outputs"]
    wrong = [f"{files} syncs of files and {folders} of folders for {it.kind}" for it, (_, files, folders) in zip(records, behind_log[1:])
             if it.kind in ("started", "done") and files + folders > 2]
    return wrong + [f"{files} syncs of files and {folders} of folders for {name}" for name, files, folders in behind_parts
                    if files > 1 or folders > 1 + name.startswith("new")]


def syncs():
    """How often a run syncs: outputs beside the log, in a folder that is there, and in new ones."""
    name = "how often a run syncs"
    if not shutil.which("strace"):
        print(f"skipped {name}: strace isn't installed", flush=True)
        return
    outs = [f"new{it}/o" if it % 8 == 0 else f"old/o{it}" if it % 8 == 1 else f"o{it}" for it in range(RULES_TO_COUNT)]
    files = {"s": "abc\n", "old/s": "", "flow": text_of([(f"cat s > {it}", ["s"], [it]) for it in outs])}
    place = Place(files)
    try:
        lines = traced(place)
        if lines is None:
            print(f"skipped {name}: strace can't trace here", flush=True)
            return
        found = syncs_behind(lines, Disk(place.work, {it: content.encode() for it, content in files.items()}))
        say(name, too_many(found, logs.read(content_of(f"{place.work}/{USUAL_LOG}"))))
    finally:
        place.close()


GROUPS = [kills, crash_images, syncs]
