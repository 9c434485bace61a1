"""What the cases share: fresh folders, the programs started in them, and what differs from what is wanted."""
import os
import shutil
import stat
import subprocess
import sys
import tempfile

import logs

ROOT = os.path.dirname(os.path.dirname(os.path.abspath(__file__)))
PROGRAM = os.path.abspath(sys.argv[1] if len(sys.argv) > 1 else f"{ROOT}/bin/makeflow")
TOOLS = ["makeflow_show", "makeflow_debug", "makeflow_watch", "makeflow_log", "makeflow_why",
         "keep_output", "work_queue_factory"]
USUAL_LOG = "flow.makeflowlog"
NOBODY = 65534
MOST = 67_108_864
MEBI = 1_048_576
SECONDS = 60

COMPLETE = "makeflow: complete, 1 rules, 0 files collected\n"
USAGE = "makeflow: usage: makeflow [options] FILE\n"
FOLDER_FAULT = "makeflow: folder fault\n"
NO_FLOW = "makeflow: no flow file flow\n"

passed, failed = 0, 0


def flow(command, head="out: in"):
    return f"{head}\n\t{command}\n"


def text_of(rules, bounds=None):
    """Rules (command, inputs, outputs) as a flow, with the sizes that are stated."""
    sizes = "".join(f".SIZE {name} {size}\n" for name, size in (bounds or {}).items())
    return sizes + "".join(f"{' '.join(outs)}: {' '.join(inputs)}\n\t{command}\n" for command, inputs, outs in rules)


def complete(rules, collected=0):
    return f"makeflow: complete, {rules} rules, {collected} files collected\n"


def other_user():
    """How to start a program as nobody, nothing where that can't be."""
    if os.geteuid():
        return {}
    words = {"user": NOBODY, "group": NOBODY, "extra_groups": []}
    try:
        subprocess.run(["true"], check=True, **words)
    except (OSError, subprocess.SubprocessError):
        return {}
    return words


USER = other_user()


def content_of(path):
    try:
        with open(path, "rb") as it:
            return it.read()
    except PermissionError:
        return b"unreadable"


def seen(folder):
    """What stands below a folder: kinds, modes and contents, and of files whether they were touched."""
    found = {}
    for at, folders, files in os.walk(folder):
        for name in folders + files:
            path = f"{at}/{name}"
            short, data = os.path.relpath(path, folder), os.lstat(path)
            if stat.S_ISLNK(data.st_mode):
                found[short] = ("link", os.readlink(path))
            elif stat.S_ISREG(data.st_mode):
                found[short] = ("file", data.st_mode, data.st_ino, data.st_mtime_ns, content_of(path))
            else:
                found[short] = ("other", data.st_mode, data.st_ino)
    return found


class Place:
    """A fresh folder `work` with files, beside it an empty `tmp` and the program. Where several threads start programs,
    they take that of one place: a program can't be started while any process has it open for writing."""

    def __init__(self, files, under=None, like=None):
        self.room = tempfile.mkdtemp(prefix="makeflow-system-", dir=under)
        self.work, self.tmp = f"{self.room}/work", f"{self.room}/tmp"
        os.chmod(self.room, 0o755)
        os.mkdir(self.work)
        os.mkdir(self.tmp)
        self.program = f"{self.room}/makeflow"
        if like:
            os.symlink(like.program, self.program)
        else:
            self.put(PROGRAM, self.program)
        for name, content in files.items():
            path = f"{self.work}/{name}"
            os.makedirs(os.path.dirname(path), exist_ok=True)
            if callable(content):
                content(path)
                continue
            with open(path, "wb") as it:
                it.write(content.encode() if isinstance(content, str) else content)
        self.give()
        self.before = seen(self.work)

    def give(self):
        """All that is there belongs to the user as whom the program runs."""
        if USER:
            for at, folders, names in os.walk(self.room):
                for path in [at, *(f"{at}/{it}" for it in folders + names)]:
                    os.chown(path, NOBODY, NOBODY, follow_symlinks=False)

    @staticmethod
    def put(program, path):
        shutil.copyfile(program, path)
        os.chmod(path, 0o755)

    def put_tools(self):
        for name in TOOLS:
            self.put(f"{os.path.dirname(PROGRAM)}/{name}", f"{self.room}/{name}")

    def start(self, words=("flow",), env=None, program="makeflow", **streams):
        settings = {"PATH": os.environ.get("PATH", "/usr/bin:/bin"), "LANG": "C", "SECRET": "inherited", "TMPDIR": self.tmp}
        how = {"stdin": subprocess.DEVNULL, "stdout": subprocess.PIPE, "stderr": subprocess.PIPE, **USER, **streams}
        return subprocess.Popen([f"{self.room}/{program}", *words], cwd=self.work, env={**settings, **(env or {})}, start_new_session=True, **how)

    def wrong(self, made):
        """What stands otherwise than it should, where only these files were made, and logs."""
        after, wrong = seen(self.work), []
        for name in sorted({*self.before, *after, *made}):
            if name.endswith(logs.SUFFIX) and name not in made:
                continue
            if name in made:
                content = after.get(name, ("absent",))[-1]
                if made[name] is None:
                    if after.get(name, ("absent",))[0] != "other":
                        wrong.append(f"{name} is no folder")
                elif content != made[name]:
                    wrong.append(f"{name} is {short(content)}, not {short(made[name])}")
            elif self.before.get(name) != after.get(name):
                wrong.append(f"{name} was changed")
        left = os.listdir(self.tmp)
        return wrong + ([f"left behind: {left}"] if left else [])

    def wrong_logs(self, status):
        """What is wrong with the log of a call that ended with this status."""
        found = [it for it in seen(self.work) if it.endswith(logs.SUFFIX)]
        if status in (2, 3):
            return [f"{it} was made" for it in found]
        if status in (0, 1, 6, 7) and len(found) != 1:
            return [f"its logs are {found}"]
        return [wrong for it in found for wrong in logs.wrong_end(content_of(f"{self.work}/{it}"), status)]

    def close(self):
        for at, folders, names in os.walk(self.room):
            os.chmod(at, 0o700)
        shutil.rmtree(self.room, ignore_errors=True)


def short(data):
    """At most so much of what was found that a line can be read."""
    shown = repr(data)
    return shown if len(shown) <= 300 else f"{shown[:200]} .. {shown[-80:]} ({len(data)})"


def say(name, wrong):
    global passed, failed
    if wrong:
        failed += 1
        print(f"FAILED {name}: {'; '.join(wrong[:12])}", flush=True)
    else:
        passed += 1
        print(f"passed {name}", flush=True)


def outcome(started, status, printed, fed=None, seconds=SECONDS):
    """What differs from the status and the printed text that are wanted."""
    try:
        out, err = started.communicate(fed, timeout=seconds)
    except subprocess.TimeoutExpired:
        started.kill()
        started.communicate()
        return [f"it had not ended after {seconds} seconds"]
    wrong = []
    if started.returncode != status:
        wrong.append(f"status {started.returncode}, not {status}")
    if (out or b"") != printed.encode():
        wrong.append(f"printed {short(out)}, not {short(printed)}")
    if err:
        wrong.append(f"on standard error {short(err)}")
    return wrong


def case(name, files, status, printed, made=None, words=("flow",), fed=None, test=None, env=None, seconds=SECONDS, **streams):
    """One run. `made` has the files that it makes with their bytes, `test` says what is wrong with a made `out`."""
    place = Place(files)
    try:
        if fed is not None:
            streams["stdin"] = subprocess.PIPE
        wrong = outcome(place.start(words, env, **streams), status, printed, fed, seconds)
        if test:
            content = seen(place.work).get("out", (b"",))[-1]
            wrong += test(content)
            made = {"out": content}
        say(name, wrong + place.wrong(made or {}) + place.wrong_logs(status))
    finally:
        place.close()
