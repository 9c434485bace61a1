"""What the benches share: flows as texts, and times and instructions of a program."""
import os
import re
import shutil
import subprocess
import sys
import time

ROOT = os.path.dirname(os.path.dirname(os.path.abspath(__file__)))
OURS = f"{ROOT}/bin/makeflow"
SHOW = f"{ROOT}/bin/makeflow_show"


def wide(rules):
    """So many rules of one source each."""
    return "".join(f"w{it}: s\n\tcat s > w{it}\n" for it in range(rules))


def chain(rules):
    """Each rule takes in what the one before it makes."""
    return "".join(f"c{it + 1}: c{it}\n\tcat c{it} > c{it + 1}\n" for it in range(rules))


def two_parents(rules):
    """Rule 0 makes g0 of s; rule i makes gi of ga and gb, with a = (i - 1) / 2 and b = i / 3 in whole numbers."""
    lines = ["g0: s\n\tcat s > g0\n"]
    for it in range(1, rules):
        a, b = (it - 1) // 2, it // 3
        parents = f"g{a}" if a == b else f"g{a} g{b}"
        lines.append(f"g{it}: {parents}\n\tcat {parents} > g{it}\n")
    return "".join(lines)


def many_inputs(rules, inputs):
    """Each rule takes in the same files, so many of them, by a variable."""
    names = " ".join(f"i{it}" for it in range(inputs))
    return f"IN={names}\n" + "".join(f"o{it}: $(IN)\n\ttrue > o{it}\n" for it in range(rules))


def ninja_of(text):
    """The same rules as a ninja file, in which a variable can't stand for several names."""
    lines = ["rule run\n  command = $command\n"]
    rows = text.splitlines()
    names = rows.pop(0).removeprefix("IN=") if text.startswith("IN=") else ""
    for head, command in zip(rows[::2], rows[1::2]):
        made, taken = head.replace("$(IN)", names).split(":")
        lines.append(f"build {made}: run{taken}\n  command = {command.strip()}\n")
    return "".join(lines)


SHAPES = {"wide": wide, "chain": chain, "two parents": two_parents}
FIRST_SOURCE = {"wide": "s", "chain": "c0", "two parents": "s"}


def stands_on():
    """What crates.txt says that each crate stands on, by its name: the line's head, and the others' names."""
    with open(f"{ROOT}/crates.txt") as it:
        lines = [line.partition("#")[0].partition(":") for line in it]
    return {name.split()[0]: (name, others.split()) for name, mark, others in lines if mark}


def build(room, name, source, uses, proofs=None):
    """A program of this source over these crates of the repository, proved and built in this folder, with copies of all
    crates below it and of what was kept of their proofs. Its own proof files are by their places."""
    known = stands_on()
    wanted = list(uses)
    for crate in wanted:
        wanted += [it for it in known[crate][1] if it in known and it not in wanted]
    own = f"{room}/crates/{name}"
    for place, text in {"src/main.rt": source, **(proofs or {})}.items():
        os.makedirs(os.path.dirname(f"{own}/{place}"), exist_ok=True)
        with open(f"{own}/{place}", "w") as it:
            it.write(text)
    for crate in wanted:
        shutil.copytree(f"{ROOT}/crates/{crate}", f"{room}/crates/{crate}", symlinks=True)
    with open(f"{room}/crates.txt", "w") as it:
        it.write(f"{name}: {' '.join(uses)}\n")
        it.writelines(f"{known[crate][0]}: {' '.join(known[crate][1])}\n" for crate in wanted)
    shutil.copy(f"{ROOT}/HANDLES", room)
    done = subprocess.run(["rt", "run"], cwd=own, stdin=subprocess.DEVNULL, capture_output=True, text=True)
    program = f"{own}/out/{name}"
    if not os.access(program, os.X_OK):
        raise SystemExit(f"{name} was not built:\n{done.stdout[-3_000:]}{done.stderr[-3_000:]}")
    return program


def plain(room, name):
    """The C program of this name, built in this folder."""
    subprocess.run(["gcc", "-O2", "-o", f"{room}/{name}", f"{ROOT}/bench/{name}.c"], check=True)
    return f"{room}/{name}"


def listens(port):
    """Whether somebody listens at this port, as the system tells."""
    with open("/proc/net/tcp") as it:
        rows = [line.split() for line in list(it)[1:]]
    return any(row[3] == "0A" and int(row[1].rsplit(":", 1)[1], 16) == port for row in rows)


def own_seconds(process):
    """The processor time of a process that has ended, of all its threads, without that of its commands. The first thread's
    is told to the nanosecond, that of all in ticks."""
    with open(f"/proc/{process}/stat") as it:
        ticks = it.read().rpartition(")")[2].split()[11:13]
    all_threads = sum(int(it) for it in ticks) / os.sysconf("SC_CLK_TCK")
    try:
        with open(f"/proc/{process}/schedstat") as it:
            return max(int(it.read().split()[0]) / 1e9, all_threads)
    except FileNotFoundError:
        return all_threads


def memory(command, folder):
    """The most memory in bytes of one run. A process counts what its parent held when it began it, so it is begun by a
    small one."""
    script = "import os, sys; p = os.posix_spawnp(sys.argv[1], sys.argv[1:], os.environ); print(os.wait4(p, 0)[2].ru_maxrss)"
    began = [sys.executable, "-I", "-S", "-c", script, *command]
    done = subprocess.run(began, cwd=folder, stdin=subprocess.DEVNULL, capture_output=True, check=True)
    return int(done.stdout.split()[-1]) * 1024


def measure(command, folder):
    """Of one run in this folder: wall seconds, processor seconds of the tool alone and of the whole tree, the status, and
    what it printed."""
    begun = time.perf_counter()
    started = subprocess.Popen(command, cwd=folder, stdin=subprocess.DEVNULL, stdout=subprocess.PIPE, stderr=subprocess.DEVNULL)
    printed = started.stdout.read()
    # it has ended and isn't waited for yet, so its own times can be read apart from those of its commands
    os.waitid(os.P_PID, started.pid, os.WEXITED | os.WNOWAIT)
    wall, own = time.perf_counter() - begun, own_seconds(started.pid)
    _, status, usage = os.wait4(started.pid, 0)
    started.returncode = os.waitstatus_to_exitcode(status)
    return wall, own, usage.ru_utime + usage.ru_stime, started.returncode, printed


def found(program):
    """Each program of this name on the path, but the built one."""
    for folder in os.environ.get("PATH", "").split(os.pathsep):
        path = os.path.join(folder or ".", program)
        if os.access(path, os.X_OK) and os.path.realpath(path) != os.path.realpath(OURS):
            yield path


def is_other(path):
    """Whether it tells its version, as each tool here does and this project's makeflow doesn't."""
    asked = {"stdin": subprocess.DEVNULL, "capture_output": True}
    return subprocess.run([path, "--version"], **asked).returncode == 0


def other(program):
    """Where a program of another project is installed, nothing where it isn't. Two are called
    makeflow: an installed one of this project is passed over."""
    path = next((it for it in found(program) if is_other(it)), None)
    if not path:
        print(f"{program}: not installed, skipped")
    return path


def bare(program, room):
    """A copy of a program without its debugging data: valgrind can't read that of newer compilers."""
    copy = f"{room}/{os.path.basename(program)}"
    if shutil.which("objcopy") and subprocess.run(["objcopy", "--strip-debug", program, copy], capture_output=True).returncode == 0:
        return copy
    return shutil.copy(program, copy)


def instructions(command, folder):
    """How many instructions a program itself takes, without those of its commands, by callgrind."""
    counted = ["valgrind", "--tool=callgrind", "--callgrind-out-file=/dev/null", *command]
    done = subprocess.run(counted, cwd=folder, stdin=subprocess.DEVNULL, stdout=subprocess.DEVNULL, stderr=subprocess.PIPE)
    found = re.search(rb"Collected : (\d+)", done.stderr)
    if done.returncode or not found:
        raise SystemExit(f"{' '.join(command)}: status {done.returncode}\n{done.stderr.decode()[-2_000:]}")
    return int(found[1])


def readers(show, room):
    """What reads a flow and starts nothing: of each tool its name, its words and its flow as a text of its own."""
    yield "makeflow_show", [bare(show, room), "flow", "0"], lambda text: text
    if path := other("make"):
        yield "make -n", [path, "-n", "-f", "flow", "all"], lambda text: text + "\nall: " + " ".join(re.findall(r"(?m)^(\S+):", text)) + "\n"
    if path := other("ninja"):
        yield "ninja -n", [path, "-n", "-f", "flow"], ninja_of


class Counts:
    """Instructions of the tools that read a flow, where valgrind is installed: what a flow takes more than one of one rule."""

    def __init__(self, show, room):
        self.room, self.tools = room, []
        if not shutil.which("valgrind"):
            print("instructions: valgrind isn't installed, skipped")
        elif not os.access(show, os.X_OK):
            print(f"instructions: no program {show}, skipped")
        else:
            self.tools = [(name, words, form, self.count(words, form, "s:\n\ttrue\n")) for name, words, form in readers(show, room)]

    def count(self, words, form, text):
        with open(f"{self.room}/flow", "w") as it:
            it.write(form(text))
        return instructions(words, self.room)

    def of(self, text):
        """Of each tool its name and the instructions of this flow."""
        return {name: self.count(words, form, text) - least for name, words, form, least in self.tools}

    def sources(self, names):
        """The files that are there before a flow is read."""
        for name in names:
            open(f"{self.room}/{name}", "w").close()


def ready():
    if os.access(OURS, os.X_OK):
        return True
    print(f"no program {OURS}: make programs builds it")
    return False
