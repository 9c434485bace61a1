"""The Work Queue calls of python3: a script submits tasks, and the workers that come to its port do them.

It has the names of the module of cctools that most scripts use, and stands on the program work_queue_serve, which it starts
for each WorkQueue. What it doesn't have it refuses by name (Refused), and passes over nothing that would matter.

    import work_queue as wq

    queue = wq.WorkQueue(9123)
    for name in names:
        task = wq.Task(f"wc -l < {name}")
        task.specify_input_file(name)
        queue.submit(task)
    while not queue.empty():
        task = queue.wait(5)
        if task:
            print(task.command, task.return_status, task.output)

The program is the one that the variable WORK_QUEUE_SERVE names, or the one beside this file or in a folder bin near it, or
else the one on the path.
"""
import contextlib
import json
import os
import queue as queues
import shlex
import shutil
import signal
import socket
import subprocess
import tarfile
import tempfile
import threading
import time
import weakref

WORK_QUEUE_DEFAULT_PORT = 9123
WORK_QUEUE_RANDOM_PORT = 0
WORK_QUEUE_WAITFORTASK = -1
WORK_QUEUE_INPUT, WORK_QUEUE_OUTPUT = 0, 1
WORK_QUEUE_NOCACHE, WORK_QUEUE_CACHE = 0, 1
WORK_QUEUE_RESULT_SUCCESS = 0
WORK_QUEUE_RESULT_INPUT_MISSING = 1
WORK_QUEUE_RESULT_OUTPUT_MISSING = 2
WORK_QUEUE_RESULT_STDOUT_MISSING = 4
WORK_QUEUE_RESULT_SIGNAL = 8
WORK_QUEUE_RESULT_RESOURCE_EXHAUSTION = 16
WORK_QUEUE_RESULT_UNKNOWN = 32

__all__ = ["WorkQueue", "Task", "Refused", *(it for it in list(globals()) if it.startswith("WORK_QUEUE_"))]

PROGRAM = "work_queue_serve"
MOST_HELD = 100_000
SECONDS_TO_END = 15
FIRST_SIGNAL = 128
PACK, STATUS, PRINTED = "work_queue.pack", "work_queue.status", "work_queue.printed"

# What runs at the worker: the command, with what it prints in a file. That, the status, and the outputs that are there come
# back as one file, whatever the status is. Above 128 it may be the worker's own end, which has to be told as it is.
WRAPPED = """/bin/sh -c -- {command} > {printed} 2>&1 < /dev/null
status=$?
[ $status -le 128 ] || exit $status
echo $status > {status} && set -- {status} {printed}
for made in {outputs}; do
    [ ! -f "$made" ] || set -- "$@" "./$made"
done
tar -chf {pack} -- "$@"
"""


class Refused(NotImplementedError, AttributeError):
    """Something that Work Queue has and this module hasn't."""


def refused(what):
    return Refused(f"work_queue: {what} isn't offered here, see docs/FROM_CCTOOLS.md")


class Task:
    """A command, with the files that it takes in and makes, and what it needs of a worker."""

    def __init__(self, command):
        self.command, self.tag, self.id = str(command), None, None
        self.return_status, self.result, self.output = -1, WORK_QUEUE_RESULT_UNKNOWN, None
        self.inputs, self.outputs, self.buffers, self.env, self.needs = {}, {}, {}, {}, {}

    def __getattr__(self, name):
        raise refused(f"Task.{name}")

    @property
    def std_output(self):
        return self.output

    def specify_command(self, command):
        self.command = str(command)

    def specify_tag(self, tag):
        self.tag = str(tag)

    def specify_cores(self, cores):
        self.needs["cores"] = int(cores)

    def specify_memory(self, megabytes):
        self.needs["memory"] = int(megabytes)

    def specify_disk(self, megabytes):
        self.needs["disk"] = int(megabytes)

    def specify_environment_variable(self, name, value):
        self.env[str(name)] = str(value)

    def specify_input_file(self, local_name, remote_name=None, flags=None, cache=None):
        """A file that the command finds under its remote name, or else under the last part of its own."""
        self.inputs[remote_of(local_name, remote_name)] = str(local_name)

    def specify_output_file(self, local_name, remote_name=None, flags=None, cache=None):
        self.outputs[remote_of(local_name, remote_name)] = str(local_name)

    def specify_buffer(self, buffer, remote_name, flags=None, cache=None):
        """A file whose content is given here: text, or bytes."""
        self.buffers[str(remote_name)] = buffer if isinstance(buffer, bytes) else str(buffer).encode()

    def specify_file(self, local_name, remote_name=None, type=None, flags=None, cache=None):
        is_output = type == WORK_QUEUE_OUTPUT
        (self.specify_output_file if is_output else self.specify_input_file)(local_name, remote_name)


def remote_of(local_name, remote_name):
    return str(remote_name) if remote_name else os.path.basename(str(local_name))


def wrapped(task):
    """The command that a worker runs for a task."""
    outputs = " ".join(map(shlex.quote, task.outputs)) or '""'
    return WRAPPED.format(command=shlex.quote(task.command), outputs=outputs, pack=PACK, status=STATUS, printed=PRINTED)


class Statistics:
    """How many tasks there are, as far as it is known here. Waiting are those that run, too."""

    def __init__(self):
        self.tasks_submitted = self.tasks_done = self.tasks_failed = self.tasks_cancelled = 0
        self.tasks_waiting = 0

    def __getattr__(self, name):
        raise refused(f"stats.{name}")


class WorkQueue:
    """A queue at a port of this machine. Port 0 stands for one that is free."""

    def __init__(self, port=WORK_QUEUE_DEFAULT_PORT, name=None, **others):
        for what, value in {"name": name, **others}.items():
            if value:
                raise refused(f"WorkQueue({what}=..)")
        self.port, self.stats, self.lines, self.held = port or free_port(), Statistics(), 0, {}
        self.folder = tempfile.mkdtemp(prefix="work_queue-")
        self.answers, self.ready = queues.SimpleQueue(), []
        try:
            self.program = subprocess.Popen([program(), str(self.port)], stdin=subprocess.PIPE, stdout=subprocess.PIPE)
        except OSError:
            shutil.rmtree(self.folder, ignore_errors=True)
            raise
        threading.Thread(target=hear, args=(self.program.stdout, self.answers), daemon=True).start()
        self.end = weakref.finalize(self, end, self.program, self.folder, self.held)
        try:
            self.next_answer(None)
        except OSError:
            self.end()
            raise

    def __getattr__(self, name):
        raise refused(f"WorkQueue.{name}")

    def __enter__(self):
        return self

    def __exit__(self, *_):
        self.close()

    def close(self):
        """Ends the queue. The workers are told that the work is over, unless tasks are held still: those are let go."""
        self.end()

    def submit(self, task):
        """Hands a task over, and answers its id."""
        if len(self.held) >= MOST_HELD:
            raise refused(f"more than {MOST_HELD} tasks at once")
        self.lines += 1
        task.id = self.lines
        pack = os.path.join(self.folder, str(task.id))
        inputs = {remote: os.path.abspath(local) for remote, local in task.inputs.items()}
        for number, (remote, content) in enumerate(task.buffers.items()):
            inputs[remote] = f"{pack}.{number}"
            with open(inputs[remote], "wb") as it:
                it.write(content)
        self.held[task.id] = task
        self.tell({"submit": wrapped(task), "inputs": inputs, "outputs": {PACK: pack}, "env": task.env, **task.needs})
        self.stats.tasks_submitted += 1
        self.stats.tasks_waiting = len(self.held)
        return task.id

    def wait(self, timeout=WORK_QUEUE_WAITFORTASK):
        """The next task that came to its end, or None where none did within so many seconds."""
        until = None if timeout is None or timeout < 0 else time.monotonic() + timeout
        while self.held and not self.ready:
            answer = self.next_answer(until)
            if answer is None:
                return None
            self.take(answer)
        return self.ready.pop(0) if self.ready else None

    def empty(self):
        """Whether no task is left that `wait` would give."""
        return not self.held and not self.ready

    def hungry(self):
        """Whether more tasks would be welcome."""
        return len(self.held) < MOST_HELD

    def cancel_by_taskid(self, task_id):
        """Lets a task go, and answers it, or None where it isn't held any more."""
        self.lines += 1
        line, task = self.lines, self.held.get(task_id)
        self.tell({"cancel": int(task_id)})
        answer = self.next_answer(None)
        while answer.get("line") != line:
            self.take(answer)
            answer = self.next_answer(None)
        if not answer.get("cancelled"):
            return None
        self.leave(task_id)
        self.stats.tasks_cancelled += 1
        return task

    def cancel_by_tasktag(self, tag):
        """Lets one task of this tag go."""
        found = next((it.id for it in self.held.values() if it.tag == tag), None)
        return None if found is None else self.cancel_by_taskid(found)

    def tell(self, request):
        try:
            self.program.stdin.write(json.dumps(request).encode() + b"\n")
            self.program.stdin.flush()
        except OSError as error:
            raise OSError(f"{PROGRAM} has ended") from error

    def next_answer(self, until):
        """The next line of the program, or None where none came by then."""
        try:
            line = self.answers.get(timeout=None if until is None else max(0, until - time.monotonic()))
        except queues.Empty:
            return None
        answer = json.loads(line) if line else {"stopped": "no answer"}
        if "stopped" in answer:
            raise OSError(f"{PROGRAM} at port {self.port}: {answer['stopped']}")
        return answer

    def leave(self, task_id):
        """A task isn't held any more."""
        task = self.held.pop(task_id)
        self.stats.tasks_waiting = len(self.held)
        for number in range(len(task.buffers)):
            with contextlib.suppress(OSError):
                os.remove(os.path.join(self.folder, f"{task_id}.{number}"))
        return task

    def take(self, answer):
        """Takes an answer. What isn't one to a task that is held says nothing any more."""
        if answer.get("line") not in self.held:
            return
        task = self.leave(answer["line"])
        pack = os.path.join(self.folder, str(task.id))
        task.output = ""
        if answer.get("status") == 0:
            try:
                unpack(task, pack)
            except (OSError, tarfile.TarError, KeyError, ValueError) as error:
                task.result, task.output = WORK_QUEUE_RESULT_UNKNOWN, f"work_queue: what came back can't be written: {error}\n"
        elif "status" in answer:
            task.return_status = answer["status"]
            is_signal = task.return_status > FIRST_SIGNAL
            task.result = WORK_QUEUE_RESULT_SIGNAL if is_signal else WORK_QUEUE_RESULT_OUTPUT_MISSING
        elif "too long" in answer:
            task.result = WORK_QUEUE_RESULT_RESOURCE_EXHAUSTION
            task.output = f"work_queue: outputs of {answer['size']} bytes together are too long\n"
        else:
            is_missing = answer.get("refused") == "input missing"
            task.result = WORK_QUEUE_RESULT_INPUT_MISSING if is_missing else WORK_QUEUE_RESULT_UNKNOWN
            told = " ".join(str(answer[it]) for it in ("refused", "input", "missing", "unwritten") if it in answer)
            task.output = f"work_queue: {told}\n"
        self.stats.tasks_done += 1
        self.stats.tasks_failed += task.result != WORK_QUEUE_RESULT_SUCCESS
        self.ready.append(task)


def unpack(task, pack):
    """Takes what came back of a task: its status, what it printed, and its outputs, each of which changes at once."""
    task.result = WORK_QUEUE_RESULT_SUCCESS
    with tarfile.open(pack) as packed:
        found = {os.path.normpath(it.name): it for it in packed if it.isfile() or it.islnk()}
        task.return_status = int(packed.extractfile(found[STATUS]).read())
        task.output = packed.extractfile(found[PRINTED]).read().decode(errors="replace")
        for remote, local in task.outputs.items():
            member = found.get(os.path.normpath(remote))
            if member is None:
                task.result = WORK_QUEUE_RESULT_OUTPUT_MISSING
                continue
            part = f"{local}.{os.getpid()}.work_queue-part"
            with open(part, "wb") as it:
                shutil.copyfileobj(packed.extractfile(member), it)
            os.chmod(part, 0o777 & member.mode & ~umask() | 0o600)
            os.replace(part, local)
    os.remove(pack)


def umask():
    mask = os.umask(0o077)
    os.umask(mask)
    return mask


def hear(stream, answers):
    """Puts each line of the program into the queue, and an empty one at its end."""
    for line in stream:
        answers.put(line)
    answers.put(b"")


def end(started, folder, held):
    """Ends a program, and removes its folder. Where nothing is held it ends by itself, once its workers are told."""
    with contextlib.suppress(OSError):
        started.stdin.close()
    if held:
        started.send_signal(signal.SIGTERM)
    try:
        started.wait(SECONDS_TO_END)
    except subprocess.TimeoutExpired:
        started.kill()
        started.wait()
    shutil.rmtree(folder, ignore_errors=True)


def free_port():
    with socket.socket() as it:
        it.bind(("", 0))
        return it.getsockname()[1]


def program():
    here = os.path.dirname(os.path.abspath(__file__))
    near = [os.path.join(here, *up, PROGRAM) for up in ((), ("..", "bin"), ("..", "..", "bin"))]
    asked = os.environ.get("WORK_QUEUE_SERVE")
    found = asked or next(filter(os.path.isfile, near), None) or shutil.which(PROGRAM)
    if not found:
        raise FileNotFoundError(f"{PROGRAM} isn't on the path")
    return found
