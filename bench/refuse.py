#!/usr/bin/env python3
"""Refuses each growth of memory in turn, and checks what is left of what was to be done.

    bench/refuse.py KMIPCTL KMIP_GROWTHS FOLDER

For N = 1, 2, .. the shim of bench/refuse.c, which needs cc, refuses the N-th growth of a run, until a
run meets no refusal. The N-th growth alone is refused, and then the N-th and all after it.

Each command of KMIPCTL has to print some whole lines of its undisturbed output, from the first one on,
and then the line `no memory`, or its document with `--json`, and to end with exit status 1. Where a growth is refused alone, the
standard library may do with less: `collect` takes room by what its iterator hints at, and where it is
refused that it takes room for the next item alone. Such a run has to do all as undisturbed, and how many
there are is printed. Beyond that

- `sim` prints the runs that have ended, and neither requests nor objects;
- `run` prints nothing else, and its progress file is absent or one of those that the undisturbed run
  saves in turn;
- where `run` lacks memory for what it tells on standard error, or would tell, it does all else as
  undisturbed, and its progress file is the last one; of `run --verbose` the last line of an exchange may
  say that there was no memory;
- `serve` has sent whole replies, the first ones of those that it sends undisturbed.

KMIP_GROWTHS calls the crates below, and there a growth is refused alone. Where a campaign lacks memory
its runs and saves have to be the first ones of the undisturbed campaign, and where another call does all
has to be as it was; the same call once more has to do what it would have done.

Exit status 1 at the first N where that does not hold.
"""

import os
import re
import select
import shutil
import socket
import subprocess
import sys
from collections import Counter
from concurrent.futures import ThreadPoolExecutor
from dataclasses import dataclass, replace
from itertools import count
from pathlib import Path

ROOT = Path(__file__).resolve().parent.parent
EXAMPLES = ROOT / "examples"

# How many runs are made side by side.
TOGETHER = os.cpu_count() or 1
# How many are begun at once; some of the last ones are in vain.
BATCH = 8 * TOGETHER
# More growths than a run can have: a program that is refused for ever fails.
MOST = 100_000
# How long a run may take, in seconds: what takes longer never ends, also on a busy machine.
LONGEST = 90

NO_MEMORY = "no memory\n"
NO_MEMORY_DOCUMENT = '{"version":1,"fault":"no memory","at":null,"why":null,"cause":null}\n'

# Why a command may do all as undisturbed: what it had no memory for, it would have told on standard error.
UNTOLD = "had no memory for what it would tell"

# The progress of a plan whose key k1 was destroyed, as object 1.
FINISHED = "kmip-progress 2\nk1 destroyed 1 4 31\nend 1\n"

# Where it was kept, far enough back that the days since then stay the same for the whole trial.
ORIGIN = "kmipctl origin 1\nserver tcp 192.0.2.7:5696\nkept 0\nkey k1 AES 256 0000000c\n"

# What stands in each case of KMIP_GROWTHS after its call lacked memory.
STANDING = {
    "campaign": "the first runs and saves",
    "campaign-saved": "the first runs and saves",
    "handle-indexed": "0 objects",
    "handle-list": "0 objects",
    "create-indexed": "0 objects",
    "create-list": "0 objects",
    "ask-locate": "0 done of - Working",
    "hear-none": "0 done of - Working",
    "ask-create": "0 done of - Working",
    "hear-created": "0 done of - Working",
    "ask-activate": "1 done of 1 Working",
    "ask-both": "each key as before or after",
    "hear-both": "each key as before or after",
}


class Wrong(Exception):
    """A rule that does not hold."""


@dataclass
class Refusal:
    """Which growths are refused: the one of this number, alone or with all after it."""

    number: int
    is_all: bool


@dataclass
class Run:
    """What a run of a program did."""

    status: int
    output: str
    errors: str
    # Whether a growth was refused, and whether the next one was for as much or less.
    is_refused: bool = False
    is_again: bool = False
    # Of `run` the progress file, of `serve` the replies.
    left: object = None


class Process:
    """A program that runs under the shim."""

    def __init__(self, shim, words, refusal, source=None):
        self.refusal = refusal
        self.marks, mark = os.pipe()
        environment = dict(os.environ)
        if refusal:
            environment |= {
                "LD_PRELOAD": str(shim),
                "REFUSE_AT": str(refusal.number),
                "REFUSE_MARK": str(mark),
            }
            if refusal.is_all:
                environment["REFUSE_ALL"] = "1"
        self.process = subprocess.Popen(
            [str(word) for word in words],
            stdin=source or subprocess.DEVNULL,
            stdout=subprocess.PIPE,
            stderr=subprocess.PIPE,
            env=environment,
            pass_fds=(mark,),
        )
        os.close(mark)

    def first_line(self):
        """The first line that it prints, empty where it prints none."""
        line = b""
        output = self.process.stdout.fileno()
        while not line.endswith(b"\n"):
            is_there, _, _ = select.select([output], [], [], LONGEST)
            piece = os.read(output, 1) if is_there else b""
            if not piece:
                break
            line += piece
        return line.decode()

    def end(self, printed=""):
        """The run, once it has ended; what it has printed before was read already."""
        try:
            output, errors = self.process.communicate(timeout=LONGEST)
        except subprocess.TimeoutExpired:
            self.process.kill()
            self.process.communicate()
            raise Wrong(f"no end, with {self.refusal}: {self.process.args}") from None
        with os.fdopen(self.marks, "rb") as marks:
            found = marks.read()
        output = printed + output.decode()
        return Run(self.process.returncode, output, errors.decode(), found != b"", b"+" in found)


class Command:
    """A command of KMIPCTL, over a file as standard input."""

    def __init__(self, tools, words, source=None, shown=None, status=0):
        self.tools = tools
        self.words = [str(word) for word in words]
        self.source = source
        self.name = shown or " ".join(self.words)
        self.is_json = "--json" in self.words
        # The exit status of the undisturbed run.
        self.status = status
        self.undisturbed = None
        # How many runs did all else as undisturbed though a growth was refused, by why they may.
        self.excused = Counter()

    def run(self, refusal):
        """A run, with these growths refused."""
        words = [self.tools.program, *self.words]
        if self.source is None:
            return Process(self.tools.shim, words, refusal).end()
        with open(self.source, "rb") as source:
            return Process(self.tools.shim, words, refusal, source).end()

    def prepare(self):
        """Makes the undisturbed run."""
        self.undisturbed = self.run(None)
        if self.undisturbed.status != self.status or self.undisturbed.output == "":
            raise Wrong(f"undisturbed: {self.undisturbed}")

    def judge(self, run, is_all):
        """Refuses a run that breaks the rules."""
        is_undisturbed = (run.status, run.output, run.errors) == self.expected()
        if not run.is_refused:
            if not is_undisturbed:
                raise Wrong("not as undisturbed, where nothing was refused")
        elif is_undisturbed and not is_all and (excuse := self.excuse(run)):
            self.excused[excuse] += 1
        elif run.status != 1 or run.errors != "" or not self.tells_want(run):
            raise Wrong("no refusal")
        elif self.front(run) not in self.fronts():
            raise Wrong("other lines before `no memory`")

    def tells_want(self, run):
        """Whether the last line tells want of memory. A run with `--json` may lack it before that word is read."""
        told = NO_MEMORY_DOCUMENT if self.is_json else NO_MEMORY
        return run.output.endswith(told) or run.output == NO_MEMORY

    def front(self, run):
        """What stands before that line."""
        return run.output.removesuffix(NO_MEMORY).removesuffix(NO_MEMORY_DOCUMENT)

    def excuse(self, run):
        """Why a run may be as undisturbed where a growth was refused; none where it may not."""
        return "did with less" if run.is_again else None

    def judgement(self):
        """What was found in the runs in which one growth was refused."""
        told = "each time whole lines, `no memory` and exit status 1"
        for excuse, number in self.excused.items():
            told += f", but that {number} {excuse}"
        return told

    def expected(self):
        """The exit status and what is printed, undisturbed."""
        return (self.undisturbed.status, self.undisturbed.output, self.undisturbed.errors)

    def fronts(self):
        """What may stand before `no memory`: the first lines."""
        lines = self.undisturbed.output.splitlines(keepends=True)
        return {"".join(lines[:number]) for number in range(len(lines) + 1)}


class Simulation(Command):
    """The command `sim`."""

    def prepare(self):
        super().prepare()
        # Where memory runs out in a run, no exchange is told, and nothing is drawn.
        words = [word for word in self.words if word not in ("--trace", "--diagram")]
        self.runs = Process(self.tools.shim, [self.tools.program, *words], None).end().output

    def fronts(self):
        """The runs that have ended, whole; with `--json` a line each."""
        if self.is_json:
            return super().fronts()
        runs = re.split(r"^(?=run )", self.runs, flags=re.M)
        blocks = [re.sub(r"^(ask|record) .*\n", "", run, flags=re.M) for run in runs]
        return {"".join(blocks[:number]) for number in range(len(blocks) + 1)}


class Asking(Command):
    """The command `look` or `probe` against a server in the same process."""

    def excuse(self, run):
        """It may lack memory for what it would tell on standard error, and then does all else as undisturbed."""
        return super().excuse(run) or UNTOLD


class Carrying(Command):
    """The command `run` against a server in the same process."""

    def __init__(self, tools, plan, *more, begun=None, shown=""):
        words = ["run", "--plan", plan, "--loopback", *more]
        super().__init__(tools, words, shown=" ".join(["run", "--loopback", *more]) + shown)
        # The text of the progress file that it begins with, and those that it saves in turn.
        self.begun = begun
        self.saved = [begun]
        # Whether the run that is judged has left lines of standard error out.
        self.is_untold = False

    def run(self, refusal, more=()):
        """A run; what is left is the text of its progress file."""
        folder = self.tools.new_folder()
        file = folder / "plan.progress"
        if self.begun is not None:
            file.write_text(self.begun)
        words = [self.tools.program, *self.words, "--progress", file, *more]
        run = Process(self.tools.shim, words, refusal).end()
        run.left = file.read_text() if file.exists() else None
        run.errors = without_times(run.errors.replace(str(file), "plan.progress"))
        run.output = re.sub(r'"milliseconds":\d+', '"milliseconds":"T"', run.output)
        shutil.rmtree(folder)
        return run

    def prepare(self):
        super().prepare()
        told = r'"exchanges":(\d+)' if self.is_json else r"^stop AllFinished (\d+)$"
        exchanges = int(re.search(told, self.undisturbed.output, re.M)[1])
        for limit in range(1, exchanges + 1):
            self.saved.append(self.run(None, ["--limit", str(limit)]).left)
        if self.saved[-1] != self.undisturbed.left:
            raise Wrong("another progress at the end")

    def judge(self, run, is_all):
        if run.left not in self.saved:
            raise Wrong(f"another progress: {run.left!r}")
        told, lines = run.errors.splitlines(), self.undisturbed.errors.splitlines()
        if run.status and told and told[-1].endswith(": no reply, out of memory (T ms)"):
            told.pop()
        rest = iter(lines)
        if not all(line in rest for line in told):
            raise Wrong("other lines on standard error")
        self.is_untold = len(told) < len(lines)
        all_told = "" if run.status else self.undisturbed.errors
        super().judge(replace(run, errors=all_told), is_all)

    def excuse(self, run):
        """It may lack memory for what it tells on standard error, and then does all else as undisturbed."""
        if run.left != self.undisturbed.left:
            return None
        if self.is_untold:
            return "left a line of standard error out"
        return super().excuse(run) or UNTOLD

    def fronts(self):
        return {""}


def without_times(errors):
    """What `run --verbose` tells, without the seconds since the start and what each exchange took."""
    return re.sub(r" \(\d+ ms\)$", " (T ms)", re.sub(r"^\d+\.\d{3} ", "T ", errors, flags=re.M), flags=re.M)


class Serving(Command):
    """The command `serve`, with one connection over which some messages are sent."""

    def __init__(self, tools, messages, *more):
        words = ["serve", "--port", 0, "--connections", 1, *more]
        super().__init__(tools, words, shown=" ".join(["serve", *map(str, more)]))
        self.messages = messages

    def run(self, refusal):
        """A run; what is left are the replies. The port is not told."""
        process = Process(self.tools.shim, [self.tools.program, *self.words], refusal)
        line = process.first_line()
        listening = re.fullmatch(r"listening (\d+)\n", line)
        replies = self.talk(int(listening[1])) if listening else []
        run = process.end("listening PORT\n" if listening else line)
        run.left = replies
        return run

    def talk(self, port):
        """The replies to the messages."""
        replies = []
        try:
            with socket.create_connection(("127.0.0.1", port), LONGEST) as stream:
                for message in self.messages:
                    stream.sendall(message)
                    replies.append(received(stream))
        except OSError:
            pass
        return replies

    def judge(self, run, is_all):
        replies = [reply for reply in run.left if reply]
        if replies != self.undisturbed.left[: len(replies)]:
            raise Wrong(f"other replies: {[reply.hex() for reply in replies]}")
        if not run.is_refused and run.left != self.undisturbed.left:
            raise Wrong("a reply is missing")
        super().judge(run, is_all)


class Case(Command):
    """A case of KMIP_GROWTHS, and what it does undisturbed."""

    def __init__(self, tools, name, done):
        super().__init__(tools, [name])
        self.lines = {
            "undisturbed": f"{name}: {done}\n",
            "again": f"{name}: no memory, {STANDING[name]}; again: {done}\n",
        }
        # How many growths were refused to the call itself.
        self.met = 0

    def judgement(self):
        return "each time what stands is right, and the same call again does what it should"

    def run(self, refusal):
        return Process(self.tools.shim, [self.tools.growths, *self.words], refusal).end()

    def judge(self, run, is_all):
        if run.errors != "":
            raise Wrong("something on standard error")
        if not run.is_refused:
            if (run.status, run.output) != (0, self.lines["undisturbed"]):
                raise Wrong("not as undisturbed, where nothing was refused")
        elif (run.status, run.output) == (0, self.lines["again"]):
            self.met += 1
        elif (run.status, run.output) != (1, NO_MEMORY) or self.met > 0:
            raise Wrong("neither refused before the call nor as it was after it")


class Tools:
    """What the runs need: the programs, the shim, and folders."""

    def __init__(self, program, growths, folder):
        self.program = Path(program).resolve()
        self.growths = Path(growths).resolve()
        self.folder = Path(folder).resolve()
        self.numbers = count(1)
        shutil.rmtree(self.folder, ignore_errors=True)
        self.folder.mkdir(parents=True)
        self.shim = self.folder / "refuse.so"
        source = ROOT / "bench" / "refuse.c"
        flags = ["-O2", "-Wall", "-Wextra", "-shared", "-fPIC"]
        subprocess.run(["cc", *flags, "-o", self.shim, source], check=True)

    def new_folder(self):
        """A new folder."""
        folder = self.folder / f"run-{next(self.numbers)}"
        folder.mkdir()
        return folder

    def file(self, name, text):
        """A file of this text."""
        file = self.folder / name
        file.write_text(text)
        return file

    def plan(self, target):
        """The plan of the key k1, with this target."""
        lines = [
            "[[key]]",
            'name = "k1"',
            'algorithm = "AES"',
            "length = 256",
            'usage = ["encrypt", "decrypt"]',
            f'target = "{target}"',
        ]
        return self.file(f"{target}.toml", "\n".join(lines) + "\n")


def received(stream):
    """The bytes of the next message; empty where the stream ends before it is whole."""
    message = b""
    wanted = 8
    while len(message) < wanted:
        piece = stream.recv(wanted - len(message))
        if not piece:
            return b""
        message += piece
        if len(message) == 8:
            wanted += int.from_bytes(message[4:8], "big")
    return message


def refuse_each(command, pool, is_all):
    """Refuses each growth of a command in turn; answers how many were refused."""
    for first in range(1, MOST, BATCH):
        numbers = range(first, first + BATCH)
        runs = pool.map(lambda number: command.run(Refusal(number, is_all)), numbers)
        for number, run in zip(numbers, runs):
            try:
                command.judge(run, is_all)
            except Wrong as wrong:
                after = " and all after it" if is_all else ""
                raise Wrong(f"growth {number}{after} refused: {wrong}\n{run}") from None
            if not run.is_refused:
                return number - 1
    raise Wrong(f"growths are still refused after {MOST}")


def commands_of(tools):
    """The commands of KMIPCTL."""
    life = EXAMPLES / "answer-life.hex"
    messages = [bytes.fromhex(line) for line in life.read_text().split()]
    destroyed = tools.plan("destroyed")
    active = tools.plan("active")
    loses = tools.file("loses.script", "pass\nlose-reply\nstale 1\n")
    saves = tools.file("saves.script", "pass\npass\n" + "save\npass\n" * 2 + "save\nrestart 1\n")
    plan, next_year = EXAMPLES / "plan.toml", EXAMPLES / "plan-next-year.toml"
    further = ["--then", EXAMPLES / "goes-further.toml", "--trace"]
    lost, goes_further = EXAMPLES / "lost-create.toml", EXAMPLES / "goes-further.script"
    probe = ["probe", "--name-prefix", "probe", "--loopback"]
    finished = tools.file("list.progress", FINISHED)
    tools.file("list.progress.origin", ORIGIN)

    def sim(name, plan, script, more=()):
        return Simulation(
            tools, ["sim", "--plan", plan, "--script", script, *more], shown=f"sim, {name}"
        )

    return [
        Command(tools, ["answer"], life),
        Command(tools, ["answer", "--stream"], life),
        Command(tools, ["show"], life),
        Command(tools, ["show", "--canon"], life),
        Command(tools, ["completions", "zsh"]),
        Command(tools, ["check", "--plan", plan], shown="check"),
        Command(tools, ["check", "--plan", "-"], plan, shown="check --plan -"),
        Command(tools, ["check", "--plan", next_year, "--after", plan], shown="check --after"),
        sim("nothing lost", active, tools.file("empty.script", "")),
        sim("a reply lost and an old one", active, loses),
        sim("three saves", destroyed, saves),
        sim("--then and --trace", lost, goes_further, further),
        sim("--diagram", active, loses, ["--diagram"]),
        Carrying(tools, destroyed),
        Carrying(tools, destroyed, "--verbose"),
        Carrying(tools, destroyed, begun=FINISHED, shown=", all done before"),
        Command(tools, ["list", "--plan", destroyed, "--progress", finished], shown="list"),
        Asking(tools, ["look", "--plan", plan, "--loopback"], shown="look --loopback", status=1),
        Asking(tools, probe, shown="probe --loopback"),
        Serving(tools, messages),
        Serving(tools, messages, "--at-once", 2),
        Command(tools, ["check", "--plan", plan, "--json"], shown="check --json"),
        Command(tools, ["check", "--plan", next_year, "--after", plan, "--json"], shown="check --after --json"),
        sim("--json", active, loses, ["--json"]),
        Carrying(tools, destroyed, "--json"),
        Command(tools, ["list", "--plan", destroyed, "--progress", finished, "--json"], shown="list --json"),
        Asking(tools, ["look", "--plan", plan, "--loopback", "--json"], shown="look --loopback --json", status=1),
        Asking(tools, [*probe, "--json"], shown="probe --loopback --json"),
    ]


def try_all(tools, pool):
    """Tries all commands and cases, and prints a line for each."""
    for command in commands_of(tools):
        command.prepare()
        met = refuse_each(command, pool, is_all=False)
        print(f"{command.name}: {met} growths refused, one a run: {command.judgement()}")
        met = refuse_each(command, pool, is_all=True)
        print(f"{command.name}: {met} growths refused, each with all after it: the same each time")
    for line in (ROOT / "crates" / "test_memory" / "stdout").read_text().splitlines():
        name, done = line.split(": ")
        case = Case(tools, name, done)
        refuse_each(case, pool, is_all=False)
        print(f"{name}: {case.met} growths refused, one a run: {case.judgement()}")


def main():
    tools = Tools(*sys.argv[1:])
    with ThreadPoolExecutor(TOGETHER) as pool:
        try:
            try_all(tools, pool)
        except Wrong as wrong:
            sys.exit(str(wrong))


if __name__ == "__main__":
    main()
