"""Runs the built program, alone or with some of its system calls met, and counts what is seen."""
import collections
import importlib
import multiprocessing
import os
import subprocess
import sys
import traceback

TOOLS = os.path.dirname(os.path.dirname(os.path.abspath(__file__)))

# A command that changes nothing, and recovers what an interrupted one left.
NEXT_COMMAND = "revert --take 4294967295"

KILLED = 128 + 9

# The status of tools/ptrace.c if it can't do what it is to do.
CANNOT_RUN = 99


class Missing(Exception):
    """Something is not here that a check needs; it is skipped."""


class Program:
    """The built program, the one that meets its calls (tools/ptrace.c), the one that runs two of it
    (tools/pair.c), and a folder for tests."""

    def __init__(self, path, tracer, pair, temp):
        self.path, self.tracer, self.pair, self.temp = path, tracer, pair, temp

    def folder(self, name):
        """Makes a folder in the folder for tests."""
        path = f"{self.temp}/{name}"
        os.makedirs(path, exist_ok=True)
        return path

    def words(self, command, file="main.tf"):
        """Returns the command line of a command on FILE."""
        return [self.path, *command.split(), file]

    def run(self, folder, command, file="main.tf", before=(), **options):
        """Runs a command on FILE of a folder; `before` are words of a command that runs it."""
        words = [*before, *self.words(command, file)]
        return subprocess.run(words, cwd=folder, capture_output=True, check=False, **options)

    def recover(self, folder):
        """Runs the next command, which recovers what was left and changes nothing else."""
        return self.run(folder, NEXT_COMMAND)

    def meet(self, folder, command, how, *numbers, file="main.tf", timeout=60):
        """Runs a command with its calls of these numbers met; `how` is as in tools/ptrace.c."""
        log = f"{self.temp}/calls.{os.getpid()}"
        words = [self.tracer, log, how, ",".join(map(str, numbers)), *self.words(command, file)]
        ran = subprocess.run(words, cwd=folder, capture_output=True, check=False, timeout=timeout)
        assert ran.returncode != CANNOT_RUN, words
        with open(log, encoding="utf-8", errors="replace") as lines:
            ran.calls = lines.read().split("\n")[:-1]
        ran.is_met = 0 < min(numbers) <= len(ran.calls)
        return ran

    def both(self, folder, when, first, second, file="main.tf"):
        """Runs two commands on FILE of a folder; `when` is as in tools/pair.c. Returns the log."""
        log = f"{self.temp}/both.{os.getpid()}"
        words = [self.pair, log, when, *self.words(first, file), "--", *self.words(second, file)]
        subprocess.run(words, cwd=folder, capture_output=True, check=True, timeout=60)
        with open(log, encoding="utf-8", errors="replace") as lines:
            return lines.read().split("\n")[:-1]

    def calls(self, folder, command, file="main.tf"):
        """Returns the calls that a command makes, one line for each."""
        return self.meet(folder, command, "list", 0, file=file).calls


class Check:
    """What is required of one thing: how many runs there were, of what outcomes, and complaints."""

    def __init__(self, name, unit="runs", least=1):
        self.name, self.unit, self.least = name, unit, least
        self.runs, self.outcomes, self.complaints = 0, collections.Counter(), {}

    def see(self, outcome):
        """Counts a run and its outcome."""
        self.runs += 1
        self.outcomes[outcome] += 1

    def require(self, holds, kind, *details):
        """Notes a complaint, with the details of the first of its kind, unless it holds."""
        if not holds:
            self.complaints.setdefault(kind, []).append(details)

    @property
    def has_passed(self):
        """Whether nothing was wrong, over as many runs as there have to be."""
        return not self.complaints and self.runs >= self.least

    def text(self, most):
        """Returns its lines, with the first complaint of each of the `most` frequent kinds."""
        figures = ", ".join(f"{count} {what}" for what, count in self.outcomes.most_common())
        lines = [f"{self.name}: {self.runs} {self.unit}: {figures}"]
        if self.runs < self.least:
            lines.append(f"  fewer than {self.least}")
        kinds = sorted(self.complaints.items(), key=lambda kind: -len(kind[1]))
        for kind, details in kinds[:most]:
            first = " ".join(str(detail) for detail in details[0])
            lines.append(f"  {len(details)} times {kind}: {first}")
        if len(kinds) > most:
            lines.append(f"  and {len(kinds) - most} more kinds")
        return ("" if self.has_passed else "FAILED ") + "\n".join(lines)


def compiled(name, temp):
    """Compiles a program of tools/, and returns where it is."""
    words = ["cc", "-O2", "-o", f"{temp}/{name}", f"{TOOLS}/{name}.c"]
    ran = subprocess.run(words, capture_output=True, text=True, check=False)
    if ran.returncode:
        sys.exit(f"tools/{name}.c is not compiled: {ran.stderr}")
    return f"{temp}/{name}"


def run_job(job):
    """Runs one job, a function with its arguments; returns its check, or why it is skipped."""
    (function, *arguments), program = job
    name = " ".join([function.__name__, *map(str, arguments)])
    try:
        return function(program, *arguments)
    except Missing as what:
        return f"skipped {name}: {what}"
    except Exception:  # the other jobs go on
        check = Check(name)
        check.require(False, "not run to its end", traceback.format_exc())
        return check


def run_parts(program, parts, processes=None, kinds=6):
    """Runs the jobs of all parts, which are modules, some at once. Prints a line for each, with its
    complaints of the `kinds` most frequent kinds; returns how many passed and failed."""
    jobs = [(job, program) for part in parts for job in importlib.import_module(part).JOBS]
    counts = {True: 0, False: 0}
    # the pool ends its processes by a signal; those that are at work unmount first
    with multiprocessing.Pool(processes) as pool:
        for check in pool.imap(run_job, jobs, 1):
            print(check if isinstance(check, str) else check.text(kinds), flush=True)
            if not isinstance(check, str):
                counts[check.has_passed] += 1
    return counts[True], counts[False]
