"""A second command runs at each call of a first: to its end, killed at each of its own calls, or
stopped there until the first has ended. Then two take turns, and run at once: the journal has to
fit, unless one of them made a call between the other's last look and what depends on it, and one of
them has reported an error."""
import os
import random
import subprocess
import time

import images
import order
from program import Check
from scenes import RENAME, TEXT, Scene, read, write

# The second rename of a save.
JOURNAL_RENAME = "rename main.tf.tfundo.new"

# A file system that reuses the inode number of a removed file at once, as most do.
KIND = "ext4"
PAIRS = [
    ("", "fmt", "fmt"),
    ("", "fix", "fmt"),
    ("fix", "fmt", "fmt"),
    ("fix", "fmt", "revert"),
    ("fix", "revert", "fmt"),
    ("fix fmt", "revert", "revert"),
]
# A file that is saved together with FILE: what is refused then is tried again.
BESIDE = "../beside.tf"
COMPANY = [("", f"fmt {BESIDE}", "fmt"), ("fix", f"fmt {BESIDE}", "revert")]
WAIT = "do sleep 0.0005; done"
# How often two commands run at once, and by how many seconds the second may be later.
RACES, LONGEST_DELAY = 400, 0.003
# Where a turn ends: before or after one of the next calls that change a name.
ENDS = [f"{where}{count}" for count in range(1, 7) for where in "ba"]


class Pair:
    """Two commands on a scene, the second run at a call of the first."""

    def __init__(self, check, scene, first, second):
        self.check, self.scene, self.first, self.second = check, scene, first, second
        self.program, self.disk = scene.program, os.path.dirname(scene.folder)
        self.log = f"{self.disk}/second"
        self.begin()
        self.calls = self.program.calls(scene.folder, first)
        self.instant = self.last_instant()
        orders = [(), (first,), (second,), (first, second), (second, first)]
        self.whole = {self.after(*order) for order in orders}

    def begin(self):
        """Restores the state before both."""
        self.scene.begin()
        if BESIDE in self.first:
            path = os.path.normpath(f"{self.scene.folder}/{BESIDE}")
            self.scene.place(path, TEXT, 0o640)
            if os.path.exists(path + ".tfundo"):
                os.unlink(path + ".tfundo")

    def last_instant(self):
        """Returns the numbers of the calls that follow the last look at the new journal, up to the
        rename of the text, and that of the journal's rename, which follows its own look: what takes
        the place of a new file in that time is renamed."""
        end = self.calls.index(RENAME) + 1
        looks = [at for at in range(1, end) if self.calls[at - 1] == "statx main.tf.tfundo.new"]
        # the first look is that of the recovery
        first = looks[-1] + 1 if len(looks) > 1 else end
        return {*range(first, end + 1), self.calls.index(JOURNAL_RENAME) + 1}

    def after(self, *commands):
        """Returns FILE and journal after commands that run one after the other."""
        self.begin()
        for command in commands:
            self.program.run(self.scene.folder, command)
        return self.scene.state()

    def shell(self, how, number):
        """The command of the shell that runs the second, with one of its calls met."""
        second = " ".join(self.program.words(self.second))
        return f"{self.program.tracer} -c {self.log} '{how}' {number} {second}"

    def meet(self, at, how, number):
        """Runs the second at call `at` of the first, with its own call met; judges what is there.
        Returns whether the second had such a call."""
        self.begin()
        write(self.log, b"")
        if how == "held":
            ran = self.hold(at, number)
        else:
            second = f"run:{self.shell(how, number)} >../out 2>&1"
            ran = self.program.meet(self.scene.folder, self.first, second, at)
        calls = read(self.log).decode().split("\n")[:-1]
        if number > len(calls):
            return False
        met = calls[number - 1] if number else "no call"
        is_instant = at in self.instant or how == "held" and met == RENAME
        self.judge(ran, is_instant, f"{self.calls[at - 1]}, {self.second} {how} at {met}")
        return True

    def hold(self, at, number):
        """Runs the first while the second is stopped at one of its calls; resumes it, and waits."""
        for name in ("held", "free", "ended"):
            if os.path.exists(f"{self.disk}/{name}"):
                os.unlink(f"{self.disk}/{name}")
        held = self.shell(f"run:touch ../held; until [ -e ../free ]; {WAIT}", number)
        second = f"({held}; touch ../held ../ended) >../out 2>&1 & until [ -e ../held ]; {WAIT}"
        ran = self.program.meet(self.scene.folder, self.first, f"run:{second}", at)
        write(f"{self.disk}/free", b"")
        while not os.path.exists(f"{self.disk}/ended"):
            time.sleep(0.0005)
        return ran

    def judge(self, ran, is_instant, met):
        """Judges what two commands have left."""
        scene = self.scene
        where = (self.first, "of", scene, "at", met, "status", ran.returncode)
        where += (ran.stderr.decode().strip(), "left", scene.leftovers())
        text = scene.state()[0]
        self.program.recover(scene.folder)
        name = self.name(text)
        self.check.see(name + (" in the last instant" if is_instant and name != "whole" else ""))
        if not is_instant:
            self.check.require(name == "whole", name, *where)
            self.check.require(text or ran.returncode, "FILE is empty, status 0", *where)
        self.check.require(not scene.leftovers(), "left", *where)

    def name(self, text):
        """Says what FILE and journal are; FILE had a text before the last command."""
        state = self.scene.state()
        if state[0] != text or text not in {whole[0] for whole in self.whole}:
            return "FILE is torn"
        return "whole" if state in self.whole else "the journal does not fit"

    def follow(self, when):
        """Runs both, and follows them; judges what they leave. Returns the calls."""
        scene = self.scene
        self.begin()
        names = scene.names()
        calls, statuses = order.calls_of(
            self.program.both(scene.folder, when, self.first, self.second)
        )
        text = scene.state()[0]
        self.program.recover(scene.folder)
        name, overtaken = self.name(text), order.overtaken(calls)
        self.check.see(name + (", a last look overtaken" if overtaken else ""))
        log = " ".join(f"{call.command}:{call.what}:{call.name}:{call.error}" for call in calls)
        where = (self.first, "and", self.second, "of", scene, when, *statuses, log)
        misplaced = order.misplaced(calls, names)
        self.check.require(not misplaced, "the log is no order", misplaced, *where)
        self.check.require(name != "FILE is torn", name, *where)
        self.check.require(name == "whole" or overtaken, f"{name}, no look overtaken", *where)
        self.check.require(name == "whole" or any(statuses), f"{name}, no error reported", *where)
        self.check.require(not scene.leftovers(), "left", scene.leftovers(), *where)
        return calls

    def turns(self, at, end):
        """Runs the first up to call `at`, the second up to `end`, and then the first to each end.
        Returns the calls of each."""
        made = []
        for next_end in ENDS:
            made.append(self.follow(f"turns:{at},{end},{next_end}"))
            # one of them ended in its turn: to later ends all would be the same
            if order.is_at_once(made[-1], 2) or made[-1][-1].command == 2:
                break
        return made

    def race(self, chance):
        """Runs both at once, the second a moment later; judges what they leave. Whether one
        overtook the other is not known here."""
        self.begin()
        quiet = {"stdout": subprocess.DEVNULL, "stderr": subprocess.DEVNULL}
        running = []
        for command in (self.first, self.second):
            words = self.program.words(command)
            running.append(subprocess.Popen(words, cwd=self.scene.folder, **quiet))
            time.sleep(chance.random() * LONGEST_DELAY)
        statuses = [one.wait() for one in running]
        text = self.scene.state()[0]
        self.program.recover(self.scene.folder)
        name = self.name(text)
        self.check.see(name)
        self.check.require(name != "FILE is torn", name, *statuses)
        is_right = name == "whole" or any(statuses)
        self.check.require(is_right, f"{name}, no error reported", *statuses)
        self.check.require(not self.scene.leftovers(), "left", *statuses)


def race(program, history, first, second):
    """Runs two commands at once, again and again."""
    check = Check(f"pairs, {first} and {second} at once", "races", RACES)
    chance = random.Random(f"{first} {second}")
    with images.new_disk(program, f"race-{first}-{second}", KIND) as disk:
        both = Pair(check, Scene(program, f"{disk}/s", "name", history), first, second)
        for _ in range(RACES):
            both.race(chance)
    return check


def followed_race(program, history, first, second):
    """Runs two commands at once and follows them, again and again."""
    check = Check(f"pairs, {first} and {second} at once, followed", "races", RACES)
    chance = random.Random(f"{first} {second} followed")
    with images.new_disk(program, f"followed-{first}-{second}", KIND) as disk:
        both = Pair(check, Scene(program, f"{disk}/s", "name", history), first, second)
        for _ in range(RACES):
            both.follow(f"after:{chance.random() * LONGEST_DELAY * 1e6:.0f}")
    return check


def turns(program, history, first, second):
    """Runs two commands in turns: the first up to each of its calls on names of FILE's, then the
    second to right before or after each change of a name, then the first to each, then both on."""
    after = f" after {history}" if history else ""
    check = Check(f"pairs, {first} and {second} in turns{after}", "orders", 400)
    seen = set()
    disk_name = f"turns-{history}-{first}-{second}".replace(" ", "-").replace("/", "-")
    with images.new_disk(program, disk_name, KIND) as disk:
        both = Pair(check, Scene(program, f"{disk}/s", "name", history), first, second)
        alone = [call for call in both.follow("turns:9999") if call.command == 1 and call.name]
        for at in (at for at, call in enumerate(alone) if call.name.startswith("main.tf")):
            for end in ENDS:
                made = both.turns(at, end)
                seen.update(map(tuple, made))
                if order.is_at_once(made[-1], 2):
                    break
    check.name += f", {len(seen)} of them different"
    return check


def pair(program, history, first, second):
    """Runs a second command at each call of a first one."""
    after = f" after {history}" if history else ""
    check = Check(f"pairs, {second} at each call of {first}{after}", least=800)
    disk_name = f"pair-{history}-{first}-{second}".replace(" ", "-")
    with images.new_disk(program, disk_name, KIND) as disk:
        both = Pair(check, Scene(program, f"{disk}/s", "name", history), first, second)
        for at in range(1, len(both.calls)):
            both.meet(at, "list", 0)
            for how in ("kill-before", "held"):
                number = 1
                while both.meet(at, how, number):
                    number += 1
    return check


JOBS = [(pair, *both) for both in PAIRS]
JOBS += [(turns, *both) for both in PAIRS + COMPANY]
RACING = [("fix", "fmt", "fmt"), ("fix", "fmt", "revert")]
JOBS += [(which, *both) for which in (race, followed_race) for both in RACING]
