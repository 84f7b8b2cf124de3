"""Power is lost at each call of a command: the image is copied as the device has it, the copy is
mounted, and one more command runs on it."""
import contextlib
import os
import subprocess

import images
from program import KILLED, Check
from scenes import RENAME, Scene, name_of

# How many losses there are at least, for each kind of file system.
LEAST = 265

# Another program syncs one of these files just before the power is lost, so that it is on the disk
# before what was written earlier. Not on ext2, where this can leave half a rename.
SYNCED = ["main.tf", "main.tf.tfundo", "main.tf.tfnew", "main.tf.tfundo.new"]

# Where FILE and its journal are; the history; what runs before the last command ("killed before
# CALL" is the last command, killed there), of which only what it syncs is on the disk; and the last
# command.
CASES = [
    ("name", "", "", "fix"),
    ("name", "", "fix", "fmt"),
    ("name", "fix fmt", "", "revert"),
    ("name", "fix fmt", "revert", "revert"),
    ("name", "fix fmt", "", "revert --take 1"),
    ("link", "", "", "fix"),
    ("link", "fix fmt", "", "revert"),
    ("link to another disk", "", "", "fix"),
    ("link to another disk", "fix fmt", "", "revert"),
    ("journal link to another disk", "fix", "", "fmt"),
    ("journal link to another disk", "fix fmt", "", "revert"),
    ("links to another disk", "fix fmt", "", "revert"),
    ("name", "fix", f"killed before {RENAME}", "fmt"),
    ("name", "fix", f"killed after {RENAME}", "revert"),
    ("link to another disk", "fix", f"killed after {RENAME}", "revert"),
]


class Machine:
    """Two disks of one kind, and their copies after a loss of power."""

    def __init__(self, program, kind):
        self.program, self.kind = program, kind
        self.temp = program.folder(f"power-{kind}")
        self.live, self.lost = f"{self.temp}/live", f"{self.temp}/lost"
        self.disks = ("disk", "other")

    def image(self, disk):
        """The image of a disk."""
        return f"{self.temp}/{disk}.image"

    @contextlib.contextmanager
    def running(self):
        """Makes the disks, and mounts them."""
        with contextlib.ExitStack() as mounts:
            for disk in self.disks:
                images.make(self.image(disk), self.kind)
                mounts.enter_context(images.mounted(self.image(disk), f"{self.live}/{disk}"))
            yield

    def used(self, scene):
        """The disks of a scene."""
        return self.disks if scene.elsewhere.startswith("..") else self.disks[:1]

    def copying(self, scene):
        """The command of the shell that copies the disks."""
        return "; ".join(
            f"cp --sparse=always {self.image(disk)} {self.image(disk)}.lost"
            for disk in self.used(scene)
        )

    @contextlib.contextmanager
    def after_loss(self, scene):
        """Mounts the copies, and gives the scene that is in them."""
        options = images.KINDS[self.kind][2]
        self.check_copies(scene)
        with contextlib.ExitStack() as mounts:
            for disk in self.used(scene):
                image = f"{self.image(disk)}.lost"
                mounts.enter_context(images.mounted(image, f"{self.lost}/{disk}", options))
            yield scene.moved(self.live, self.lost)

    def check_copies(self, scene):
        """Checks the copies of disks that keep no log, as a system does before it mounts them."""
        for disk in self.used(scene) if self.kind == "ext2" else []:
            words = ["e2fsck", "-y", f"{self.image(disk)}.lost"]
            subprocess.run(words, capture_output=True, check=False)

    def sync(self):
        """Brings all that was written to the disks."""
        for disk in self.disks:
            images.run("sync", "-f", f"{self.live}/{disk}")


class Case:
    """A command, what was run before it, and what its losses of power may leave."""

    def __init__(self, machine, layout, history, earlier, command):
        self.machine, self.program, self.command = machine, machine.program, command
        self.earlier, self.kill = earlier, None
        elsewhere = "../../other/s" if "another disk" in layout else "real"
        layout = layout.removesuffix(" to another disk")
        folder = f"{machine.live}/disk/s"
        self.scene = Scene(self.program, folder, layout, history, elsewhere=elsewhere)
        if earlier.startswith("killed "):
            _, when, call = earlier.split(" ", 2)
            self.scene.begin()
            calls = self.program.calls(folder, command)
            self.kill = (f"kill-{when}", calls.index(call) + 1)
        self.allowed = self.states()
        self.begin()
        self.calls = self.program.calls(folder, command)

    def __str__(self):
        disks = " on two disks" if self.scene.elsewhere.startswith("..") else ""
        before = f", then {self.earlier}" if self.earlier else ""
        return f"{self.command} of {self.scene}{before}{disks}"

    def prepare(self):
        """Runs what is to run before the command."""
        folder = self.scene.folder
        if self.kill:
            ran = self.program.meet(folder, self.command, *self.kill)
            assert ran.returncode == KILLED, ran
        elif self.earlier:
            self.program.run(folder, self.earlier)

    def begin(self):
        """Makes all as it is before the command, with nothing but that on the disks."""
        self.scene.begin()
        self.machine.sync()
        self.prepare()

    def states(self):
        """Returns what FILE and journal may be: as before the last command, or as after it."""
        self.scene.begin()
        if not self.kill:
            self.prepare()
        states = [self.scene.state()]
        self.program.run(self.scene.folder, self.command)
        states.append(self.scene.state())
        if self.kill:
            # a recovery may complete the killed command, and then the command runs once more
            self.program.run(self.scene.folder, self.command)
            states.append(self.scene.state())
        return states

    def judge(self, check, call, allowed, names=("old", "new", "new")):
        """Judges what a loss of power left, before and after the next command."""
        with self.machine.after_loss(self.scene) as scene:
            if scene.state()[0] is None:
                check.see("gone")
                check.require(False, "FILE is gone", self, "at", call)
                return
            found = scene.leftovers()
            self.program.recover(scene.folder)
            state = scene.state()
            is_whole = state in allowed
            check.see(names[allowed.index(state)] if is_whole else "mixed")
            parts = [name_of(*part) for part in zip(state, *self.allowed[:2])]
            check.require(is_whole, "mixed", self, "at", call, "found next to it:", found, *parts)
            check.require(not scene.leftovers(), "left", self, "at", call, scene.leftovers())

    def lose_at_each(self, check, synced=""):
        """Loses the power at each call from the first look at a file on."""
        first = next(at for at, call in enumerate(self.calls, 1) if call.startswith("statx"))
        sync = f"sync {synced} 2>/dev/null; " if synced else ""
        copying = f"run:{sync}{self.machine.copying(self.scene)}"
        for number in range(first, len(self.calls) + 1):
            self.begin()
            self.program.meet(self.scene.folder, self.command, copying, number)
            call = f"call {number} {self.calls[number - 1]}"
            self.judge(check, f"{call}, {synced} synced" if synced else call, self.allowed)

    def lose_at_end(self, check):
        """Loses the power once the command has reported success."""
        self.begin()
        ran = self.program.run(self.scene.folder, self.command)
        os.system(self.machine.copying(self.scene))
        if ran.returncode == 0:
            self.judge(check, "the end", self.allowed[-1:], ["new"])


def lose_power(program, kind):
    """Tries all cases on disks of one kind."""
    check = Check(f"power, {kind}", "losses", LEAST)
    machine = Machine(program, kind)
    with machine.running():
        for words in CASES:
            case = Case(machine, *words)
            case.lose_at_each(check)
            case.lose_at_end(check)
            for name in SYNCED if case.earlier and not case.kill and kind != "ext2" else []:
                case.lose_at_each(check, name)
        for history, command in [("", "fix"), ("fix fmt", "revert")]:
            Case(machine, "names", history, "", command).lose_at_end(check)
    # a copy that showed the disk itself would always be new
    both = check.outcomes["old"] and check.outcomes["new"]
    check.require(both, "not both old and new were seen", "are the copies mounted?")
    return check


JOBS = [(lose_power, kind) for kind in ("btrfs", "ext4", "xfs", "ext2")]
