"""Each system call of each command: the program is killed before and after it; it is refused once
with each error, refused from there on, made and reported as refused; reads and writes are short."""
import errno

from program import KILLED, Check
from scenes import COMMANDS, Scene, name_of

ERRORS = (
    "EIO ENOSPC EACCES EINTR ENOMEM EPERM EROFS EDQUOT EAGAIN ENOENT EEXIST EBUSY EXDEV"
    " ENAMETOOLONG ELOOP"
).split()
LASTING = ["EIO", "ENOSPC", "EACCES"]
# They say that a name does not exist, which no disk says of one that does.
ABSENT = ["ENOENT", "ENAMETOOLONG"]

LAYOUTS = ["name", "link", "journal link", "links", "names"]


def ways(call, names):
    """Returns all ways to meet a call in a folder that has these names."""
    name, _, file = call.partition(" ")
    yield "kill-before"
    if name == "exit_group":
        return
    yield "kill-after"
    if name in ("brk", "mmap", "mremap", "munmap") or call in ("write 1", "write 2"):
        # memory is the part of tools/refusals, and output that of tools/rows
        return
    for error in ERRORS:
        if not (error in ABSENT and name in ("openat", "statx") and file in names):
            yield "refuse:" + error
    for error in LASTING if name != "close" else []:
        yield "refuse-on:" + error
    changing = "openat fsync rename unlink fchmod fchown chown lchown ftruncate".split()
    if name in changing:
        yield "done:EIO"
    if name in ("read", "write"):
        for way in ["short:7", "short:1", "short-on:7", "short-on:1"]:
            yield way


def as_number(way):
    """Returns a way with the number of its error, as tools/ptrace.c takes it."""
    how, _, error = way.partition(":")
    return f"{how}:{getattr(errno, error)}" if error in ERRORS else way


class Trial:
    """A command on a scene, with one call met."""

    def __init__(self, check, scene, command):
        self.check, self.scene, self.command = check, scene, command
        self.old = (scene.text, scene.journal)
        self.new = scene.after(command)
        assert self.new != self.old and not scene.leftovers() and not scene.lost()
        scene.begin()
        self.names = scene.names()
        self.calls = scene.program.calls(scene.folder, command)

    def run(self):
        """Meets each call in each way."""
        for number, call in enumerate(self.calls, 1):
            for way in ways(call, self.names):
                self.meet(number, call, way)

    def meet(self, number, call, way):
        """Meets one call, and judges what is there at once and after the next command."""
        scene, program = self.scene, self.scene.program
        scene.begin()
        ran = program.meet(scene.folder, self.command, as_number(way), number)
        if not ran.is_met:
            return
        self.call, self.way, self.errors = call, way, ran.stderr.decode(errors="replace").strip()
        if ran.returncode == KILLED:
            self.judge_readers()
        else:
            self.judge_at_once(ran.returncode)
        program.recover(scene.folder)
        state = "old" if self.is_empty_left() else name_of(scene.state(), self.old, self.new)
        is_covered = state != "mixed" or not self.is_over()
        self.check.see(state if is_covered else "mixed in place")
        if is_covered:
            self.require(state != "mixed", "then mixed", *self.parts())
            self.require(not scene.leftovers(), "then left", scene.leftovers())
        self.require(not scene.lost(), "then lost", scene.lost())

    def parts(self):
        """Says what FILE is, and what its journal is."""
        return [name_of(*part) for part in zip(self.scene.state(), self.old, self.new)]

    def is_over(self):
        """Whether FILE is written in place, and that is killed or refused for good: not covered."""
        return self.scene.layout == "names" and self.way.startswith(("kill", "refuse-on"))

    def require(self, holds, what, *details):
        """Notes what is wrong, unless it holds."""
        where = f"{what}: {self.way} {self.call}"
        self.check.require(holds, where, self.command, "of", self.scene, *details, self.errors)

    def judge_at_once(self, status):
        """Judges what a program leaves that met a refusal and went on."""
        scene, state = self.scene, self.scene.state()
        if status == 0:
            self.require(state == self.new, "status 0, not new", *self.parts())
        elif status == 1:
            self.require(self.is_old_or_late(state), "status 1, not old", *self.parts())
        else:
            self.require(False, "status", status)
        if self.is_cleared(status, state):
            self.require(not scene.leftovers(), f"status {status}, left", scene.leftovers())

    def is_cleared(self, status, state):
        """Whether nothing may be left at once: the one refused call removes nothing and was not
        made, and no new journal waits."""
        is_removal = self.call.startswith("unlink") or self.way == "done:EIO" or "-on" in self.way
        is_late = status == 1 and state[0] == self.new[0]
        return not (self.scene.left or is_removal or is_late)

    def is_old_or_late(self, state):
        """Whether an error leaves FILE and journal as they were, or as they are with the next
        command: once FILE is replaced its journal waits, or is in its place unknown to the
        program. What is not covered is passed too."""
        to_be = self.scene.state_to_be()
        is_waiting = to_be == self.new or (self.scene.left == "journal" and to_be == self.old)
        is_put = state == self.new and self.way == "done:EIO" and self.call.startswith("rename")
        is_old = state == self.old or self.is_empty_left()
        return is_old or is_waiting or is_put or self.is_over()

    def is_empty_left(self):
        """Whether a journal was created, though the call failed, and was left empty, which means
        what no journal means. It may be another command's."""
        is_created = self.way == "done:EIO" and self.call.startswith("openat")
        return is_created and self.old[1] is None and self.scene.state() == (self.old[0], b"")

    def judge_readers(self):
        """Judges who may read the new files of a program that was killed."""
        for name in self.scene.leftovers():
            readers = self.scene.readers(name) & ~self.scene.mode
            what = f"{name} can be read by more than FILE"
            self.check.require(not readers, what, self.way, self.call, "of", self.scene)


def sweep(program, layout, left):
    """Sweeps all commands in a layout, or those that find what an interrupted one left."""
    name = f"sweep, FILE by {layout}{', left over: ' + left if left else ''}"
    check = Check(name, "calls met", least=2000)
    folder = program.folder(f"sweep-{layout}-{left}")
    for history, command in COMMANDS:
        if history or not left and layout not in ("journal link", "links"):
            scene = Scene(program, folder, layout, history, owner=1, left=left)
            Trial(check, scene, command).run()
    return check


JOBS = [(sweep, layout, "") for layout in LAYOUTS]
JOBS += [(sweep, "name", left) for left in ("text", "both", "journal")]
