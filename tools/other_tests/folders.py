"""The folder of FILE is exchanged with another folder, or with a link to one, at a call of a
command, and back at a later call: the other folder stays as it is, and FILE and its journal are
both old or both new. As root the folder is another user's, and the other folder root's.

The other folder has files of the same names, in which no command changes anything. So all that is
changed there is an error, even if the folder is exchanged before the command begins to read.
"""
import os
import shutil

from program import NEXT_COMMAND, Check
from scenes import Scene, changes, exchange, name_of, state_of, write

# Owns FILE's folder, if root runs this.
ANOTHER = 1000

# It is formatted, and no rule finds anything in it.
THEIR_TEXT = b'theirs = "of the other folder"\n'

# How FILE is named: where the command runs, the name, FILE's folder, the folder that is exchanged,
# and where links lead to.
PLACES = {
    "in the current folder": ("proj", "main.tf", "proj", "proj", "../real"),
    "by a relative name": (".", "proj/main.tf", "proj", "proj", "../real"),
    "by an absolute name": (".", "{0}/proj/main.tf", "proj", "proj", "../real"),
    "by two folders": (".", "proj/in/main.tf", "proj/in", "proj", "../../real"),
    "what a link leads to": (".", "proj/main.tf", "proj", "proj/real", "real"),
}

# Calls that have to do with no name: it is the same on which side of them a folder is exchanged.
PLAIN = (
    "brk close exit_group fchmod fchown fsync ftruncate mmap mremap munmap read unknown write"
).split()

NEAR, ALL = "soon", "at any later call"


class Exchanged:
    """A command on FILE, and a folder that is exchanged at some of its calls."""

    def __init__(self, check, program, temp, place, what, command):
        self.check, self.program, self.temp = check, program, temp
        layout, history, self.command = command
        runs_in, name, folder, exchanged, elsewhere = PLACES[place]
        self.runs_in, self.name = f"{temp}/{runs_in}", name.format(temp)
        options = {"owner": ANOTHER if os.geteuid() == 0 else None, "elsewhere": elsewhere}
        self.scene = Scene(program, f"{temp}/{folder}", layout, history, **options)
        self.old, self.new = (self.scene.text, self.scene.journal), self.scene.after(self.command)
        self.exchanged, self.lure = f"{temp}/{exchanged}", f"{temp}/lure"
        self.theirs = self.lure
        if what == "a link":
            self.theirs = f"{temp}/theirs"
            os.symlink(self.theirs, self.lure)
        # where FILE would be in the other folder
        self.inside = os.path.relpath(f"{temp}/{folder}", self.exchanged)
        if self.inside == "..":
            self.inside = "."
        self.make_theirs()
        self.begin()
        self.calls = program.calls(self.runs_in, self.command, self.name)

    def make_theirs(self):
        """Makes the other folder."""
        shutil.rmtree(self.theirs, ignore_errors=True)
        os.makedirs(f"{self.theirs}/{self.inside}")
        for name in ("main.tf", "other.tf"):
            write(f"{self.theirs}/{self.inside}/{name}", THEIR_TEXT)
            os.chmod(f"{self.theirs}/{self.inside}/{name}", 0o600)
        os.chmod(self.theirs, 0o700)
        self.their_state = state_of(self.theirs)

    def begin(self):
        """Makes FILE's folder as it is before the command."""
        self.scene.begin()
        if os.geteuid() == 0:
            for folder in {self.scene.folder, self.scene.other_folder, self.exchanged}:
                if os.path.exists(folder):
                    os.chown(folder, ANOTHER, ANOTHER)
        self.own = os.lstat(self.exchanged).st_ino

    def put_back(self):
        """Exchanges the folders if a command has ended in between."""
        if os.lstat(self.exchanged).st_ino != self.own:
            exchange(self.exchanged, self.lure)

    def run(self, reach):
        """Exchanges the folder at each call, and back at the next ones, at any later one or never,
        and back and forth at each later one."""
        numbers = [at for at, call in enumerate(self.calls, 1) if call.split()[0] not in PLAIN]
        for index, first in enumerate(numbers):
            later = numbers[index + 1 :]
            self.exchange_at(first)
            for back in later if reach == ALL else later[:3]:
                self.exchange_at(first, back)
            self.exchange_at(first, *later)

    def exchange_at(self, *numbers):
        """Exchanges the folder at these calls."""
        self.begin()
        how = f"exchange:{self.exchanged}:{self.lure}"
        ran = self.program.meet(self.runs_in, self.command, how, *numbers, file=self.name)
        self.put_back()
        calls = " ".join(f"{number} {self.calls[number - 1]}," for number in numbers[:2])
        where = ("before call", calls, ran.returncode, ran.stderr.decode().strip())
        at_once = name_of(self.scene.state(), self.old, self.new)
        # fmt prints the name of what it has changed; revert fails, or has changed it
        is_changed = bool(ran.stdout) if self.command == "fmt" else ran.returncode == 0
        self.check.require(at_once == "new" or not is_changed, "status 0, not new", *where)
        self.judge_theirs(*where)
        if at_once == "mixed" or self.scene.leftovers():
            self.program.run(self.runs_in, NEXT_COMMAND, self.name)
            self.judge_theirs("after the next command,", *where)
        state = name_of(self.scene.state(), self.old, self.new)
        self.check.see(state)
        self.check.require(state != "mixed", "mixed", *where)
        self.check.require(not self.scene.leftovers(), "left", self.scene.leftovers(), *where)
        self.check.require(not self.scene.lost(), "lost", self.scene.lost(), *where)

    def judge_theirs(self, *where):
        """Notes what was changed in the other folder, and makes it anew."""
        found = state_of(self.theirs)
        changed = [(name, found.get(name)) for name in changes(self.their_state, found)]
        self.check.require(not changed, "the other folder is changed", *where, changed)
        if changed:
            self.make_theirs()


def try_folder(program, place, what, layout, history, command, reach):
    """Exchanges a folder at each call of a command."""
    names = (place, what, layout, history, command, reach)
    check = Check(f"{command} of FILE {place}, exchanged with {what} and back {reach}", "runs", 100)
    check.name += f", by {layout}{' after ' + history if history else ''}"
    temp = program.folder("folders " + " ".join(names).replace("/", " "))
    Exchanged(check, program, temp, place, what, (layout, history, command)).run(reach)
    return check


def jobs():
    """Yields all jobs."""
    for place in list(PLACES)[:3]:
        yield try_folder, place, "a link", "name", "", "fmt", ALL
        yield try_folder, place, "another folder", "names", "fix", "fmt", ALL
    for place in list(PLACES)[:4]:
        yield try_folder, place, "another folder", "name", "fix", "fmt", NEAR
        yield try_folder, place, "a link", "name", "fix fmt", "revert", NEAR
        yield try_folder, place, "a link", "names", "", "fmt", NEAR
        yield try_folder, place, "a link", "link", "fix", "fmt", NEAR
    for layout in ("link", "journal link", "links"):
        for what in ("a link", "another folder"):
            yield try_folder, "what a link leads to", what, layout, "fix", "fmt", NEAR


JOBS = list(jobs())
