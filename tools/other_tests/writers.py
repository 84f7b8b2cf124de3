"""Another program writes FILE or its journal, also without a change of length, or renames a file of
its own to FILE, to the journal or to one of the new files, at each call of a command. Each run of
the command has to end in one of these ways:

- it is refused, and the other file is as before;
- it has worked on what the other program had written before;
- it had ended its work on that file before;
- the other program wrote in the last instant, for which nothing is promised (INSTANTS, IN_PLACE).

Once more, with umask 0, it looks at each call whether anybody else could read or write a new file.
"""
import os
import subprocess

from program import Check
from scenes import Scene, read, write

FILE, JOURNAL, NEW_TEXT, NEW_JOURNAL = (
    "main.tf", "main.tf.tfundo", "main.tf.tfnew", "main.tf.tfundo.new"
)  # fmt: skip

# Layouts of FILE, its history and a command: a new file replaces FILE, or it is written in place.
COMMANDS = [
    ("name", "", "fix"),
    ("name", "fix", "fmt"),
    ("name", "fix fmt", "revert"),
    ("names", "fix", "fmt"),
    ("names", "", "fmt"),
]

# The call that ends what is done to a file, and how many calls before it, with it, what another
# program does to the file is not seen: the last look is right before these.
INSTANTS = {
    FILE: (f"rename {NEW_TEXT}", 1),
    # looks at journal and text
    NEW_TEXT: (f"rename {NEW_TEXT}", 3),
    NEW_JOURNAL: (f"rename {NEW_JOURNAL}", 1),
    # a look at the text, its rename, the sync of its folder, the look at the new journal
    JOURNAL: (f"rename {NEW_JOURNAL}", 8),
}

# In place the last look is by the handle; after that of the journal FILE is opened and looked at,
# or FILE before it, if the journal was created. How many calls before the first write these are.
IN_PLACE = {FILE: 0, JOURNAL: 2}
IN_PLACE_CREATED = {FILE: 1, JOURNAL: 0}

# Calls that have to do with no name and no file: it is all the same on which side of them another
# program writes.
PLAIN = ("brk", "mmap", "munmap", "mremap", "close", "getcwd", "unknown", "exit_group")

THEIR_TEXT = b'// edited by hand\na=2 // y\nbb = "${c}"\nnew=1\n'
THEIR_JOURNAL = b"tfrec 2 fmt 90 1\n1 0 1\n \nend\n"
# neither parses nor can be decoded
THEIR_NEW_FILE = b"of another program\n"

REFUSED = 1, "tfk: main.tf: cannot write, 0 bytes sent"

WAYS = {
    "writes": "cp ../theirs {0}",
    "writes as many bytes to": "cp ../theirs {0}",
    "replaces": "cp ../theirs theirs~; mv theirs~ {0}",
}


class Other:
    """A command on FILE, and another program that does something to a file at one of its calls."""

    ways = WAYS

    def __init__(self, check, scene, command, way, file):
        self.check, self.scene, self.command, self.file = check, scene, command, file
        self.way, self.doing = way, self.ways[way].format(file)
        self.old, self.new = (scene.text, scene.journal), scene.after(command)
        self.at = 0 if file in (FILE, NEW_TEXT) else 1
        self.theirs = self.their_bytes()
        write(f"{scene.folder}/../theirs", self.theirs)
        scene.begin()
        self.calls = scene.program.calls(scene.folder, command)
        scene.begin()
        subprocess.run(self.doing, shell=True, cwd=scene.folder, check=True)
        # how it ends if the other program writes first
        self.alone = self.ending(scene.program.run(scene.folder, command))

    def their_bytes(self):
        """Returns what the other program writes."""
        if self.way == "writes as many bytes to":
            # another digit
            return self.old[self.at].replace(b"1", b"3", 1)
        return {FILE: THEIR_TEXT, JOURNAL: THEIR_JOURNAL}.get(self.file, THEIR_NEW_FILE)

    def ending(self, ran):
        """Returns how a command ended: status, errors, FILE and journal."""
        return ran.returncode, ran.stderr.decode().strip(), self.scene.state()

    def instant(self):
        """Returns the calls for which nothing is promised, and the one after which the command has
        ended its work on the file."""
        if self.scene.layout == "name":
            last, count = INSTANTS[self.file]
            end = self.calls.index(last) + 1
            return range(end - count, end), end - 1
        first = min(at for at, call in enumerate(self.calls) if call.startswith("write "))
        counts = IN_PLACE_CREATED if self.old[1] is None else IN_PLACE
        begins = first - counts[self.file]
        if self.way == "replaces":
            # what was opened to be written is written, and has that name no longer
            openings = [at for at in range(first) if self.calls[at] == f"openat {self.file}"]
            return range(0), max(openings)
        return range(begins, len(self.calls)), len(self.calls)

    def run(self):
        """Lets the other program write at each call."""
        instant, done = self.instant()
        for at, call in enumerate(self.calls):
            if call.split()[0] not in PLAIN:
                what = self.write_at(at, at > done)
                if what == "lost" and at in instant:
                    what = "in the last instant"
                self.check.see(what)
                where = (f"call {at + 1} {call} of {self.command}, {self.scene}", self.found)
                self.check.require(what != "lost", "lost", *where)

    def write_at(self, at, is_done):
        """Lets the other program write at one call, and says what became of its bytes."""
        scene = self.scene
        scene.begin()
        ran = scene.program.meet(scene.folder, self.command, "run:" + self.doing, at + 1)
        self.found = self.ending(ran)
        scene.program.recover(scene.folder)
        if self.file in (FILE, JOURNAL):
            return self.judge_written(*self.found, is_done)
        return self.judge_new(*self.found, scene.state())

    def judge_written(self, status, errors, files, is_done):
        """Judges what became of FILE or the journal, and of the other one of both."""
        at, other = self.at, 1 - self.at
        if self.found == self.alone:
            return "before it was read"
        is_kept = files[at] == self.theirs and files[other] == self.old[other]
        if status == 1 and is_kept:
            return "refused" if (status, errors) == REFUSED else "refused while it was read"
        is_kept = files[at] == self.theirs and files[other] == self.new[other]
        return "after it was saved" if status == 0 and is_kept and is_done else "lost"

    def judge_new(self, status, errors, files, after):
        """Judges FILE and journal where the other program put a new file: neither is that one, and
        the next command removes it."""
        left = self.scene.leftovers()
        if left or THEIR_NEW_FILE in files or THEIR_NEW_FILE in after:
            return "lost"
        if status == 0 and files == self.new == after:
            return "before or after its own"
        if (status, errors) == REFUSED and files == self.old == after:
            return "refused"
        # FILE is renamed, and the journal can't follow
        is_late = self.file == NEW_JOURNAL and files == (self.new[0], self.old[1]) == after
        late = f"tfk: main.tf: cannot write, {len(self.new[1])} bytes sent"
        return "refused late" if is_late and (status, errors) == (1, late) else "lost"


def ways(scene, file):
    """Returns what another program may do to a file; a new one it replaces."""
    content = {FILE: scene.text, JOURNAL: scene.journal or b""}.get(file)
    if content is None:
        return ["replaces"]
    # another digit is written, if there is one
    return [way for way in WAYS if way != "writes as many bytes to" or b"1" in content]


def try_file(program, layout, history, command, file):
    """Lets another program write at each call of a command."""
    folder = program.folder(f"{layout} {history} {command} {file}")
    scene = Scene(program, f"{folder}/s", layout, history)
    check = Check(f"{command} of {scene}, another program at {file}", "runs", 25)
    for way in ways(scene, file):
        Other(check, scene, command, way, file).run()
    check.require(check.outcomes["refused"] > 0, "it is never refused")
    return check


def try_modes(program, layout, history, command):
    """Looks at each call whether anybody else could open a new file."""
    folder = program.folder(f"modes {layout} {history} {command}")
    scene = Scene(program, f"{folder}/s", layout, history, mode=0o600)
    check = Check(f"{command} of {scene}, modes with umask 0", "calls", 25)
    scene.begin()
    for number, call in enumerate(program.calls(scene.folder, command), 1):
        scene.begin()
        look = f"run:find . -name 'main.tf*' -perm /077 >../seen"
        usual = os.umask(0)
        program.meet(scene.folder, command, look, number)
        # the next job runs in this process
        os.umask(usual)
        seen = read(f"{folder}/seen").decode()
        check.see("private" if not seen else "open to others")
        check.require(not seen, "open to others", "at", call, seen)
    return check


def jobs():
    """Yields all jobs."""
    for command in COMMANDS:
        is_replaced = command[0] == "name"
        for file in INSTANTS if is_replaced else IN_PLACE:
            yield try_file, *command, file
        yield try_modes, *command


JOBS = list(jobs())
