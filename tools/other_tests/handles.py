"""A process may have few files open: at each limit at which one FILE alone can be saved any number
of files is saved, as one after the other; a command that is refused leaves nothing."""
import os
import resource

from commands import COMMANDS, FMT, RECORD, TEXT
from program import Check
from scenes import COMMANDS as HISTORIES
from scenes import Scene, empty, name_of, read, write

# Standard input, output and errors are open.
LEAST_LIMIT = 3

# At this limit everything that is saved alone is saved.
ENOUGH = 24

# How many files, and where they are.
NUMBERS = (1, 2, 3, 10, 64)
ONE_FOLDER, FOLDERS = "{0}.tf", "in/{0}/main.tf"


def limited(number):
    """Returns what a process does before it becomes the program."""
    return lambda: resource.setrlimit(resource.RLIMIT_NOFILE, (number, number))


def has_begun(ran):
    """Whether the program ran: a dynamic one loads its libraries through a file, too."""
    return ran.returncode != 127


def try_one(program, layout):
    """Runs each command on one FILE, at each limit."""
    check = Check(f"few open files, one FILE by {layout}", "runs", 100)
    folder = program.folder(f"handles {layout}")
    for history, command in HISTORIES:
        scene = Scene(program, f"{folder}/s", layout, history)
        old, new = (scene.text, scene.journal), scene.after(command)
        saved = set()
        for number in range(LEAST_LIMIT, ENOUGH + 1):
            scene.begin()
            ran = program.run(scene.folder, command, preexec_fn=limited(number))
            state = name_of(scene.state(), old, new)
            where = (command, "of", scene, "limit", number, ran.returncode, ran.stderr)
            wanted = "new" if ran.returncode == 0 else "old"
            check.see(state if has_begun(ran) else "not begun")
            check.require(state == wanted, f"status {ran.returncode}, not {wanted}", *where)
            is_refused = ran.returncode == 1 and ran.stderr.startswith(b"tfk: main.tf: cannot ")
            is_known = ran.returncode == 0 or is_refused or not has_begun(ran)
            check.require(is_known, "another ending", *where)
            check.require(not scene.leftovers(), "left", scene.leftovers(), *where)
            check.require(not scene.lost(), "lost", scene.lost(), *where)
            saved |= {number} if ran.returncode == 0 else set()
        # once it is saved, it is saved at each greater limit
        is_monotone = saved == set(range(ENOUGH - len(saved) + 1, ENOUGH + 1)) != set()
        check.require(is_monotone, "saved at a lesser limit", command, "of", scene, saved)
    return check


class Files:
    """Some files by their numbers; an even one has a journal."""

    def __init__(self, program, folder, numbers, place):
        self.program, self.folder = program, folder
        self.names = {number: place.format(number) for number in numbers}

    def begin(self):
        """Makes the files."""
        empty(self.folder)
        for number, name in self.names.items():
            path = f"{self.folder}/{name}"
            os.makedirs(os.path.dirname(path), exist_ok=True)
            write(path, TEXT)
            if number % 2 == 0:
                write(path + ".tfundo", RECORD)

    def run(self, limit):
        """Formats them at a limit; returns how that ended."""
        self.begin()
        *names, last = self.names.values()
        words = " ".join(["fmt", *names])
        return self.program.run(self.folder, words, last, preexec_fn=limited(limit))

    def unsaved(self):
        """Returns the names of what was not saved, and of what is left."""
        wrong = []
        for number, name in self.names.items():
            journal = (RECORD if number % 2 == 0 else b"") + FMT
            files = [read(f"{self.folder}/{name}{end}") for end in ("", ".tfundo")]
            wrong += [name] if files != [COMMANDS["fmt"][1], journal] else []
        for _, _, names in os.walk(self.folder):
            wrong += [name for name in names if name.endswith("new")]
        return wrong

    def is_saved_at(self, limit):
        """Whether all are saved at a limit."""
        return self.run(limit).returncode == 0 and not self.unsaved()


def try_many(program, number, place):
    """Formats many files at each limit from the least at which each is saved alone."""
    where = "one folder" if place == ONE_FOLDER else "a folder each"
    check = Check(f"few open files, fmt of {number} in {where}", "runs", 2 * number)
    folder = program.folder(f"handles {number} {where}")
    alone = [Files(program, folder, [at], place) for at in range(min(number, 2))]
    # what is saved at no limit is a complaint of the runs below
    limits = range(LEAST_LIMIT, ENOUGH + 1)
    least = max(next((it for it in limits if one.is_saved_at(it)), ENOUGH) for one in alone)
    files = Files(program, folder, range(number), place)
    names = "".join(name + "\n" for name in files.names.values()).encode()
    for limit in range(least, least + 2 * number + 9):
        ran = files.run(limit)
        unsaved = files.unsaved()
        is_saved = (ran.returncode, ran.stdout, ran.stderr) == (0, names, b"") and not unsaved
        check.see("saved" if is_saved else "not saved")
        what = (ran.returncode, ran.stderr[:100], f"{len(unsaved)} not saved or left", unsaved[:3])
        check.require(is_saved, "not saved", "limit", limit, "alone", least, *what)
    return check


JOBS = [(try_many, number, place) for number in NUMBERS[::-1] for place in (ONE_FOLDER, FOLDERS)]
JOBS += [(try_one, layout) for layout in ("name", "link", "journal link", "links", "names")]
