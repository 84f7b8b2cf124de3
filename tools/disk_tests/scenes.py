"""FILE, its journal, links to them, and what an interrupted command left next to them."""
import copy
import ctypes
import os
import shutil
import stat
import time

TEXT = b'// x\na=1 // y\nbb = "${c}"\n'

# Histories, and the commands that change something after each.
COMMANDS = [
    ("", "fmt"),
    ("", "fix"),
    ("fix", "fmt"),
    ("fix", "revert"),
    ("fix", "revert --take 1"),
    ("fmt", "fix"),
    ("fmt", "revert"),
    ("fix fmt", "revert"),
    ("fix fmt", "revert --take 1"),
]

# The call by which a new file replaces FILE.
RENAME = "rename main.tf.tfnew"

AT_FDCWD, RENAME_EXCHANGE = -100, 2
LIBRARY = ctypes.CDLL(None, use_errno=True)


def long_text(lines):
    """Returns a text that every command changes, with this number of lines more."""
    return TEXT + b"".join(b'v%d = "${x%d}" // c\n' % (i, i) for i in range(lines))


def read(path):
    """Returns the bytes of a file, or None if there is none."""
    try:
        with open(path, "rb") as file:
            return file.read()
    except OSError:
        return None


def write(path, content):
    """Writes the bytes of a file."""
    with open(path, "wb") as file:
        file.write(content)


def exchange(first, second):
    """Exchanges two names."""
    words = (AT_FDCWD, first.encode(), AT_FDCWD, second.encode(), RENAME_EXCHANGE)
    if LIBRARY.renameat2(*words):
        raise OSError(ctypes.get_errno(), "not exchanged", first)


def state_of(folder):
    """Returns all that is in a folder, and the folder itself: rights, links and time of each, and
    its content or where it leads to."""
    state = {}
    for path, folders, files in os.walk(folder):
        for name in (".", *folders, *files) if path == folder else (*folders, *files):
            there = f"{path}/{name}"
            found = os.lstat(there)
            parts = [found.st_mode, found.st_uid, found.st_gid, found.st_nlink, found.st_mtime_ns]
            if stat.S_ISLNK(found.st_mode):
                parts.append(os.readlink(there))
            elif stat.S_ISREG(found.st_mode):
                parts.append(read(there))
            state[os.path.relpath(there, folder)] = parts
    return state


def changes(before, after):
    """Returns the names of what two states of a folder differ in."""
    names = before.keys() | after.keys()
    return sorted(name for name in names if before.get(name) != after.get(name))


def name_of(found, old, new):
    """Says what FILE and journal are, or one of them."""
    return "old" if found == old else "new" if found == new else "mixed"


def empty(folder):
    """Removes all that is in a folder."""
    os.makedirs(folder, exist_ok=True)
    for entry in os.scandir(folder):
        if entry.is_dir(follow_symlinks=False):
            shutil.rmtree(entry.path)
        else:
            os.unlink(entry.path)


class Scene:
    """A folder before a command: FILE with its history, in a layout, and what was left there.

    Layouts: "name"; "link" and "journal link", where FILE or its journal is a link into the folder
    `elsewhere`; "links", where both are; "names", where FILE has a second name.
    """

    def __init__(self, program, folder, layout="name", history="", **options):
        self.program, self.folder, self.layout, self.history = program, folder, layout, history
        self.elsewhere = options.get("elsewhere", "real")
        self.left, self.owner = options.get("left", ""), options.get("owner")
        self.mode = options.get("mode", 0o640)
        self.text, self.journal = options.get("text", TEXT), None
        self.journal_mode, self.older_journal = self.mode, None
        empty(folder)
        self.place(self.file, self.text, self.mode)
        for command in history.split():
            self.older_journal = read(self.file + ".tfundo")
            program.run(folder, command)
        self.text, self.journal = self.state_of(self.file, self.file + ".tfundo")
        if self.journal is not None:
            self.journal_mode = stat.S_IMODE(os.stat(self.file + ".tfundo").st_mode)

    @property
    def file(self):
        """The name of FILE."""
        return f"{self.folder}/main.tf"

    @property
    def other_folder(self):
        """Where links lead to."""
        return os.path.normpath(f"{self.folder}/{self.elsewhere}")

    @property
    def real_file(self):
        """What FILE leads to."""
        return f"{self.other_folder}/main.tf" if self.layout in ("link", "links") else self.file

    @property
    def real_journal(self):
        """What the journal's name leads to."""
        is_link = self.layout in ("journal link", "links") and self.journal is not None
        return f"{self.other_folder}/journal.tfundo" if is_link else self.file + ".tfundo"

    def place(self, path, content, mode):
        """Makes a file of some age, so that each later change has another time."""
        write(path, content)
        if self.owner is not None:
            os.chown(path, self.owner, self.owner)
        os.chmod(path, mode)
        os.utime(path, (time.time() - 60,) * 2)

    def begin(self):
        """Makes all as it is before the command."""
        empty(self.folder)
        if self.real_file != self.file or self.real_journal != self.file + ".tfundo":
            empty(self.other_folder)
        self.place(self.real_file, self.text, self.mode)
        if self.real_file != self.file:
            os.symlink(f"{self.elsewhere}/main.tf", self.file)
        if self.journal is not None:
            self.place(self.real_journal, self.journal, self.journal_mode)
        if self.real_journal != self.file + ".tfundo":
            os.symlink(f"{self.elsewhere}/journal.tfundo", self.file + ".tfundo")
        if self.layout == "names":
            os.link(self.file, f"{self.folder}/other.tf")
        self.leave()

    def leave(self):
        """Makes what an interrupted command has left: a new text, both new files, or, once FILE is
        replaced, the new journal alone."""
        if self.left in ("text", "both"):
            self.place(self.real_file + ".tfnew", b"half", self.mode)
        if self.left == "both":
            self.place(self.real_journal + ".new", b"half", self.mode)
        if self.left == "journal":
            os.rename(self.real_journal, self.real_journal + ".new")
            if self.older_journal is not None:
                self.place(self.real_journal, self.older_journal, self.journal_mode)

    @staticmethod
    def state_of(text, journal):
        """Returns the content of both files."""
        return read(text), read(journal)

    def state(self):
        """Returns the content of FILE and journal."""
        return self.state_of(self.real_file, self.real_journal)

    def state_to_be(self):
        """Returns the content of FILE and of the journal that is to take its place."""
        return self.state_of(self.real_file, self.real_journal + ".new")

    def names(self):
        """Returns the names of all that is there."""
        folders = [self.folder, self.other_folder]
        return {name for folder in folders if os.path.isdir(folder) for name in os.listdir(folder)}

    def after(self, command):
        """Returns the content of FILE and journal after a command that nothing interrupts."""
        self.begin()
        self.program.run(self.folder, command)
        return self.state()

    def leftovers(self):
        """Returns the names of what a command should not leave."""
        own = {self.file, self.real_file, self.file + ".tfundo", self.real_journal}
        if self.layout == "names":
            own.add(f"{self.folder}/other.tf")
        found = []
        for folder in {self.folder, self.other_folder}:
            if os.path.isdir(folder):
                found += [entry.path for entry in os.scandir(folder)]
        return sorted(
            os.path.relpath(path, self.folder)
            for path in found
            if path not in own and path != self.other_folder
        )

    def readers(self, name):
        """Returns the mode of a file of the folder."""
        return stat.S_IMODE(os.lstat(f"{self.folder}/{name}").st_mode)

    def lost(self):
        """Returns what FILE has lost: mode, owner, a link, or its second name."""
        lost, file = [], os.stat(self.real_file)
        if stat.S_IMODE(file.st_mode) != self.mode:
            lost.append("mode")
        if self.owner is not None and (file.st_uid, file.st_gid) != (self.owner, self.owner):
            lost.append("owner")
        if self.real_file != self.file and not os.path.islink(self.file):
            lost.append("link")
        if self.real_journal != self.file + ".tfundo" and not os.path.islink(self.file + ".tfundo"):
            lost.append("journal's link")
        if self.layout == "names" and not os.path.samefile(self.file, f"{self.folder}/other.tf"):
            lost.append("second name")
        return lost

    def moved(self, old, new):
        """Returns the same scene in a copy of its disk."""
        moved = copy.copy(self)
        moved.folder = self.folder.replace(old, new)
        return moved

    def __str__(self):
        after = f" after {self.history}" if self.history else ""
        left = f", left over: {self.left}" if self.left else ""
        return f"FILE by {self.layout}{after}{left}"
