"""Root's command runs in a folder of another user, who puts root's file, or a link to it, in the
place of a new file, of the journal or of FILE, or a link to root's folder in the place of the
folder: what is root's stays as it is. And what becomes of FILE in a folder with a default access
list, and in the lower layer of an overlay."""
import contextlib
import os
import random
import signal
import stat
import struct
import subprocess

import images
from program import Check, Missing
from scenes import changes, exchange, read, state_of, write

ANOTHER = 1000
RACES = 1500
SECRET = b"root only\n"
NEW_FILES = ["main.tf.tfnew", "main.tf.tfundo.new"]

# How root's file, `secret`, comes to a name; what has the name is moved away before.
WAYS = {"link": "ln -s secret", "hard link": "ln secret", "rename": "mv secret"}

# Which names are replaced: of a FILE with one name; of one with two, which is written in place,
# with a journal and without one.
PLACES = {
    "replaced": NEW_FILES,
    "in place": ["main.tf", "main.tf.tfundo"],
    "in place, no journal": ["main.tf", "main.tf.tfundo"],
}


class Folder:
    """A folder of another user, with FILE and a file of root's."""

    def __init__(self, program, name, place):
        self.program, self.place, self.secret = program, place, None
        # the other user has to reach it
        os.chmod(program.temp, 0o755)
        self.path = program.folder(name)
        os.chown(self.path, ANOTHER, ANOTHER)

    def make(self, name, content):
        """Makes a file of the other user."""
        write(f"{self.path}/{name}", content)
        os.chown(f"{self.path}/{name}", ANOTHER, ANOTHER)

    def begin(self, mode=0o600):
        """Makes FILE and root's file, which stays open, so that it is known by any name."""
        for name in os.listdir(self.path):
            os.unlink(f"{self.path}/{name}")
        self.make("main.tf", b"a=1\n")
        if self.place != "replaced":
            os.link(f"{self.path}/main.tf", f"{self.path}/other.tf")
        if self.place == "in place":
            self.make("main.tf.tfundo", b"")
        if self.secret is not None:
            os.close(self.secret)
        self.mode = mode
        self.secret = os.open(f"{self.path}/secret", os.O_RDWR | os.O_CREAT | os.O_EXCL)
        os.write(self.secret, SECRET)
        os.fchmod(self.secret, mode)

    def change(self):
        """Returns what became of root's file, or None."""
        found = os.fstat(self.secret)
        if (found.st_uid, found.st_gid) != (0, 0):
            return "given away"
        if stat.S_IMODE(found.st_mode) != self.mode:
            return "mode changed"
        return "changed" if os.pread(self.secret, 100, 0) != SECRET else None


def judge(check, folder, *where):
    """Notes what became of root's file."""
    change = folder.change()
    check.see(change or "kept")
    check.require(change is None, change, *where)


def put_files(program, place):
    """Puts root's file, or a link to it, in the place of each file at each call."""
    check = Check(f"owner, root's file put in the place of another at each call, FILE {place}")
    check.least = 250
    folder = Folder(program, f"owner-calls-{place}", place)
    folder.begin()
    calls = program.calls(folder.path, "fmt")
    for name in PLACES[place]:
        for way, command in WAYS.items():
            for number, call in enumerate(calls[:-1], 1):
                folder.begin()
                put = f"run:mv {name} taken 2>/dev/null; {command} {name}"
                program.meet(folder.path, "fmt", put, number)
                judge(check, folder, way, name, "at call", number, call)
                program.recover(folder.path)
                change = folder.change()
                where = (way, name, "at", call)
                check.require(change is None, f"{change} by the next command", *where)
    return check


def put_once(way, name):
    """Puts root's file, or a link to it, in the place of a new file once that is there."""
    os.rename(name, "taken")
    if way == "link":
        os.symlink("secret", name)
    elif way == "rename":
        os.rename("secret", name)
    else:
        os.link("secret", name)


def lure(way):
    """Makes a name of root's file, or a link to it, that is to be exchanged with another one."""
    if way == "link":
        os.symlink("secret", "lure")
    elif way == "rename":
        os.rename("secret", "lure")
    else:
        os.link("secret", "lure")


def exchange_twice(way, name):
    """Exchanges a file and root's file, and after a while again."""
    with contextlib.suppress(FileExistsError, FileNotFoundError):
        lure(way)
    for _ in range(2):
        for _ in range(random.randrange(2000)):
            pass
        with contextlib.suppress(OSError):
            exchange(name, "lure")


def attack(folder, put, *names):
    """Begins a process of the other user that puts files as fast as it can; returns its id."""
    child = os.fork()
    if child:
        return child
    signal.signal(signal.SIGTERM, signal.SIG_DFL)
    os.chdir(folder)
    os.setgroups([])
    os.setgid(ANOTHER)
    os.setuid(ANOTHER)
    while True:
        try:
            put(*names)
        except OSError:
            pass


@contextlib.contextmanager
def held(process):
    """Stops a process meanwhile."""
    os.kill(process, signal.SIGSTOP)
    os.waitpid(process, os.WUNTRACED)
    yield
    os.kill(process, signal.SIGCONT)


def race(program, place, name, way):
    """Lets the other user put files while root's command runs."""
    check = Check(f"owner, a {way} put in the place of {name}, FILE {place}", "races", RACES)
    folder = Folder(program, f"owner-race-{place}-{name}-{way}", place)
    # a user may make a hard link only to a file that he may write
    mode = 0o666 if way == "hard link" else 0o600
    folder.begin(mode)
    is_there = os.path.exists(f"{folder.path}/{name}")
    attacker = attack(folder.path, exchange_twice if is_there else put_once, way, name)
    try:
        for number in range(RACES):
            with held(attacker):
                folder.begin(mode)
            ran = program.run(folder.path, "fmt")
            judge(check, folder, "race", number)
            check.outcomes["status 0"] += ran.returncode == 0
    finally:
        os.kill(attacker, signal.SIGKILL)
        os.waitpid(attacker, 0)
    return check


# How FILE is named while its folder is exchanged: where the command runs, and the name.
NAMINGS = {
    "in the current folder": ("proj", "main.tf"),
    "by a relative name": (".", "proj/main.tf"),
    "by an absolute name": (".", "{0}/proj/main.tf"),
}

# How many of the runs save FILE, at least: else the folder was always exchanged.
LEAST_SAVED = 100


def exchange_folder():
    """Exchanges the folder and a link to root's folder, and after a while again."""
    for _ in range(2):
        for _ in range(random.randrange(2000)):
            pass
        exchange("proj", "lure")


class Folders(Folder):
    """A folder of another user with FILE's folder, `proj`, and a link to root's folder, `lure`."""

    def begin(self, mode=0o600):
        """Makes FILE's folder; root's is made once."""
        root, proj, lure = (f"{self.path}/{name}" for name in ("root", "proj", "lure"))
        if not os.path.exists(root):
            os.mkdir(root, 0o700)
            write(f"{root}/main.tf", b'root = "of root"\n')
            os.chmod(f"{root}/main.tf", mode)
            os.symlink("root", lure)
            os.mkdir(proj)
            for path in (lure, proj):
                os.lchown(path, ANOTHER, ANOTHER)
            self.before = state_of(root)
        if os.path.islink(proj):
            exchange(proj, lure)
        for name in os.listdir(proj):
            os.unlink(f"{proj}/{name}")
        self.make("proj/main.tf", b"a=1\n")
        if self.place != "replaced":
            os.link(f"{proj}/main.tf", f"{proj}/other.tf")

    def change(self):
        """Returns what became of root's folder, or None."""
        return ", ".join(changes(self.before, state_of(f"{self.path}/root"))) or None


def race_folder(program, naming, place, kind=None):
    """Lets the other user exchange FILE's folder while root's command runs; of a kind, the file
    system is one of that kind."""
    name = f"owner-folder-{naming}-{place}-{kind}".replace(" ", "-")
    where = f", {kind}" if kind else ""
    check = Check(f"owner, the folder is exchanged, FILE {naming}, {place}{where}", "races", RACES)
    disk = images.new_disk(program, name, kind) if kind else contextlib.nullcontext()
    with disk:
        folder = Folders(program, name, place)
        folder.begin()
        runs_in, file = (part.format(folder.path) for part in NAMINGS[naming])
        attacker = attack(folder.path, exchange_folder)
        try:
            for number in range(RACES):
                with held(attacker):
                    folder.begin()
                program.run(f"{folder.path}/{runs_in}", "fmt", file)
                with held(attacker):
                    change = folder.change()
                    # the time of the folder alone: a name was made there, and removed again
                    check.see("touched" if change == "." else "changed" if change else "kept")
                    check.require(change is None, "root's folder changed", change, "race", number)
                    if change:
                        folder.before = state_of(f"{folder.path}/root")
                    files = [f"{folder.path}/{proj}/main.tf" for proj in ("proj", "lure")]
                    check.outcomes["saved"] += b"a = 1\n" in map(read, files)
        finally:
            os.kill(attacker, signal.SIGKILL)
            os.waitpid(attacker, 0)
    saved = check.outcomes["saved"]
    check.require(saved >= LEAST_SAVED, "too few are saved", saved)
    return check


# A record that adds a line to a text of ten bytes, and one that can be reverted in it.
THEIR_RECORD = b"tfrec 2 fix 21 1\n0 11 0\nx = \"evil\"\n\nend\n"
OWN_RECORD = b"tfrec 2 fix 11 1\n6 2 1\n//#\nend\n"
TEXTS = (b"a = 1 # b\n", b"a = 1 // b\n")


def take_number(program, name, kind):
    """Another user removes root's journal, or a new one, at each call of root's revert, and makes
    one there, which gets the number of the inode: nothing of it is reverted."""
    check = Check(f"owner, {name} removed and made anew by another user, {kind}", "runs", 20)
    with images.new_disk(program, f"owner-number-{name}-{kind}", kind) as disk:
        folder = f"{disk}/folder"
        os.mkdir(folder)
        os.chmod(folder, 0o777)
        write(f"{disk}/theirs", THEIR_RECORD)
        os.chown(f"{disk}/theirs", ANOTHER, ANOTHER)

        def begin():
            for entry in os.listdir(folder):
                os.unlink(f"{folder}/{entry}")
            write(f"{folder}/main.tf", TEXTS[0])
            write(f"{folder}/{name}", OWN_RECORD)
            return os.stat(f"{folder}/{name}").st_ino

        begin()
        calls = program.calls(folder, "revert")
        for number, call in enumerate(calls[:-1], 1):
            own = begin()
            program.meet(folder, "revert", f"run:rm -f {name}; cp -p ../theirs {name}", number)
            text = read(f"{folder}/main.tf")
            # a new journal may have got the journal's name since
            numbers = [entry.inode() for entry in os.scandir(folder)]
            check.outcomes["number taken"] += own in numbers
            check.see("kept" if text in TEXTS else "theirs")
            check.require(text in TEXTS, "their record is reverted", "at call", number, call, text)
    check.require(check.outcomes["number taken"], "no number is taken")
    return check


def access_list(*entries):
    """Returns an access list of entries of a tag, rights and an id, as the system stores it."""
    return struct.pack("<I", 2) + b"".join(struct.pack("<HHI", *entry) for entry in entries)


# Tags: the owner, a user, the group, the mask, others; the id of those that need none.
OWNER, USER, GROUP, MASK, OTHERS, NONE = 1, 2, 4, 16, 32, 0xFFFFFFFF
DEFAULT_LIST = access_list(
    (OWNER, 6, NONE), (USER, 6, ANOTHER), (GROUP, 4, NONE), (MASK, 6, NONE), (OTHERS, 0, NONE)
)  # fmt: skip


def default_list(program, kind):
    """A folder with a default list gives it to FILE, as is documented."""
    check = Check(f"owner, a folder with a default access list, {kind}", "runs", 1)
    with images.new_disk(program, f"owner-list-{kind}", kind) as disk:
        write(f"{disk}/main.tf", b"a=1\n")
        os.chmod(f"{disk}/main.tf", 0o640)
        try:
            os.setxattr(disk, "system.posix_acl_default", DEFAULT_LIST)
        except OSError as why:
            raise Missing(f"{kind} without access lists") from why
        check.require(not os.listxattr(f"{disk}/main.tf"), "FILE has a list before")
        ran = program.run(disk, "fmt")
        is_saved = ran.returncode == 0 and read(f"{disk}/main.tf") == b"a = 1\n"
        check.see("saved" if is_saved else "not saved")
        check.require(is_saved, "not saved", ran)
        found = os.getxattr(f"{disk}/main.tf", "system.posix_acl_access")
        entry = struct.pack("<HHI", USER, 6, ANOTHER)
        check.require(entry in found, "not the folder's list", found)
        mode = stat.S_IMODE(os.stat(f"{disk}/main.tf").st_mode)
        check.require(mode & 0o707 == 0o600, "FILE has another mode", oct(mode))
    return check


def lower_layer(program):
    """A FILE of two names in the lower layer of an overlay is refused once, and saved then, as is
    documented."""
    images.need("overlay")
    check = Check("owner, a FILE of two names in the lower layer of an overlay", "runs", 2)
    temp = program.folder("owner-overlay")
    with images.mounted("tmpfs", f"{temp}/disk", "size=8m", "tmpfs") as disk:
        for name in ("lower", "upper", "work", "all"):
            os.mkdir(f"{disk}/{name}")
        write(f"{disk}/lower/main.tf", b"a=1\n")
        os.link(f"{disk}/lower/main.tf", f"{disk}/lower/other.tf")
        options = f"index=off,lowerdir={disk}/lower,upperdir={disk}/upper,workdir={disk}/work"
        with images.mounted("overlay", f"{disk}/all", options, "overlay") as folder:
            for errors, text in ((b"tfk: main.tf: cannot write, 0 bytes sent\n", b"a=1\n"),
                                 (b"", b"a = 1\n")):  # fmt: skip
                ran = program.run(folder, "fmt")
                check.see("refused" if ran.returncode else "saved")
                said = (ran.stderr, read(f"{folder}/main.tf"), read(f"{folder}/other.tf"))
                check.require(said == (errors, text, b"a=1\n"), "another ending", said)
                left = {name for name in os.listdir(folder) if name.endswith("new")}
                check.require(not left, "left", left)
    return check


def without_handles(program):
    """Where the system does not show a process, FILE keeps its owner, and a journal that is created
    gets it. The caller is not known there: a journal of the caller's beside FILE of another user is
    refused."""
    check = Check("owner, without /proc", "runs", 5)
    folder = Folder(program, "owner-alone", "replaced")
    alone = ["unshare", "--mount", "sh", "-c", 'mount -t tmpfs none /proc && exec "$@"', "sh"]

    def run(command, text):
        ran = program.run(folder.path, command, before=alone)
        file, journal = (os.stat(f"{folder.path}/main.tf{end}") for end in ("", ".tfundo"))
        is_done = ran.returncode == 0 and read(f"{folder.path}/main.tf") == text
        check.see("done" if is_done else "not done")
        check.require(is_done, "not done", command, folder.place, ran)
        check.require(file.st_uid == ANOTHER, "FILE has another owner", command, file)
        left = [name for name in NEW_FILES if os.path.lexists(f"{folder.path}/{name}")]
        check.require(not left, "left", left)
        return journal.st_uid

    for place in ("replaced", "in place"):
        folder.place = place
        folder.begin()
        owner = run("fmt", b"a = 1\n")
        check.require(owner == ANOTHER, "the journal has another owner", place, owner)
        run("revert", b"a=1\n")
    folder.place = "replaced"
    folder.begin()
    program.run(folder.path, "fmt")
    os.chown(f"{folder.path}/main.tf.tfundo", 0, 0)
    before = state_of(folder.path)
    ran = program.run(folder.path, "revert", before=alone)
    is_refused = (ran.returncode, ran.stderr) == (1, b"tfk: main.tf: cannot read\n")
    check.see("refused" if is_refused else "not refused")
    check.require(is_refused, "not refused", ran)
    changed = changes(before, state_of(folder.path))
    check.require(not changed, "changed", changed)
    return check


JOBS = [(put_files, place) for place in PLACES]
JOBS += [(race, place, name, way) for place in PLACES for name in PLACES[place] for way in WAYS]
JOBS += [(race_folder, naming, place) for naming in NAMINGS for place in ("replaced", "in place")]
JOBS += [(race_folder, "by a relative name", "replaced", kind) for kind in ("ext4", "btrfs")]
JOBS += [(take_number, name, "ext4") for name in ("main.tf.tfundo", "main.tf.tfundo.new")]
JOBS += [(default_list, kind) for kind in ("ext4", "btrfs", "xfs")]
JOBS += [(lower_layer,), (without_handles,)]
