"""A small FILE with a journal, and how each command that reads one ends: as it does with that
journal, or refused, with all as before."""
import contextlib
import os
import subprocess

from scenes import changes, empty, read, state_of, write

FILE, JOURNAL, NEW_TEXT, NEW_JOURNAL = (
    "main.tf", "main.tf.tfundo", "main.tf.tfnew", "main.tf.tfundo.new"
)  # fmt: skip

OLD_TEXT = b"a=1 // b\n// c\n"
TEXT = b"a=1 # b\n// c\n"
RECORD = b"tfrec 2 fix 14 1\n4 2 1\n//#\nend\n"
FMT = b"tfrec 2 fmt 13 2\n1 0 1\n \n2 0 1\n \nend\n"
FIX = b"tfrec 2 fix 13 1\n8 2 1\n//#\nend\n"

# What each command prints, and FILE and journal after it, if the journal is RECORD.
COMMANDS = {
    "fmt": (b"main.tf\n", b"a = 1 # b\n// c\n", RECORD + FMT),
    "fix": (b"", b"a=1 # b\n# c\n", RECORD + FIX),
    "revert": (b"", OLD_TEXT, b""),
    "revert --take 1": (b"", OLD_TEXT, b""),
    "revert --list": (b"1 fix 1 edit\n", TEXT, RECORD),
}

# Those that read no journal, and their status: they are not concerned.
OTHERS = {"lint": 2, "fmt --check": 3}

REFUSED = b"tfk: main.tf: cannot read\n"

# A command that waits for something that never comes takes longer.
SECONDS = 2


class Place:
    """A folder for FILE, `here`, and another one beside it, `home`."""

    def __init__(self, program, name):
        self.program, self.temp = program, program.folder(name)
        self.folder, self.home = f"{self.temp}/here", f"{self.temp}/home"
        # the caller, if it is another one: user, group and further groups
        self.caller = {}

    def begin(self, text=TEXT):
        """Makes both folders, with FILE alone."""
        for folder in (self.folder, self.home):
            empty(folder)
            os.chown(folder, os.geteuid(), os.getegid())
            os.chmod(folder, 0o755)
        self.make(FILE, text)

    def make(self, name, content):
        """Makes a file; the folder `here` is the current one for names."""
        write(f"{self.folder}/{name}", content)
        os.chmod(f"{self.folder}/{name}", 0o644)

    def link(self, name, to):
        """Makes a link."""
        os.symlink(to, f"{self.folder}/{name}")

    def read(self, name):
        """Returns the content of a file, or None."""
        return read(f"{self.folder}/{name}")

    def run(self, command):
        """Runs a command; returns its status, output and errors, or None if it waits."""
        with contextlib.suppress(subprocess.TimeoutExpired):
            ran = self.program.run(self.folder, command, timeout=SECONDS, **self.caller)
            return ran.returncode, ran.stdout, ran.stderr
        return None

    def require_refused(self, check, make, what, errors=REFUSED):
        """Requires that each command that reads a journal is refused, and that nothing changes; and
        that those that read none are not. `make` makes all that is there."""
        for command in (*COMMANDS, *OTHERS):
            make()
            before = state_of(self.temp)
            ran = self.run(command)
            if command in COMMANDS:
                check.see("waits" if ran is None else "refused" if ran[0] == 1 else "not refused")
                check.require(ran == (1, b"", errors), "not refused", command, what, ran)
            else:
                is_usual = ran is not None and (ran[0], ran[2]) == (OTHERS[command], b"")
                check.see("not concerned" if is_usual else "another ending")
                check.require(is_usual, "another ending", command, what, ran)
            changed = changes(before, state_of(self.temp))
            check.require(not changed, "changed", command, what, changed, ran)

    def require_accepted(self, check, make, what, journal=JOURNAL, new=NEW_JOURNAL):
        """Requires that each command works with the journal, which is RECORD."""
        for command, (output, text, record) in COMMANDS.items():
            make()
            ran = self.run(command)
            check.see("accepted" if ran is not None and ran[0] == 0 else "not accepted")
            check.require(ran == (0, output, b""), "not accepted", command, what, ran)
            check.require(self.read(FILE) == text, "another text", command, what, self.read(FILE))
            # a list recovers nothing
            if command != "revert --list":
                found = self.read(journal)
                check.require(found == record, "another journal", command, what, found)
                left = [name for name in (NEW_TEXT, new) if os.path.lexists(self.path(name))]
                check.require(not left, "left", command, what, left)

    def path(self, name):
        """Returns where a name of the folder is."""
        return f"{self.folder}/{name}"
