"""Another program changes the mode, the owner or the group of FILE or of its journal at each call
of a command: that is never undone. The command is refused, or works with it."""
import os
import stat

from program import Check
from scenes import Scene
from writers import FILE, JOURNAL, REFUSED, Other

# Layouts of FILE, its history and a command. A journal that is not there yet has no rights.
COMMANDS = [
    ("name", "", "fmt", FILE),
    ("name", "fix", "fmt", FILE),
    ("name", "fix", "fmt", JOURNAL),
    ("name", "fix fmt", "revert", FILE),
    ("name", "fix fmt", "revert", JOURNAL),
    ("names", "fix", "fmt", FILE),
    ("names", "fix", "fmt", JOURNAL),
]

WAYS = {"mode": "chmod 604 {0}", "owner": "chown 2 {0}", "group": "chown :2 {0}"}


class Rights(Other):
    """A command on FILE, and another program that changes the rights of a file at one call."""

    ways = WAYS

    def instant(self):
        """Returns as Other does; a file that is written in place keeps its rights in any case."""
        instant, done = super().instant()
        return (instant, done) if self.scene.layout == "name" else (range(0), len(self.calls))

    def ending(self, ran):
        """Returns how a command ended: status, errors, FILE and journal, and the rights of both."""
        return *super().ending(ran), self.rights()

    def rights(self):
        """Returns mode, owner and group of FILE and of its journal, if it is there."""
        names = [self.scene.file + end for end in ("", ".tfundo")]
        files = [os.stat(name) for name in names if os.path.exists(name)]
        return [(stat.S_IMODE(file.st_mode), file.st_uid, file.st_gid) for file in files]

    def judge_written(self, status, errors, files, rights, is_done):
        """Judges whether the new rights are kept, and what became of the content of both files."""
        # the next command has run since, and keeps them too
        is_kept = self.rights() == rights and rights[self.at] == self.alone[3][self.at]
        if self.found == self.alone:
            return "before it was read"
        if is_kept and status == 1 and files == self.old:
            return "refused" if (status, errors) == REFUSED else "refused while it was read"
        is_saved = is_kept and status == 0 and files == self.new
        return "after it was saved" if is_saved and is_done else "kept" if is_saved else "lost"


def try_rights(program, layout, history, command, file):
    """Lets another program change the rights of a file at each call of a command."""
    folder = program.folder(f"rights {layout} {history} {command} {file}")
    scene = Scene(program, f"{folder}/s", layout, history)
    check = Check(f"{command} of {scene}, another program changes the rights of {file}", "runs", 25)
    for way in WAYS:
        # only root gives a file away
        if way == "mode" or os.geteuid() == 0:
            Rights(check, scene, command, way, file).run()
    check.require(check.outcomes["refused"] > 0, "it is never refused")
    return check


JOBS = [(try_rights, *command) for command in COMMANDS]
