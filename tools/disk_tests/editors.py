"""An editor saves FILE at each call of a command."""
import images
from program import Check
from scenes import COMMANDS, RENAME, Scene, read, write

KIND = "ext4"
EDIT = b'// edited by hand\na=2 // y\nbb = "${c}"\nnew=1\n'
EDIT_OF_SAME_LENGTH = b'// x\na=7 // y\nbb = "${c}"\n'
EDITORS = {
    "writes": "cp ../edit main.tf",
    "replaces": "cp ../edit main.tf~; mv main.tf~ main.tf",
    "writes as many bytes": "cp ../same main.tf",
}
REFUSED = "tfk: main.tf: cannot write, 0 bytes sent"


class Edited:
    """A command on a scene, and an editor that saves FILE at one of its calls."""

    def __init__(self, check, scene, command, editor):
        self.check, self.scene, self.command, self.editor = check, scene, command, editor
        self.edit = EDIT_OF_SAME_LENGTH if "as many" in editor else EDIT
        scene.begin()
        self.calls = scene.program.calls(scene.folder, command)
        scene.begin()
        write(scene.file, self.edit)
        self.alone = self.ending(scene.program.run(scene.folder, command))

    def ending(self, ran):
        """Returns how a command ended: status, errors, FILE."""
        return ran.returncode, ran.stderr.decode().strip(), read(self.scene.file)

    def run(self):
        """Lets the editor save at each call."""
        endings = [self.save_at(number) for number in range(1, len(self.calls))]
        if RENAME in self.calls:
            instant = {self.calls.index(RENAME)}
        else:
            # FILE is written in place, after the look that refuses an editor's text
            refused = [at for at, ending in enumerate(endings) if ending.startswith("refused")]
            look = max(refused, default=len(endings))
            instant = range(look + 1, len(endings))
            # it looks at the handle
            is_look = refused and self.calls[look - 1 : look + 1] == ["openat main.tf", "statx "]
            self.check.require(is_look, "no last look at FILE", *self.where(look - 1))
        for at, ending in enumerate(endings):
            in_time = ending == "lost" and at in instant
            self.check.see("lost in the last instant" if in_time else ending)
            self.check.require(in_time or ending != "lost", "lost", *self.where(at))

    def where(self, at):
        """Says which call was met, of which command."""
        call = f"call {at + 1} {self.calls[at]}"
        return (self.editor, "at", call, "of", self.command, "of", self.scene)

    def save_at(self, number):
        """Lets the editor save at one call; judges what is next to FILE, and says what FILE is."""
        scene = self.scene
        scene.begin()
        how = "run:" + EDITORS[self.editor]
        ran = scene.program.meet(scene.folder, self.command, how, number)
        status, errors, text = self.ending(ran)
        where = (*self.where(number - 1), "status", status, errors)
        is_refused = status == 1 and text == self.edit
        if is_refused:
            self.check.require(scene.state()[1] == scene.journal, "refused, journal new", *where)
        self.check.require(not scene.leftovers(), "left", *where, scene.leftovers())
        scene.program.recover(scene.folder)
        same = read(scene.file) == text and not scene.leftovers()
        self.check.require(same, "changed by the next command", *where)
        if (status, errors, text) == self.alone:
            return "before FILE was read"
        if is_refused:
            return "refused" if errors == REFUSED else "refused as no Terraform"
        is_after = RENAME in self.calls[: number - 1]
        return "after the rename" if status == 0 and text == self.edit and is_after else "lost"


def edit(program, layout):
    """Tries each editor at each call of each command."""
    check = Check(f"editors, FILE by {layout}", "saves", 300)
    with images.new_disk(program, f"editors-{layout}", KIND) as disk:
        write(f"{disk}/edit", EDIT)
        write(f"{disk}/same", EDIT_OF_SAME_LENGTH)
        for history, command in COMMANDS:
            scene = Scene(program, f"{disk}/s", layout, history)
            for editor in EDITORS:
                # a second name does not outlast an editor that replaces the first
                if layout == "name" or editor != "replaces":
                    Edited(check, scene, command, editor).run()
    return check


JOBS = [(edit, layout) for layout in ("name", "names")]
