"""What an interrupted command, a person or a repository may leave next to FILE: a new journal
alone, or a journal that is a link to nothing."""
import os
import shutil

from program import KILLED, Check
from scenes import RENAME, Scene, write

# What is in the place of a journal or a new one, and how the message of a command may end.
REFUSED = {"link": "cannot read", "new folder": ("cannot read", "cannot write, 0 bytes sent")}
STRAY_TEXT = b"// another file\nresource x y {\nzz=1 // here\n}\n"


def judge(check, what, scene, wanted, *where):
    """Runs the next command, and notes what FILE and journal are not as wanted after it."""
    ran = scene.program.recover(scene.folder)
    where += (ran.stderr.decode().strip(),)
    check.see(what)
    names = ("FILE", "journal")
    wrong = [name for name, one, two in zip(names, scene.state(), wanted) if one != two]
    check.require(not wrong, f"{what}: another {' and '.join(wrong)}", *where)
    check.require(not scene.leftovers(), f"{what}: left", *where, scene.leftovers())


def try_strays(program):
    """A new journal is there alone that was never FILE's: it is removed."""
    check = Check("journals, a stray FILE.tfundo.new", "files", 200)
    other = Scene(program, program.folder("stray-other"), "name", "fix fmt", text=STRAY_TEXT)
    for layout in ("name", "link", "links"):
        scene = Scene(program, program.folder(f"stray-{layout}"), layout, "fix fmt")
        strays = {"junk": b"junk\n", "text": scene.text}
        strays |= {f"{end} bytes": other.journal[:end] for end in range(len(other.journal) + 1)}
        for name, stray in strays.items():
            scene.begin()
            write(scene.real_journal + ".new", stray)
            judge(check, "stray", scene, (scene.text, scene.journal), name, "of", scene)
            ran = program.run(scene.folder, "revert")
            check.require(ran.returncode == 0, "no revert", name, "of", scene, ran.stderr)
    return check


def each_kill(scene, command):
    """Kills a command before each of its calls, and yields the call."""
    scene.begin()
    for number, call in enumerate(scene.program.calls(scene.folder, command), 1):
        scene.begin()
        ran = scene.program.meet(scene.folder, command, "kill-before", number)
        assert ran.returncode == KILLED, ran
        yield call


def try_swept(program):
    """After a kill at each call somebody removes FILE.tfnew: text and journal still fit."""
    check = Check("journals, FILE.tfnew was removed after a kill", "kills", 100)
    for layout in ("name", "link"):
        for history, command in [("fix", "fmt"), ("fix", "revert"), ("fix fmt", "revert")]:
            scene = Scene(program, program.folder(f"swept-{layout}"), layout, history)
            old, new = (scene.text, scene.journal), scene.after(command)
            for call in each_kill(scene, command):
                if os.path.exists(scene.real_file + ".tfnew"):
                    os.unlink(scene.real_file + ".tfnew")
                wanted = new if scene.state()[0] == new[0] else old
                judge(check, "swept", scene, wanted, "at", call, "of", command, "of", scene)
    return check


def try_other_name(program):
    """After a kill under the name of a link a command runs under the name that it leads to."""
    check = Check("journals, a command under another name after a kill", "kills", 60)
    scene = Scene(program, program.folder("other-name"), "link", "fix")
    new = scene.after("fmt")
    for second in ("revert --take 4294967295", "fmt"):
        for call in each_kill(scene, "fmt"):
            program.run(scene.folder, second, "real/main.tf")
            for name in ("real/main.tf.tfundo", "real/main.tf.tfundo.new"):
                if os.path.exists(f"{scene.folder}/{name}"):
                    os.unlink(f"{scene.folder}/{name}")
            # the journal of this name has no part in what was done under the other
            text, waiting = scene.state_to_be()
            # an empty one can be that of a revert: it is adopted if the old one doesn't fit either
            is_put = text == new[0] and waiting in (new[1], b"")
            wanted = (text, waiting if is_put else scene.state()[1])
            judge(check, "other name", scene, wanted, second, "after a kill at", call)
    return check


def try_edited(program):
    """After a kill between the renames FILE is edited: the history of the killed command stays."""
    check = Check("journals, FILE was edited after a kill", "edits", 6)
    for layout in ("name", "link"):
        for history in ("", "fix"):
            scene = Scene(program, program.folder(f"edited-{layout}"), layout, history)
            new = scene.after("fmt")
            for edit in (new[0] + b"z = 1\n", b"z = 1\n" + new[0], b"z = 1\n"):
                scene.begin()
                number = program.calls(scene.folder, "fmt").index(RENAME) + 1
                scene.begin()
                program.meet(scene.folder, "fmt", "kill-after", number)
                write(scene.real_file, edit)
                judge(check, "edited", scene, (edit, new[1]), edit, "of", scene)
    return check


def try_refused(program):
    """A journal that can't be read refuses a command, and nothing is made or removed."""
    check = Check("journals, a journal that is a link to nothing, or a folder", "commands", 6)
    folder = program.folder("refused")
    for command in ("fmt", "fix", "revert"):
        for what in REFUSED:
            scene = Scene(program, f"{folder}/s", "name", "" if what == "link" else "fix")
            scene.begin()
            shutil.rmtree(f"{folder}/to", ignore_errors=True)
            os.mkdir(f"{folder}/to")
            if what == "link":
                os.symlink("../to/nothing", scene.file + ".tfundo")
            else:
                os.mkdir(scene.file + ".tfundo.new")
            before = (scene.state(), scene.leftovers())
            ran = program.run(scene.folder, command)
            said = ran.stderr.decode().strip()
            is_as_before = (scene.state(), scene.leftovers()) == before
            check.see("refused" if ran.returncode == 1 else "not refused")
            is_refused = ran.returncode == 1 and said.endswith(REFUSED[what])
            check.require(is_refused, f"{what}: not refused", command, ran.returncode, said)
            check.require(is_as_before, f"{what}: something changed", command, said)
            check.require(not os.listdir(f"{folder}/to"), f"{what}: made", command, said)
    return check


JOBS = [(try_strays,), (try_swept,), (try_other_name,), (try_edited,), (try_refused,)]
