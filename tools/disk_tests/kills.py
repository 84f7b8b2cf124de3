"""The program is killed at a random time."""
import contextlib
import random
import subprocess
import time

import images
from program import NEXT_COMMAND, Check
from scenes import COMMANDS, TEXT, Scene, long_text, name_of

LAYOUTS = ["name", "link", "links"]
# How often each command is killed, of how many a second time while the next command recovers.
KILLS, KILLED_TWICE = 40, 0.3


def killed_after(program, scene, command, seconds):
    """Runs a command, and kills it after a time; returns whether it had ended."""
    words = program.words(command)
    quiet = {"stdout": subprocess.DEVNULL, "stderr": subprocess.DEVNULL}
    end = time.monotonic() + seconds
    with subprocess.Popen(words, cwd=scene.folder, **quiet) as running:
        while time.monotonic() < end:
            pass
        running.kill()
        return running.wait() >= 0


def duration(scene, command):
    """Returns how many seconds a command takes."""
    scene.begin()
    begun = time.monotonic()
    scene.program.run(scene.folder, command)
    return time.monotonic() - begun


def kill_often(check, scene, command, chance):
    """Kills a command at random times."""
    old, new, program = (scene.text, scene.journal), scene.after(command), scene.program
    longest = 1.3 * duration(scene, command)
    for _ in range(KILLS):
        scene.begin()
        ended = killed_after(program, scene, command, chance.random() * longest)
        at_once = name_of(scene.state(), old, new) + (", left" if scene.leftovers() else "")
        if chance.random() < KILLED_TWICE:
            killed_after(program, scene, NEXT_COMMAND, chance.random() * 0.001)
        program.recover(scene.folder)
        state = name_of(scene.state(), old, new)
        check.see(("ended " if ended else "killed ") + state)
        where = (command, "of", scene, "at once", at_once)
        check.require(state != "mixed", "mixed", *where)
        check.require(not scene.leftovers(), "left", *where, scene.leftovers())
        check.require(not scene.lost(), "lost", *where, scene.lost())


def kill(program, kind):
    """Kills all commands at random times."""
    check = Check(f"kills, {kind}", least=1000)
    chance = random.Random(f"kills {kind}")
    name = f"kills-{kind}"
    has_disk = kind != "tmpfs"
    disk = images.new_disk(program, name, kind) if has_disk else contextlib.nullcontext()
    with disk:
        folder = program.folder(f"{name}/s")
        for layout in LAYOUTS:
            for text in (TEXT, long_text(4000)):
                for history, command in COMMANDS[2 * (layout == "links") :]:
                    scene = Scene(program, folder, layout, history, text=text)
                    kill_often(check, scene, command, chance)
    return check


JOBS = [(kill, kind) for kind in ("tmpfs", "ext4")]
