"""A file may not have more than a number of bytes: the system writes less, and then refuses, or
ends the program by a signal. A command that it refuses leaves all as it was. The signal ends none
where files are written in place; else it is a crash."""
import resource
import signal

from program import Check
from scenes import COMMANDS, Scene, name_of

# More bytes than FILE or its journal has.
MOST_BYTES = 130


def limited(number, handler):
    """Returns what a process does before it becomes the program."""

    def limit():
        resource.setrlimit(resource.RLIMIT_FSIZE, (number, number))
        signal.signal(signal.SIGXFSZ, handler)

    return limit


def limit_bytes(program, layout):
    """Limits how many bytes a file may have; the signal that reports it is ignored, or kills."""
    check = Check(f"limits, 0 to {MOST_BYTES - 1} bytes, FILE by {layout}", least=2000)
    wanted = {0: "new", 1: "old"}
    folder = program.folder(f"limits-{layout}")
    for history, command in COMMANDS:
        scene = Scene(program, folder, layout, history)
        old, new = (scene.text, scene.journal), scene.after(command)
        for number in range(MOST_BYTES):
            for handler in (signal.SIG_IGN, signal.SIG_DFL):
                scene.begin()
                before = limited(number, handler)
                ran = program.run(scene.folder, command, preexec_fn=before)
                at_once = name_of(scene.state(), old, new)
                where = (command, "of", scene, number, "bytes, status", ran.returncode, at_once)
                # a crash, from which the next command recovers
                is_ended = ran.returncode == -signal.SIGXFSZ and layout != "names"
                is_said = is_ended or at_once == wanted.get(ran.returncode)
                check.require(is_said, "not as it says", *where)
                left = scene.leftovers()
                check.require(is_ended or not left, "left at once", *where, left)
                program.recover(scene.folder)
                state = name_of(scene.state(), old, new)
                check.see(state)
                check.require(state == at_once, "then another", *where, state)
                check.require(not scene.leftovers(), "left", *where, scene.leftovers())
                is_short = number < max(map(len, new))
                check.require(not is_short or state == "old", "longer than the limit", *where)
    return check


JOBS = [(limit_bytes, layout) for layout in ("name", "link", "names")]
