"""A file may not have more than a number of bytes (`ulimit -f`). Where FILE or its journal is
written in place, a command that would make a longer one is refused, FILE and its journal are at
once as they were, and no signal ends it. Where they are replaced, the signal ends it as a crash
does, from which the next command recovers; if the signal is ignored, it is refused.
"""
import os
import re
import resource
import signal

from commands import COMMANDS as RESULTS
from commands import FMT, TEXT
from program import Check
from scenes import COMMANDS, Scene, empty, name_of, read, write

# What the process does with the signal that reports a limit.
HANDLERS = {"the signal": signal.SIG_DFL, "the signal ignored": signal.SIG_IGN}

REFUSED = re.compile(rb"tfk: main\.tf: cannot write, (\d+) bytes sent\n")
ENDED = -signal.SIGXFSZ


def limited(number, handler):
    """Returns what a process does before it becomes the program."""

    def limit():
        resource.setrlimit(resource.RLIMIT_FSIZE, (number, number))
        signal.signal(signal.SIGXFSZ, handler)

    return limit


def limits_of(*contents):
    """Returns limits around the length of each content, and in the middle of it."""
    lengths = {len(content or b"") for content in contents}
    return sorted({0, 1} | {n for it in lengths for n in (it // 2, it - 1, it, it + 1) if n >= 0})


def try_scene(program, layout):
    """Runs each command at each limit."""
    check = Check(f"short files, FILE by {layout}", "runs", 150)
    folder = program.folder(f"sizes {layout}")
    for history, command in COMMANDS:
        scene = Scene(program, f"{folder}/s", layout, history)
        old, new = (scene.text, scene.journal), scene.after(command)
        for number in limits_of(*old, *new):
            for what, handler in HANDLERS.items():
                scene.begin()
                ran = program.run(scene.folder, command, preexec_fn=limited(number, handler))
                where = (command, "of", scene, f"{number} bytes,", what, ran.returncode, ran.stderr)
                judge(check, scene, (old, new), number, ran, where)
    return check


def judge(check, scene, files, limit, ran, where):
    """Judges how a command ended, and what is there at once; or, if the signal ended it where files
    are replaced, after the next command."""
    old, new = files
    is_ended = ran.returncode == ENDED and scene.layout != "names"
    if is_ended:
        scene.program.recover(scene.folder)
    state = name_of(scene.state(), old, new)
    check.see(f"status {ran.returncode}, {state}")
    lengths = [len(content or b"") for content in (*new, *old)]
    if limit < max(lengths[:2]):
        check.require(ran.returncode != 0, "not refused", *where)
    elif limit >= max(lengths):
        check.require(ran.returncode == 0, "not saved", *where)
    if ran.returncode == 0:
        check.require(state == "new", "status 0, not new", *where)
    else:
        said = REFUSED.fullmatch(ran.stderr)
        most = 0 if scene.layout == "names" else limit
        is_said = ran.returncode == 1 and said and int(said[1]) <= most
        check.require(is_said or is_ended, "another ending", *where)
        check.require(state == "old", "refused, not old", *where)
    check.require(not scene.leftovers(), "left", *where, scene.leftovers())
    check.require(not scene.lost(), "lost", *where, scene.lost())


def try_three(program):
    """Of three files one is too long, and the signal is ignored: the others are saved."""
    check = Check("short files, one of three is too long", "runs", 1)
    folder = program.folder("sizes three")
    limit = len(RESULTS["fmt"][1]) + len(FMT) + 10
    long_text = TEXT + b"#" * limit + b"\n"
    texts = {"a.tf": TEXT, "b.tf": long_text, "c.tf": TEXT}
    saved = {"a.tf": RESULTS["fmt"][1], "a.tf.tfundo": FMT}
    saved |= {"b.tf": long_text, "c.tf": RESULTS["fmt"][1], "c.tf.tfundo": FMT}
    empty(folder)
    for name, text in texts.items():
        write(f"{folder}/{name}", text)
    before = limited(limit, signal.SIG_IGN)
    ran = program.run(folder, "fmt a.tf b.tf", "c.tf", preexec_fn=before)
    check.see(f"status {ran.returncode}")
    said = (ran.returncode, ran.stdout, ran.stderr)
    errors = rb"tfk: b\.tf: cannot write, \d+ bytes sent\n"
    is_reported = said[:2] == (1, b"a.tf\nc.tf\n") and re.fullmatch(errors, ran.stderr)
    check.require(is_reported, "not one is refused", said)
    found = {name: read(f"{folder}/{name}") for name in os.listdir(folder)}
    check.require(found == saved, "not as wanted", found)
    return check


JOBS = [(try_scene, layout) for layout in ("name", "link", "journal link", "names")]
JOBS += [(try_three,)]
