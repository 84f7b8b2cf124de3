"""What has the name of the journal, of a new journal or of a new text is no regular file: a command
is refused at once, waits for nobody, and changes nothing. Nor does it wait if a pipe replaces one
of these while it works."""
import os
import socket
import stat
import subprocess

from commands import COMMANDS, FILE, JOURNAL, NEW_JOURNAL, NEW_TEXT, RECORD, SECONDS, TEXT, Place
from program import Check, Missing
from writers import INSTANTS

# /dev/null and /dev/zero
DEVICES = {"null device": os.makedev(1, 3), "zero device": os.makedev(1, 5)}

KINDS = ["pipe", "socket", "folder", *DEVICES]


def make_kind(kind, path):
    """Makes what is no regular file."""
    if kind == "pipe":
        os.mkfifo(path)
    elif kind == "folder":
        os.mkdir(path)
    elif kind == "socket":
        # a socket's name may have 107 bytes
        folder, name = os.path.split(path)
        here = os.open(".", os.O_RDONLY)
        os.chdir(folder)
        with socket.socket(socket.AF_UNIX) as made:
            made.bind(name)
        os.fchdir(here)
        os.close(here)
    else:
        os.mknod(path, stat.S_IFCHR | 0o666, DEVICES[kind])


def try_kind(program, kind):
    """Puts it in the place of each of the files, with and without a journal; and where a journal's
    link leads to."""
    if kind in DEVICES and os.geteuid() != 0:
        raise Missing("it needs root")
    check = Check(f"a {kind} for a journal or a new file", "commands", 42)
    place = Place(program, f"kinds {kind}")
    for name, has_journal in (
        (JOURNAL, False),
        (NEW_JOURNAL, False),
        (NEW_JOURNAL, True),
        (NEW_TEXT, False),
        (NEW_TEXT, True),
    ):

        def make():
            place.begin()
            if has_journal:
                place.make(JOURNAL, RECORD)
            make_kind(kind, place.path(name))

        place.require_refused(check, make, f"{name}{', journal' if has_journal else ''}")

    def make_linked():
        place.begin()
        place.link(JOURNAL, "../home/x.tfundo")
        make_kind(kind, f"{place.home}/x.tfundo")

    place.require_refused(check, make_linked, "what the journal leads to")
    return check


def until_opened(calls, name):
    """Returns the calls before the next one that opens a file."""
    opened = f"openat {name}"
    return calls[: calls.index(opened)] if opened in calls else calls


def try_replaced(program, command):
    """A pipe replaces each of the files at each call."""
    check = Check(f"{command}, a pipe replaces a file at each call", "runs", 100)
    place = Place(program, f"kinds replaced {command}")
    texts = (TEXT, COMMANDS[command][1])
    for name in (JOURNAL, NEW_JOURNAL, NEW_TEXT):

        def begin():
            place.begin()
            os.mkfifo(place.path("pipe"))
            place.make(JOURNAL, RECORD)
            if name != JOURNAL:
                place.make(name, b"half")

        begin()
        calls = program.calls(place.folder, command)
        for number, call in enumerate(calls, 1):
            begin()
            try:
                how = f"run:mv -f pipe {name}"
                program.meet(place.folder, command, how, number, timeout=SECONDS)
                check.see("ends")
            except subprocess.TimeoutExpired:
                # nothing is promised of the instant between a look and an opening
                is_late = f"statx {name}" not in until_opened(calls[number - 1 :], name)
                check.see("waits in the last instant" if is_late else "waits")
                check.require(is_late, "waits", name, "at call", number, call)
            # nothing is promised of the instant before the text is renamed
            last, count = INSTANTS[NEW_TEXT]
            is_pipe = stat.S_ISFIFO(os.stat(place.path(FILE)).st_mode)
            is_kept = last in calls[number - 1 :][:count] if is_pipe else place.read(FILE) in texts
            check.require(is_kept, "another text", name, "at call", number, call)
    return check


JOBS = [(try_kind, kind) for kind in KINDS]
JOBS += [(try_replaced, command) for command in ("fmt", "revert")]
