"""Many files are saved at once: power is lost at each call that changes a file, or a disk has no
space for all."""
import contextlib
import os
import subprocess

import images
from program import Check
from scenes import TEXT, empty, name_of, read, write

# Sixteen files in two folders, half of them with a journal.
FILES = [f"{folder}/{number}.tf" for number in range(8) for folder in ("one", "two")]

# How many losses there are at least.
LEAST = 200

# A command that changes nothing, and recovers what an interrupted one left.
NEXT_COMMAND = ["fix", "--disable-rule", "all"]


def text_of(number):
    """Returns a text of some 1,300 bytes that a fmt changes."""
    return TEXT + b"".join(b"# %d and %d\n" % (number, line) for line in range(130))


class Files:
    """Files in a folder, with their journals, before and after a fmt of all of them."""

    def __init__(self, program, folder):
        self.program, self.folder = program, folder
        empty(folder)
        for number, name in enumerate(FILES):
            os.makedirs(os.path.dirname(f"{folder}/{name}"), exist_ok=True)
            write(f"{folder}/{name}", text_of(number))
        self.run(folder, "fix", *FILES[::2])
        self.old = self.states(folder)
        self.run(folder, "fmt", *FILES)
        self.new = self.states(folder)

    def run(self, folder, *words):
        """Runs the program."""
        words = [self.program.path, *words]
        return subprocess.run(words, cwd=folder, capture_output=True, check=False)

    def states(self, folder):
        """Returns the content of each file and of its journal."""
        return [(read(f"{folder}/{name}"), read(f"{folder}/{name}.tfundo")) for name in FILES]

    def begin(self):
        """Restores the state before the command."""
        for name, (text, journal) in zip(FILES, self.old):
            for end in (".tfundo", ".tfundo.new", ".tfnew"):
                with contextlib.suppress(FileNotFoundError):
                    os.unlink(f"{self.folder}/{name}{end}")
            write(f"{self.folder}/{name}", text)
            if journal is not None:
                write(f"{self.folder}/{name}.tfundo", journal)

    def meet(self, how, number):
        """Runs the fmt of all files, with `how` at call `number` of those that may change a file.
        Returns these calls."""
        log = f"{self.program.temp}/calls.{os.getpid()}"
        words = [self.program.tracer, "-c", log, how, str(number), self.program.path, "fmt", *FILES]
        subprocess.run(words, cwd=self.folder, capture_output=True, check=False, timeout=600)
        with open(log, encoding="utf-8", errors="replace") as lines:
            return lines.read().split("\n")[:-1]

    def judge(self, check, folder, call):
        """Judges what a loss of power left, after the next command has run."""
        self.run(folder, *NEXT_COMMAND, *FILES)
        for name, found, old, new in zip(FILES, self.states(folder), self.old, self.new):
            state = name_of(found, old, new)
            check.see(state)
            parts = [name_of(*part) for part in zip(found, old, new)]
            check.require(state != "mixed", "mixed", name, "at", call, *parts)
            for end in (".tfundo.new", ".tfnew"):
                check.require(read(f"{folder}/{name}{end}") is None, "left", name, "at", call)


def lose_power_of_many(program, kind):
    """Loses the power before each call of a fmt of all files that may change one."""
    check = Check(f"batches, {kind}", "files", LEAST * len(FILES))
    temp = program.folder(f"batches-{kind}")
    image, live, lost = f"{temp}/image", f"{temp}/live", f"{temp}/lost"
    copying = f"cp --sparse=always {image} {image}.lost"
    images.make(image, kind)
    with images.mounted(image, live):
        files = Files(program, f"{live}/s")
        files.begin()
        calls = files.meet("list", 0)
        for number in range(1, len(calls) + 1):
            files.begin()
            images.run("sync", "-f", live)
            files.meet(f"run:{copying}", number)
            with images.mounted(f"{image}.lost", lost, images.KINDS[kind][2]):
                files.judge(check, f"{lost}/s", f"call {number} {calls[number - 1]}")
    both = check.outcomes["old"] and check.outcomes["new"]
    check.require(both, "not both old and new were seen", "are the copies mounted?")
    return check


def fill(program, sizes, spare, wanted):
    """Runs a fmt of three files of `sizes` kilobytes on a tmpfs that has `spare` kilobytes left.
    The files of `wanted` have to be saved, each other one reported and as before."""
    check = Check(f"batches, space for {' '.join(wanted)} of three")
    names = ["a.tf", "b.tf", "c.tf"]
    texts = {name: b"x=1\n" + b"#" * (size * 1024 - 8) + b"\n" for name, size in zip(names, sizes)}
    size = sum(sizes) + spare
    with images.mounted("tmpfs", program.folder("batches-tmpfs"), f"size={size}k", "tmpfs") as disk:
        for name, text in texts.items():
            write(f"{disk}/{name}", text)
        words = [program.path, "fmt", *names]
        ran = subprocess.run(words, cwd=disk, capture_output=True, check=False)
        check.see(f"status {ran.returncode}")
        said = (ran.stdout.decode().split(), ran.stderr.decode())
        for name, text in texts.items():
            is_new = read(f"{disk}/{name}") == text.replace(b"x=1", b"x = 1")
            is_old = read(f"{disk}/{name}") == text and not os.path.exists(f"{disk}/{name}.tfundo")
            check.require(is_new if name in wanted else is_old, "neither old nor new", name, said)
            is_reported = f"tfk: {name}: cannot write" in said[1]
            check.require(is_reported != (name in wanted), "not reported", name, said)
        check.require(said[0] == wanted, "other names", said)
        left = [name for name in os.listdir(disk) if name.endswith("new")]
        check.require(not left, "left", left)
    return check


def space_for_one_at_a_time(program):
    """There is space for the new files of one, not of two: what is refused is tried again alone."""
    return fill(program, (64, 64, 64), 80, ["a.tf", "b.tf", "c.tf"])


def space_for_the_second(program):
    """There is space for the new files of the second alone."""
    return fill(program, (128, 32, 128), 64, ["b.tf"])


JOBS = [
    *[(lose_power_of_many, kind) for kind in ("btrfs", "ext4", "xfs")],
    (space_for_one_at_a_time,),
    (space_for_the_second,),
]
