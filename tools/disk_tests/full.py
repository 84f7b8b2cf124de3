"""A disk is full, to the last bytes or the last files, when a command saves."""
import contextlib
import os
import shutil

import images
from program import Check
from scenes import COMMANDS, TEXT, Scene, long_text, name_of

# How many runs there are at least.
LEAST = {"btrfs": 130, "ext4": 500, "tmpfs": 500}
# The number of small files on a copy-on-write disk, and how many of them are removed.
SPARES, REMOVED = 64, [*range(0, 32, 2), 32, 48, 64]
SPARE_SIZE = 1 << 16


def fill_file(name, count, piece):
    """Appends pieces to a file until the disk is full, at most `count` (None is no limit)."""
    with open(name, "ab", buffering=0) as file:
        with contextlib.suppress(OSError):
            while count is None or count > 0:
                file.write(piece)
                count = None if count is None else count - 1
        with contextlib.suppress(OSError):
            os.fsync(file.fileno())


class Disk:
    """A disk whose free space is known to the byte."""

    def __init__(self, folder):
        self.folder = folder
        self.filler = f"{folder}/filler"

    def ways(self, text):
        """Returns how much may be left: kilobytes, or a number of files."""
        kilobytes = [("kilobytes", left) for left in range(80 if len(text) > 1000 else 16)]
        return kilobytes + [("files", left) for left in range(3)]

    def free_bytes(self):
        """Returns how many bytes are free."""
        found = os.statvfs(self.folder)
        return found.f_bavail * found.f_frsize

    def fill(self, way, left):
        """Fills the disk until only this much is left."""
        if way == "files":
            os.mkdir(f"{self.folder}/files")
            for number in range(max(0, os.statvfs(self.folder).f_ffree - left)):
                with contextlib.suppress(OSError):
                    with open(f"{self.folder}/files/{number}", "w", encoding="utf-8"):
                        pass
            return
        while (more := (self.free_bytes() - left * 1024) // 1024) > 0:
            size = os.path.exists(self.filler) and os.path.getsize(self.filler)
            fill_file(self.filler, more, bytes(1024))
            if os.path.getsize(self.filler) == size:
                break

    def free(self):
        """Removes what filled the disk."""
        with contextlib.suppress(FileNotFoundError):
            os.unlink(self.filler)
        shutil.rmtree(f"{self.folder}/files", ignore_errors=True)


class CopyingDisk(Disk):
    """A copy-on-write disk, which reports its free space roughly: it is filled until it refuses,
    and then a few small files are removed."""

    def __init__(self, folder):
        super().__init__(folder)
        # most of the disk is filled only once
        fill_file(self.filler, 8, bytes(1 << 20))
        for size in (1 << 20, 1 << 16, 1 << 12):
            fill_file(f"{folder}/most", None, bytes(size))
        self.free()

    def ways(self, text):
        """Returns how many small files are removed."""
        return [("spares", left) for left in REMOVED]

    def fill(self, way, left):
        """Fills the disk, and removes small files."""
        for number in range(SPARES):
            fill_file(f"{self.folder}/spare{number}", 1, bytes(SPARE_SIZE))
        for size in (1 << 20, 1 << 16, 1 << 12):
            fill_file(self.filler, None, bytes(size))
        for number in range(left):
            with contextlib.suppress(OSError):
                os.unlink(f"{self.folder}/spare{number}")
        images.run("sync", "-f", self.folder)

    def free(self):
        """Removes what filled the disk, but for what fills most of it."""
        super().free()
        for number in range(SPARES):
            with contextlib.suppress(FileNotFoundError):
                os.unlink(f"{self.folder}/spare{number}")
        images.run("sync", "-f", self.folder)


class Trial:
    """A command on a scene on a full disk."""

    def __init__(self, check, disk, scene, command):
        self.check, self.disk, self.scene, self.command = check, disk, scene, command
        self.old, self.new = (scene.text, scene.journal), scene.after(command)

    def name(self):
        """Says what FILE and journal are."""
        return name_of(self.scene.state(), self.old, self.new)

    def run(self, way, left):
        """Runs the command on the filled disk, and then with free space."""
        scene, program = self.scene, self.scene.program
        self.disk.free()
        scene.begin()
        self.disk.fill(way, left)
        if self.name() != "old":
            self.check.see("lost before the command")
            return
        ran = program.run(scene.folder, self.command)
        at_once, left_over = self.name(), scene.leftovers()
        is_late = scene.state_to_be() == self.new
        program.recover(scene.folder)
        then = self.name()
        self.disk.free()
        program.recover(scene.folder)
        said = ran.stderr.decode().strip()
        where = (self.command, "of", scene, f"of {len(scene.text)} bytes,", left, way, "left:")
        where += ("status", ran.returncode, said, at_once, left_over, then)
        self.check.see(f"status {ran.returncode} {'late' if is_late else at_once}")
        self.check.require(not left_over or is_late, "left", *where)
        self.check.require(not scene.lost(), "lost", *where, scene.lost())
        if isinstance(self.disk, CopyingDisk) and scene.layout == "names":
            # not covered: writing in place needs free space on such a disk
            return
        wanted = "new" if ran.returncode == 0 else "old"
        self.check.require(at_once == wanted or is_late, "torn", *where)
        self.check.require("mixed" not in (then, self.name()), "then torn", *where, self.name())
        if self.name() == "old":
            program.run(scene.folder, self.command)
        self.check.require(self.name() == "new", "no success once there is space", *where)


@contextlib.contextmanager
def small_disk(program, kind, name):
    """Makes and mounts a small disk."""
    folder = program.folder(name)
    image = f"{program.temp}/{name}.image"
    if kind == "tmpfs":
        with images.mounted("tmpfs", folder, "size=2m,nr_inodes=64", "tmpfs"):
            yield Disk(folder)
    elif kind == "ext4":
        images.make(image, kind, "8M", ["-m", "0", "-N", "64"])
        with images.mounted(image, folder):
            yield Disk(folder)
    else:
        images.make(image, kind, "120M", ["-M"])
        with images.mounted(image, folder, "loop,max_inline=0"):
            yield CopyingDisk(folder)


def fill(program, kind, layout):
    """Tries all commands on a full disk of a kind."""
    check = Check(f"full, {kind}, FILE by {layout}", least=LEAST[kind])
    with small_disk(program, kind, f"full-{kind}-{layout}") as disk:
        for text in (TEXT, long_text(600)):
            for history, command in COMMANDS:
                scene = Scene(program, f"{disk.folder}/s", layout, history, text=text)
                trial = Trial(check, disk, scene, command)
                for way, left in disk.ways(text) if trial.new != trial.old else []:
                    trial.run(way, left)
    return check


JOBS = [
    (fill, "btrfs", "name"),
    (fill, "btrfs", "link"),
    (fill, "btrfs", "names"),
    (fill, "ext4", "name"),
    (fill, "ext4", "names"),
    (fill, "tmpfs", "name"),
    (fill, "tmpfs", "links"),
    (fill, "tmpfs", "names"),
]
