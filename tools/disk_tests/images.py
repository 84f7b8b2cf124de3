"""File systems in images on loop devices: made, mounted, and copied as after a loss of power."""
import contextlib
import os
import shutil
import subprocess

from program import Missing

# The size of an image of each kind, how it is made, and how a copy is mounted next to it.
KINDS = {
    "ext2": ("16M", ["mkfs.ext2", "-q", "-F"], "loop"),
    "ext4": ("16M", ["mkfs.ext4", "-q", "-F", "-b", "1024"], "loop"),
    "xfs": ("320M", ["mkfs.xfs", "-q", "-f"], "loop,nouuid"),
    "btrfs": ("128M", ["mkfs.btrfs", "-q", "-f"], "loop"),
}


def run(*words):
    """Runs a program that has to succeed."""
    subprocess.run(words, check=True, capture_output=True)


def need(kind):
    """Raises Missing if a file system of this kind can't be made and mounted here."""
    with open("/proc/filesystems", encoding="utf-8") as kinds:
        if kind not in kinds.read().split():
            raise Missing(f"this kernel has no {kind}")
    if kind in KINDS and not shutil.which("mkfs." + kind):
        package = {"btrfs": "btrfs-progs", "xfs": "xfsprogs"}.get(kind, "e2fsprogs")
        raise Missing(f"there is no mkfs.{kind} (Debian: {package})")


def make(image, kind, size=None, options=()):
    """Makes an image with an empty file system."""
    need(kind)
    usual, words, _ = KINDS[kind]
    with open(image, "wb") as file:
        file.truncate(0)
    run("truncate", "-s", size or usual, image)
    run(*words, *options, image)


@contextlib.contextmanager
def mounted(source, folder, options="loop", kind=None):
    """Mounts an image, or a tmpfs, on a folder for as long as the context lasts."""
    os.makedirs(folder, exist_ok=True)
    run("mount", *(["-t", kind] if kind else []), "-o", options, source, folder)
    try:
        yield folder
    finally:
        run("umount", folder)


@contextlib.contextmanager
def new_disk(program, name, kind):
    """Makes and mounts a file system in the folder for tests."""
    image = f"{program.temp}/{name}.image"
    make(image, kind)
    with mounted(image, program.folder(name)) as folder:
        yield folder
    os.unlink(image)
