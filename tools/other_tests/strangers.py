"""A journal, a new journal or a new text of another user is beside FILE, whose folder more than its
owner may write: a command is refused, reads nothing of it and changes nothing, unless that user may
change FILE anyway."""
import os

from commands import COMMANDS, FILE, JOURNAL, NEW_JOURNAL, NEW_TEXT, RECORD, Place
from program import Check, Missing
from scenes import changes, state_of, write

ROOT, ALICE, BOB, CAROL, EVE, TEAM = 0, 1001, 1002, 1003, 1004, 2000

# Callers: user, group and further groups.
CALLERS = {
    "root": (ROOT, ROOT, []),
    "alice": (ALICE, ALICE, [TEAM]),
    "carol": (CAROL, CAROL, [TEAM]),
}

# Mode, owner and group of the folder, of FILE and of the other user's file; who calls.
REFUSED = [
    ("a file of root", (0o1777, ROOT, ROOT), (0o644, ROOT, ROOT), (0o644, EVE, EVE), "root"),
    ("anybody may write it", (0o1777, ROOT, ROOT), (0o644, ROOT, ROOT), (0o666, EVE, EVE), "root"),
    ("a file of alice", (0o1777, ROOT, ROOT), (0o644, ALICE, ALICE), (0o644, EVE, EVE), "alice"),
    ("her root's", (0o1777, ROOT, ROOT), (0o644, ALICE, ALICE), (0o644, ROOT, ROOT), "alice"),
    ("alice's for root", (0o755, ALICE, ALICE), (0o644, ALICE, ALICE), (0o644, EVE, EVE), "root"),
    ("the folder's owner", (0o755, EVE, EVE), (0o644, ALICE, ALICE), (0o644, EVE, EVE), "root"),
    ("of no team", (0o2775, ALICE, TEAM), (0o664, ALICE, TEAM), (0o664, EVE, EVE), "root"),
    ("no team's FILE", (0o2775, ALICE, TEAM), (0o644, ALICE, TEAM), (0o664, BOB, TEAM), "root"),
    ("all may write", (0o2777, ALICE, TEAM), (0o664, ALICE, TEAM), (0o664, BOB, TEAM), "root"),
    ("other group's here", (0o775, ALICE, EVE), (0o664, ALICE, TEAM), (0o664, BOB, TEAM), "root"),
    ("for carol", (0o2777, ALICE, TEAM), (0o664, ALICE, TEAM), (0o664, BOB, TEAM), "carol"),
]

ACCEPTED = [
    ("the caller's", (0o1777, ROOT, ROOT), (0o644, ALICE, ALICE), (0o644, ROOT, ROOT), "root"),
    ("the owner's", (0o755, ALICE, ALICE), (0o644, ALICE, ALICE), (0o600, ALICE, ALICE), "root"),
    ("all may write FILE", (0o1777, ROOT, ROOT), (0o666, ALICE, ALICE), (0o644, EVE, EVE), "root"),
    ("the team's", (0o2775, ALICE, TEAM), (0o664, ALICE, TEAM), (0o664, BOB, TEAM), "root"),
    ("for alice", (0o2775, ALICE, TEAM), (0o664, ALICE, TEAM), (0o664, BOB, TEAM), "alice"),
    ("for carol", (0o2775, ALICE, TEAM), (0o664, ALICE, TEAM), (0o664, BOB, TEAM), "carol"),
    ("alone in here", (0o755, ALICE, EVE), (0o664, ALICE, TEAM), (0o664, BOB, TEAM), "root"),
]


class Strange(Place):
    """FILE, its own journal or none, and a file of another user with one of the three names."""

    def of(self, row, name, has_own):
        """Returns what makes all that a row says."""
        _, folder, file, strange, caller = row
        user, group, groups = CALLERS[caller]
        self.caller = {"user": user, "group": group, "extra_groups": groups}

        def give(name, mode, owner, group):
            os.chown(self.path(name), owner, group)
            os.chmod(self.path(name), mode)

        def make():
            self.begin()
            give(FILE, *file)
            if has_own:
                # as a journal that was there before
                self.make(JOURNAL, RECORD)
                give(JOURNAL, *file)
            self.make(name, b"half" if name == NEW_TEXT else RECORD)
            give(name, *strange)
            give(".", *folder)

        return make


def need_root():
    """Raises Missing if files can't be given to others."""
    if os.geteuid() != 0:
        raise Missing("it needs root")


def try_refused(program, name):
    """A file of somebody who may not change FILE."""
    need_root()
    check = Check(f"{name} of another user", "commands", 70)
    place = Strange(program, f"strangers refused {name}")
    for row in REFUSED:
        for has_own in {name != JOURNAL, name == NEW_TEXT}:
            what = row[0] + (", beside a journal" if has_own else "")
            place.require_refused(check, place.of(row, name, has_own), what)
    return check


def try_accepted(program, name):
    """A file of somebody who may change FILE."""
    need_root()
    check = Check(f"{name} of another user who may change FILE", "commands", 35)
    place = Strange(program, f"strangers accepted {name}")
    for row in ACCEPTED:
        make = place.of(row, name, has_own=name == NEW_TEXT)
        place.require_accepted(check, make, row[0])
    return check


def try_interrupted(program):
    """A new journal may also belong to the owner of the journal: its group was not given yet."""
    need_root()
    check = Check("a new journal of the journal's owner", "commands", 12)
    place = Strange(program, "strangers interrupted")
    team = ("the team's", (0o2775, ALICE, TEAM), (0o664, ALICE, TEAM))
    for owner, require in ((BOB, place.require_accepted), (EVE, place.require_refused)):
        new = place.of((*team, (0o600, owner, owner), "root"), NEW_JOURNAL, has_own=False)

        def make():
            new()
            place.make(JOURNAL, RECORD)
            os.chown(place.path(JOURNAL), BOB, TEAM)
            os.chmod(place.path(JOURNAL), 0o664)
            # nothing is written before a file is given
            place.make(NEW_TEXT, b"")
            write(place.path(NEW_JOURNAL), b"")

        require(check, make, f"of {owner}")
    return check


def try_adopted(program):
    """A new journal of the journal's owner that is there alone, and would be no journal of the
    team's: it is taken, or refused, and then stays where it is."""
    need_root()
    check = Check("a new journal of the journal's owner, alone", "commands", 5)
    place = Strange(program, "strangers adopted")
    row = ("the team's", (0o2775, ALICE, TEAM), (0o664, ALICE, TEAM), (0o600, BOB, BOB), "root")
    new = place.of(row, NEW_JOURNAL, has_own=False)
    for command, (output, text, record) in COMMANDS.items():
        new()
        place.make(JOURNAL, b"")
        os.chown(place.path(JOURNAL), BOB, TEAM)
        os.chmod(place.path(JOURNAL), 0o664)
        before = state_of(place.folder)
        ran = place.run(command)
        changed = changes(before, state_of(place.folder))
        is_refused = ran[0] == 1 and not changed
        journal = place.read(NEW_JOURNAL if command == "revert --list" else JOURNAL)
        is_taken = ran == (0, output, b"") and (place.read(FILE), journal) == (text, record)
        check.see("taken" if is_taken else "refused" if is_refused else "neither")
        check.require(is_taken or is_refused, "neither", command, ran, changed)
    return check


JOBS = [(function, name) for name in (JOURNAL, NEW_JOURNAL, NEW_TEXT)
        for function in (try_refused, try_accepted)]  # fmt: skip
JOBS += [(try_interrupted,), (try_adopted,)]
