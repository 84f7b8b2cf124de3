"""A journal that is a link leads straight to a journal of somebody who may have one there, or a
command is refused; a new journal or a new text that is a link refuses it. Nothing else that a link
leads to is read, changed or removed, nor anything beside it. And nothing is removed before the
journal was decoded."""
import os

from commands import FILE, JOURNAL, NEW_JOURNAL, NEW_TEXT, RECORD, Place
from program import Check, Missing

# The name of what is in the folder `home`, and its content; None: nothing is there.
NOTES, EMPTY, KEPT, MISSING = "../home/notes", "../home/empty", "../home/x.tfundo", "../home/no"

CONTENTS = {
    NOTES: b"my notes\n",
    # what a command of 0.7.4 removed unread
    NOTES + ".new": b"the only copy\n",
    NOTES + ".tfundo.new": b"the only copy\n",
    EMPTY: b"",
    EMPTY + ".new": b"",
    KEPT: RECORD,
    "../home/record": RECORD,
    "../home/record.new": RECORD,
    "../home/x.tfundo.old": RECORD,
    "../home/notes.tfundo": b"my notes\n",
}

# What the journal may be a link to, and is refused.
NO_JOURNALS = [
    NOTES,
    EMPTY,
    "../home/record",
    KEPT + ".old",
    MISSING,
    MISSING + ".tfundo",
    "../home",
    "../here/main.tf",
    "/dev/null",
    JOURNAL,
]

# What a new journal or a new text may be a link to.
ANYTHING = [NOTES, EMPTY, KEPT, "../home/record", MISSING, "../home", JOURNAL]


class Linked(Place):
    """FILE beside a folder with the files of somebody else."""

    def begin(self, text=None):
        """Makes both folders."""
        super().begin(*([text] if text else []))
        for name, content in CONTENTS.items():
            self.make(name, content)

    def of(self, *links, **files):
        """Returns what makes some links, each a name and where it leads to, and the journal."""

        def make():
            self.begin()
            for name, content in files.items():
                self.make({"journal": JOURNAL, "text": NEW_TEXT}[name], content)
            for name, to in links:
                self.link(name, to)

        return make


def try_no_journals(program):
    """The journal is a link to what is no journal."""
    check = Check("a journal that is a link to no journal", "commands", 70)
    place = Linked(program, "links no journals")
    for to in NO_JOURNALS:
        place.require_refused(check, place.of((JOURNAL, to)), to)
        # by one link more, which has the name of a journal
        both = place.of((JOURNAL, "../home/l.tfundo"), ("../home/l.tfundo", "../here/" + to))
        if not to.startswith("/"):
            place.require_refused(check, both, f"two links to {to}")
    # a link to a link, to a journal
    both = place.of((JOURNAL, "../home/l.tfundo"), ("../home/l.tfundo", "x.tfundo"))
    place.require_refused(check, both, "two links to a journal")
    # with what an interrupted command has left
    for to in (NOTES, EMPTY):
        place.require_refused(check, place.of((JOURNAL, to), text=b"half"), f"{to}, a new text")
    return check


def try_new_files(program):
    """A new journal or a new text is a link."""
    check = Check("a new journal or text that is a link", "commands", 140)
    place = Linked(program, "links new files")
    for name in (NEW_JOURNAL, NEW_TEXT):
        for to in ANYTHING:
            what = f"{name} to {to}"
            place.require_refused(check, place.of((name, to)), what)
            place.require_refused(check, place.of((name, to), journal=RECORD), f"{what}, journal")
    # beside the journal that a link leads to
    for to in (NOTES, EMPTY, MISSING):
        links = place.of((JOURNAL, KEPT), (KEPT + ".new", to))
        place.require_refused(check, links, f"the journal's new one to {to}")
    return check


def try_journals(program):
    """The journal is a link to a journal: it stays one, and the new journal is beside what it leads
    to."""
    check = Check("a journal that is a link to a journal", "commands", 10)
    place = Linked(program, "links journals")
    one = place.of((JOURNAL, KEPT))

    def left():
        one()
        place.make(KEPT, b"")
        place.make(KEPT + ".new", RECORD)

    for what, make in (("a link", one), ("a new one is left", left)):
        place.require_accepted(check, make, what, KEPT, KEPT + ".new")
        is_link = os.path.islink(place.path(JOURNAL))
        check.require(is_link, "it is no link any more", what)
    one()
    calls = program.calls(place.folder, "fmt")
    check.require("rename x.tfundo.new" in calls, "no new journal beside it", calls)
    return check


def try_owners(program):
    """The link to the journal belongs to the caller, or to the owner of what it leads to."""
    if os.geteuid() != 0:
        raise Missing("it needs root")
    check = Check("a journal that is a link of another user", "commands", 38)
    place = Linked(program, "links owners")
    # owners of FILE, of the link, of the journal; whether it is accepted
    for file, link, journal, is_accepted in [
        (0, 1000, 0, False),
        (1000, 1000, 0, False),
        (1000, 1001, 1000, False),
        # the journal has to be accepted, too
        (0, 1000, 1000, False),
        (1000, 1000, 1000, True),
        (1000, 0, 1000, True),
    ]:

        def make():
            place.of((JOURNAL, KEPT))()
            os.lchown(place.path(JOURNAL), link, link)
            os.chown(place.path(KEPT), journal, journal)
            os.chown(place.path(FILE), file, file)
            for folder in (place.folder, place.home):
                os.chown(folder, 1000, 1000)

        what = f"FILE of {file}, a link of {link}, a journal of {journal}"
        if is_accepted:
            place.require_accepted(check, make, what, KEPT, KEPT + ".new")
        else:
            place.require_refused(check, make, what)
    return check


def try_undecoded(program):
    """The journal can't be decoded: the new files stay."""
    check = Check("a journal that can't be decoded, beside new files", "commands", 42)
    place = Linked(program, "links undecoded")
    errors = b"tfk: main.tf: journal: byte 0: bad head\n"
    for text, journal in (
        (b"half", None),
        (b"half", b"half"),
        (b"half", RECORD),
        (None, b"half"),
        (None, RECORD),
    ):

        def make():
            place.of(journal=b"my notes\n")()
            for name, content in ((NEW_TEXT, text), (NEW_JOURNAL, journal)):
                if content is not None:
                    place.make(name, content)

        what = f"a new text {text} and a new journal {journal}"
        place.require_refused(check, make, what, errors)
    linked = place.of((JOURNAL, "../home/notes.tfundo"), text=b"half")
    place.require_refused(check, linked, "a link to it, and a new text", errors)
    return check


JOBS = [(try_no_journals,), (try_new_files,), (try_journals,), (try_owners,), (try_undecoded,)]
