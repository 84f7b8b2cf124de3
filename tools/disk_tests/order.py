"""The order in which two commands on one FILE made their calls on names (tools/pair.c), and whether
one of them overtook the other: made a call between the other's last look and what depends on it."""
import collections

# The names of new files, and the names to which they are renamed.
OWN_NAMES = {"main.tf.tfnew": "main.tf", "main.tf.tfundo.new": "main.tf.tfundo"}

# A call on a name of command 1 or 2, and its error, or 0; a wait for the disk has no name.
Call = collections.namedtuple("Call", "command what name error")


def calls_of(lines):
    """Returns the calls that a log has, and the statuses of both commands."""
    calls, statuses = [], []
    for words in map(str.split, lines):
        if words[0] == "ended":
            statuses = [int(status) for status in words[1:]]
        elif words[1] == "fsync":
            calls.append(Call(int(words[0]), "fsync", "", 0))
        else:
            calls.append(Call(int(words[0]), words[1], words[2], int(words[3])))
    return calls, statuses


def changed_names(call):
    """Returns the names that a call has changed."""
    if call.error or call.what not in ("create", "remove", "rename"):
        return set()
    return {call.name, OWN_NAMES.get(call.name)} if call.what == "rename" else {call.name}


def misplaced(calls, names):
    """Returns the first call whose answer does not follow from the calls before it, if any: then
    the log is not the order in which they were made. `names` are there at first."""
    there = set(names)
    for call in calls:
        if not call.name.startswith("main.tf"):
            continue
        if (call.error == 0) != ((call.name in there) != (call.what == "create")):
            return call
        there |= changed_names(call)
        if call.what in ("remove", "rename"):
            there.discard(call.name)
    return None


def last_looks(calls, at):
    """Returns at which call the command that makes call `at` last looked at each name before, since
    it last waited for the disk."""
    looks = {}
    for before in range(at - 1, -1, -1):
        if calls[before].command == calls[at].command:
            if calls[before].what == "fsync":
                break
            if calls[before].what in ("look", "open"):
                looks.setdefault(calls[before].name, before)
    return looks


def overtaken(calls):
    """Returns a rename or removal by one command before which the other changed a name that the
    first had just looked at, with that change; or None. The first has not waited for the disk
    between its look and its call, so it could not have looked later."""
    for at, call in enumerate(calls):
        if call.what in ("rename", "remove"):
            for name, look in last_looks(calls, at).items():
                for between in calls[look + 1 : at]:
                    if between.command != call.command and name in changed_names(between):
                        return call, between
    return None


def is_at_once(calls, command):
    """Whether no call of the other command comes between those of this one."""
    own = [at for at, call in enumerate(calls) if call.command == command]
    return not own or own[-1] - own[0] < len(own)
