"""Sessions at one mount, one call at a time in the order of a schedule, and what the report says before its image."""
from collections import defaultdict

from lower_files import MOST_SIZE, Bad
from lower_tree import nodes_of
from plain_tree import Refused, Tree
from texts import path_of, spelled

SLOTS = 16
# The words of lines on the tree that make a call of the same name.
TREE_WORDS = ("mkdir", "rmdir", "unlink", "rename", "list", "stat")
OPENING = {"open": "resolve", "create": "create"}


def names_of(path):
    """The names of a path as a line spells it."""
    return [] if path == "/" else path_of(path.encode()).split(b"/")


class PlainFile:
    """A list of octets, or why there is none."""

    def __init__(self, octets, cause=None):
        self.octets, self.cause = octets, cause

    def attach(self):
        return "ok" if self.cause is None else f"err bad {self.cause}"

    def read(self, at, length):
        return "data " + (self.octets[int(at) : int(at) + int(length)].hex() or "-")

    def write(self, at, text):
        piece, at = bytes.fromhex(text), int(at)
        if at + len(piece) > MOST_SIZE:
            return "err toobig"
        self.octets.extend(bytes(max(0, at - len(self.octets))))
        self.octets[at : at + len(piece)] = piece
        return "ok"

    def truncate(self, size):
        if int(size) > MOST_SIZE:
            return "err toobig"
        del self.octets[int(size) :]
        self.octets.extend(bytes(int(size) - len(self.octets)))
        return "ok"

    def size(self):
        return f"ok {len(self.octets)}"

    def sync(self):
        return "ok"

    def detach(self):
        return "ok"


class Mount:
    """The tree and the files of a job's image, with the logs of the calls on them."""

    def __init__(self, job):
        self.key = job.key()
        self.nodes = nodes_of(job.image)
        self.tree = Tree(self.nodes, job.form())
        self.files, self.tree_log, self.file_logs = {}, [], defaultdict(list)

    def file_at(self, node):
        """The file of a node, as it was at the opening where no call has come to it."""
        if node not in self.files:
            self.files[node] = self.opened(node)
        return self.files[node]

    def opened(self, node):
        if node > len(self.nodes):
            return PlainFile(bytearray())
        try:
            return PlainFile(bytearray(self.nodes[node - 1].file.content(self.key)))
        except Bad as bad:
            return PlainFile(None, str(bad))

    def tree_call(self, session, op, word, *paths):
        """The reply of a call on the tree, which comes into the log."""
        try:
            reply = getattr(self.tree, word)(*map(names_of, paths))
        except Refused as refused:
            reply = f"err {refused}"
        if isinstance(reply, list):
            reply = " ".join(["names", *(f"{kind}:{spelled(name).decode()}" for kind, name in reply)])
        self.tree_log.append(f"{session} {op} 0 0 {' '.join([word, *paths])} = {reply}")
        return reply

    def file_call(self, session, op, node, word, slot, *fields):
        """The reply of a call on a file, which comes into its log."""
        reply = getattr(self.file_at(node), word)(*fields)
        self.file_logs[node].append(f"{session} {op} 0 0 {' '.join([word, slot, *fields])} = {reply}")
        return reply

    def is_opened(self, node):
        """Whether a session has opened the file of a node."""
        return any(" attach " in entry and entry.endswith(" = ok") for entry in self.file_logs.get(node, ()))


class Session:
    """A session that has done some of its operations."""

    def __init__(self, number, lines, mount):
        self.number, self.lines, self.mount = number, lines, mount
        self.slots, self.replies, self.resolved, self.closed_up_to = {}, [], None, 0

    def next_line(self):
        """The line of the next operation: of the script, and then of the closes behind it; None where none is left."""
        if len(self.replies) < len(self.lines):
            return self.lines[len(self.replies)]
        slot = next((slot for slot in range(self.closed_up_to, SLOTS) if str(slot) in self.slots), None)
        return None if slot is None else f"close {slot}"

    def go_on(self):
        """Makes the next call, or does an operation that makes none; whether there was one."""
        line = self.next_line()
        if line is None:
            return False
        if len(self.replies) >= len(self.lines):
            self.closed_up_to = int(line.split()[1]) + 1
        reply = self.do(*line.split(" "))
        if reply is not None:
            self.replies.append(reply)
        return True

    def do(self, word, *fields):
        """The reply of an operation; None where another call of it has to come."""
        if word in TREE_WORDS:
            return self.tree_call(word, *fields)
        if word in OPENING:
            return self.go_on_opening(OPENING[word], *fields)
        if fields[0] not in self.slots:
            return "err handle"
        reply = self.file_call(self.slots[fields[0]], "detach" if word == "close" else word, *fields)
        if word == "close" and reply == "ok":
            del self.slots[fields[0]]
        return reply

    def go_on_opening(self, word, slot, path):
        """The first call of an `open` or `create` finds the node, the second one opens the file."""
        if slot in self.slots:
            return "err slot"
        if self.resolved is None:
            reply = self.tree_call(word, path)
            if not reply.startswith("ok "):
                return reply
            self.resolved = int(reply.split()[1])
            return None
        node, self.resolved = self.resolved, None
        reply = self.file_call(node, "attach", slot)
        if reply != "ok":
            return reply
        self.slots[slot] = node
        return f"ok {node}"

    def tree_call(self, word, *paths):
        return self.mount.tree_call(self.number, len(self.replies), word, *paths)

    def file_call(self, node, word, slot, *fields):
        return self.mount.file_call(self.number, len(self.replies), node, word, slot, *fields)


def run(job):
    """The mount and the sessions of a job at their end: item by item, and then session by session."""
    mount = Mount(job)
    sessions = [Session(number, lines, mount) for number, lines in enumerate(job.scripts)]
    for item in job.schedule:
        sessions[item].go_on()
    for session in sessions:
        while session.go_on():
            pass
    return mount, sessions


def report_lines(mount, sessions):
    """The lines of the report before its image."""
    yield "ecryptfs-report 1"
    for session in sessions:
        yield f"session {session.number} {len(session.replies)}"
        yield from session.replies
    yield f"tree {len(mount.tree_log)}"
    yield from mount.tree_log
    for node, log in sorted(mount.file_logs.items()):
        yield f"file {node} {len(log)}"
        yield from log
