"""The plain tree that a lower tree shows, and what each call on it answers and leaves (docs/TEXTS.md)."""
from dataclasses import dataclass, field

ROOT = 0
MOST_NODES = 4096


class Refused(Exception):
    """The word of a refusal."""


@dataclass
class Directory:
    """The nodes of its entries by their names, its foreign entries as lower names with their nodes, and the names that these block."""

    entries: dict = field(default_factory=dict)
    foreign: list = field(default_factory=list)
    blocked: set = field(default_factory=set)


class Tree:
    """Directories by their nodes; every other node is a file."""

    def __init__(self, nodes, form):
        """The tree that lower nodes, each with its parent, its lower name and its file, show under a form of names."""
        self.form, self.directories, self.next = form, {ROOT: Directory()}, 1 + len(nodes)
        for number, node in enumerate(nodes, 1):
            if node.file is None:
                self.directories[number] = Directory()
        # (the entries of a lower directory stand in octet order)
        for number, node in enumerate(nodes, 1):
            self.show(self.directories[node.parent], node.name, number)

    def show(self, directory, lower, node):
        """The first lower name of an upper name is shown; any other, and one that stands for none, is foreign."""
        upper = self.form.upper_name(lower)
        if upper is not None and upper not in directory.entries:
            directory.entries[upper] = node
            return
        directory.foreign.append((lower, node))
        if upper is not None and self.form.written(upper) == lower:
            directory.blocked.add(upper)

    # ---- parts of calls ----

    def walk(self, path):
        """The node that a path leads to, part by part from the root."""
        node = ROOT
        for part in path:
            node = self.directory_at(node).entries.get(part)
            if node is None:
                raise Refused("notfound")
        return node

    def directory_at(self, node):
        if node not in self.directories:
            raise Refused("notdir")
        return self.directories[node]

    def check_new_name(self, path):
        if path and len(path[-1]) > self.form.longest:
            raise Refused("namelong")

    def parent_of(self, path):
        """The directory and the last name of a path other than the root's."""
        return self.directory_at(self.walk(path[:-1])), path[-1]

    def is_empty(self, directory):
        return not directory.entries and not directory.foreign

    def is_within(self, node, above):
        """Whether a node is this directory or stands below it."""
        return node == above or any(self.is_within(node, below) for below in self.directories_in(above))

    def directories_in(self, node):
        return [below for below in self.directories[node].entries.values() if below in self.directories]

    def make(self, path, is_directory):
        self.check_new_name(path)
        if not path:
            raise Refused("isroot")
        parent, name = self.parent_of(path)
        if name in parent.entries or name in parent.blocked:
            raise Refused("exists")
        if self.next == MOST_NODES:
            raise Refused("nonodes")
        node, self.next = self.next, self.next + 1
        parent.entries[name] = node
        if is_directory:
            self.directories[node] = Directory()
        return node

    # ---- calls: each gives the text of its reply ----

    def resolve(self, path):
        node = self.walk(path)
        if node in self.directories:
            raise Refused("isdir")
        return f"ok {node}"

    def create(self, path):
        return f"ok {self.make(path, False)}"

    def mkdir(self, path):
        self.make(path, True)
        return "ok"

    def rmdir(self, path):
        directory = self.directory_at(self.walk(path))
        if not path:
            raise Refused("isroot")
        if not self.is_empty(directory):
            raise Refused("notempty")
        parent, name = self.parent_of(path)
        del parent.entries[name]
        return "ok"

    def unlink(self, path):
        if self.walk(path) in self.directories:
            raise Refused("isdir")
        parent, name = self.parent_of(path)
        del parent.entries[name]
        return "ok"

    def rename(self, old, new):
        self.check_new_name(new)
        moved = self.walk(old)
        above = self.walk(new[:-1])
        parent = self.directory_at(above)
        there = parent.entries.get(new[-1]) if new else ROOT
        if moved in self.directories and there is not None and there not in self.directories:
            raise Refused("notdir")
        if not old or not new:
            raise Refused("isroot")
        if there is None and new[-1] in parent.blocked:
            raise Refused("exists")
        if there in self.directories and moved not in self.directories:
            raise Refused("isdir")
        if there != moved:
            self.check_place(moved, above, there)
            source, name = self.parent_of(old)
            del source.entries[name]
            parent.entries[new[-1]] = moved
        return "ok"

    def check_place(self, moved, above, there):
        """Whether a node may get its place in the directory `above`, in place of what is there."""
        if moved in self.directories and self.is_within(above, moved):
            raise Refused("inside")
        if there in self.directories and not self.is_empty(self.directories[there]):
            raise Refused("notempty")

    def list(self, path):
        directory = self.directory_at(self.walk(path))
        return [(self.kind(node), name) for name, node in sorted(directory.entries.items())]

    def stat(self, path):
        node = self.walk(path)
        return f"ok {self.kind(node)} {node}"

    def kind(self, node):
        return "d" if node in self.directories else "f"

    # ---- the whole tree ----

    def walk_all(self, node=ROOT, path=b""):
        """The entries in order, each directory followed by its own and then by its foreign ones, as kind, node and path."""
        directory = self.directories[node]
        for name, below in sorted(directory.entries.items()):
            yield self.kind(below), below, path + b"/" + name
            if below in self.directories:
                yield from self.walk_all(below, path + b"/" + name)
        for lower, below in directory.foreign:
            yield "x", below, path + b"/" + lower
