"""What a lower tree shows, and whether one is what a mount leaves: names, kinds, contents, lower files and their lengths."""
from collections import defaultdict

from lower_files import Bad, data_length
from lower_tree import nodes_of
from plain_tree import ROOT
from shared_mount import Mount
from texts import spelled


# ---- the show text ----


def show_lines(job):
    """The lines of the show text of a job."""
    mount = Mount(job)
    yield "ecryptfs-show 1"
    for kind, node, path in mount.tree.walk_all():
        line = f"{kind} {node} " + b"/".join(map(spelled, path.split(b"/"))).decode()
        yield line if kind != "f" else f"{line} {shown_content(mount, node)}"
    yield "end"


def shown_content(mount, node):
    if mount.nodes[node - 1].file.is_empty:
        return "empty"
    file = mount.file_at(node)
    return f"bad {file.cause}" if file.cause else f"good {len(file.octets)} {file.octets.hex() or '-'}"


# ---- what is left ----


def entries_by_directory(nodes):
    """The entries of each directory of a lower tree, as a node and what stands there by lower names."""
    entries = defaultdict(dict)
    for number, node in enumerate(nodes, 1):
        entries[node.parent][node.name] = number, node
    return entries


class LeftTree:
    """A lower tree beside the mount that is to have left it; `faults` tells where it isn't what a mount leaves."""

    def __init__(self, mount, image):
        self.mount, self.faults = mount, []
        self.before, self.after = entries_by_directory(mount.nodes), entries_by_directory(nodes_of(image))
        self.compare_directory(ROOT, ROOT, b"")

    def expect(self, path, what, is_so):
        if not is_so:
            self.faults.append(f"{path.decode(errors='replace')}: {what}")

    def compare_directory(self, node, lower, path):
        """Each lower name stands for one entry, or is that of a foreign one."""
        directory, there = self.mount.tree.directories[node], dict(self.after[lower])
        for name, foreign in directory.foreign:
            self.expect(path + b"/" + name, "foreign, and not as it was", self.below(self.after, there.pop(name, None)) == self.foreign(foreign))
        lowers = {self.mount.tree.form.upper_name(name): name for name in there}
        self.expect(path, "other entries", set(lowers) == set(directory.entries) and len(lowers) == len(there))
        for upper in set(lowers) & set(directory.entries):
            below, name = directory.entries[upper], lowers[upper]
            self.expect(path + b"/" + upper, "another lower name", self.is_name_of(upper, name, node))
            self.compare_entry(below, *there[name], path + b"/" + upper)

    def is_name_of(self, upper, lower, directory):
        """Whether this is the written name, or that under which the directory showed the name at the opening."""
        firsts = [name for name in self.before[directory] if self.mount.tree.form.upper_name(name) == upper]
        return lower in [self.mount.tree.form.written(upper), *firsts[:1]]

    def below(self, entries, found):
        """What lies at an entry of a lower tree, and all below it."""
        if found is None:
            return None
        number, node = found
        return node.file or {name: self.below(entries, entry) for name, entry in entries[number].items()}

    def foreign(self, node):
        return self.below(self.before, (node, self.mount.nodes[node - 1]))

    def compare_entry(self, node, number, lower, path):
        is_directory = node in self.mount.tree.directories
        self.expect(path, "of another kind", is_directory == (lower.file is None))
        if is_directory and lower.file is None:
            self.compare_directory(node, number, path)
        elif not is_directory and lower.file is not None:
            self.compare_file(node, lower.file, path)

    def compare_file(self, node, file, path):
        """A file that was opened decodes to the octets at the end; any other is as it was."""
        old = self.mount.nodes[node - 1].file if node <= len(self.mount.nodes) else None
        if not self.mount.is_opened(node):
            self.expect(path, "not opened, and not as it was", file == old if old else file.is_empty)
            return
        try:
            self.compare_opened(file, None if old is None or old.is_empty else old, self.mount.file_at(node).octets, path)
        except Bad as bad:
            self.expect(path, f"bad {bad}", False)

    def compare_opened(self, file, old, octets, path):
        """A file that was opened, beside the one that was there if it had metadata: where size or extent are other ones, zeros stand behind the octets."""
        size, start, _ = file.metadata(self.mount.key)
        content, behind = file.plain_text(self.mount.key)
        has_old_size = old is not None and old.metadata(self.mount.key)[0] == size
        self.expect(path, "another content", content == octets)
        self.expect(path, "other metadata", old is None or file.kept_octets(start) == old.kept_octets(start))
        self.expect(path, "another lower length", len(file.body) == start + data_length(size) or has_old_size and len(old.body) == len(file.body))
        self.expect(path, "octets behind the end", not any(behind) or has_old_size and file.last_extent(size, start) == old.last_extent(size, start))
