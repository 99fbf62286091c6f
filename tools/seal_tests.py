#!/usr/bin/env python3
"""The tests of tools/seal, over the built program: what it makes is read again by tools/recover.

    tools/seal_tests.py [PROGRAM]        PROGRAM is the built program, by default crates/mount_prog/out/mount_prog

The last line is `seal: N passed, M failed`, and the status is 1 where any test failed.
"""
import os
import pty
import re
import shutil
import socket
import stat
import subprocess
import sys
import unittest

from content_jobs import batches_of
from lower_walk import Entry, Found, Kind
from metadata import MOST_CONTENT
from replay_jobs import first_word, read_entries, reader_of
from reports import pass_to_image
from seal_jobs import MOST_PATHS, SealBatch, is_too_deep, path_room
from testing import PREFIX, SALT, SECONDS, TOOLS, TOP, UTILS_NAME_SALT, InRoom, drawn, read, run_over_program, signature
from tests import entries_of, image_in
from texts import Refused
from workers import Workers as Crowd

SIGNATURES = signature(SALT).hex(), signature(UTILS_NAME_SALT).hex()
OTHER_SALT = "8899aabbccddeeff"
FORMS = [(names, meta) for names in ("coded", "plain") for meta in ("header", "attribute")]
# The octets of new metadata in front of a wrapped key, and in all.
KEY_AT, METADATA = 26 + 15, 81
IN_THE_WAY, BELOW = "in the way in the target", "below a directory that was left out"
DRAWN = drawn("content", 200_000)


def content(number):
    """The content of the file with this number: mostly small, and sometimes of up to 200,000 octets."""
    small = [0, 1, 15, 100, 500, 4095, 4096, 4097, 1000]
    size = number * 40 if number % 100 == 99 else 200_000 if number % 1000 == 0 else small[number % len(small)]
    return DRAWN[len(DRAWN) - size :]


def in_form(names, meta):
    return ["--names", names, "--meta", meta]


class Seal(InRoom):
    def fill(self, *paths):
        """Plain files at these paths, each with another content."""
        for number, path in enumerate(paths):
            self.write("folder/" + path, b"%d " % number * 1000)

    def seal(self, *words, folder="folder", lower="lower", **more):
        return self.run_named("seal", "--passphrase-file", self.at("passphrase"), "--jobs", "2", folder, lower, *words, **more)

    def sealed(self, *words, **more):
        ran = self.seal(*words, **more)
        self.assertEqual((ran.returncode, ran.stderr), (0, b""), ran.stdout)
        self.assertFalse(os.path.exists(self.at("lower.seal.left_out")))
        return ran.stdout

    def recovered(self, *words):
        """Writes the lower tree out again, as `home`."""
        ran = self.run_named("recover", "--passphrase-file", self.at("passphrase"), "--jobs", "2", "lower", "home", *words)
        self.assertEqual((ran.returncode, ran.stderr), (0, b""), ran.stdout)

    def left_out(self, ran):
        """The list of what was left out, as causes by their paths."""
        self.assertEqual(ran.returncode, 3, ran.stderr + ran.stdout)
        lines = read(self.at("lower.seal.left_out")).decode().splitlines()
        self.assertEqual(lines[0], "left out by tools/seal:")
        return {path: why for why, _, path in (line.rpartition(": ") for line in lines[1:])}

    def refused(self, ran, why, status=1):
        """One line that says why, and nothing written."""
        self.assertEqual((ran.returncode, ran.stdout, ran.stderr.count(b"\n")), (status, b"", 1), ran.stderr)
        self.assertIn(why, ran.stderr)

    def paths_in(self, name):
        """The paths of what stands in a folder."""
        found = [os.path.join(at, each) for at, folders, files in os.walk(self.at(name)) for each in folders + files]
        return sorted(os.path.relpath(path, self.at(name)) for path in found)

    def marks(self, path):
        """What a copy has of what it is a copy of: kind, mode, time and octets."""
        found = os.lstat(path)
        return found.st_mode, found.st_mtime_ns, read(path) if stat.S_ISREG(found.st_mode) else None

    def assert_same(self, first, second, without=()):
        """Two folders hold the same names, octets, modes and times, but for what isn't in the second."""
        paths = [path for path in self.paths_in(first) if path not in without]
        self.assertEqual(paths, self.paths_in(second))
        marks = lambda name, path: self.marks(self.at(os.path.join(os.fsencode(name), path)))
        self.assertEqual([path for path in paths if marks(first, path) != marks(second, path)], [])

    def metadata(self):
        """The metadata of each lower file, by its path."""
        found = {}
        for path in self.paths_in("lower"):
            place = self.at(b"lower/" + path)
            if os.path.isfile(place):
                has_attribute = "user.ecryptfs" in os.listxattr(place)
                found[path] = os.getxattr(place, "user.ecryptfs") if has_attribute else read(place)[:METADATA]
        return found

    def check_attributes(self):
        """Leaves the test out where the file system has no attributes."""
        try:
            os.setxattr(self.at("passphrase"), "user.ecryptfs", b"x")
            os.removexattr(self.at("passphrase"), "user.ecryptfs")
        except OSError:
            self.skipTest("the file system has no attributes")


class Trips(Seal):
    def fill_five_thousand(self):
        """5,000 files of 0 to 200,000 octets in directories of three levels, with modes and times."""
        for number in range(5000):
            folder = "wide" if number < 2500 else f"d{number % 5}/e {number % 7}/f{number % 11}"
            path = self.write(f"folder/{folder}/file {number}", content(number))
            os.chmod(path, [0o644, 0o600, 0o444, 0o755][number % 4])
            os.utime(path, ns=(10**18, 10**18 + number * 1_000_001))
        os.makedirs(self.at("folder/empty"))
        for number, path in enumerate(self.paths_in("folder")):
            if os.path.isdir(self.at(b"folder/" + path)):
                os.chmod(self.at(b"folder/" + path), [0o755, 0o700, 0o555][number % 3])
                os.utime(self.at(b"folder/" + path), ns=(10**18, 10**18 - number))
        self.addCleanup(subprocess.run, ["chmod", "-R", "u+w", self.room])

    def check_tree(self, names, meta):
        """What stands in the lower tree: coded names or clear ones, and a key of its own for each file."""
        files = self.metadata()
        self.assertEqual(len(files), 5000)
        flags = (2 | (8 if names == "coded" else 0) | (4 if meta == "attribute" else 0)).to_bytes(3, "big")
        self.assertEqual({octets[16:20] for octets in files.values()}, {b"\3" + flags})
        self.assertEqual({len(octets) for octets in files.values()}, {METADATA})
        self.assertEqual(len({octets[KEY_AT : KEY_AT + 16] for octets in files.values()}), 5000)
        self.assertEqual({octets[-8:].hex() for octets in files.values()}, {SIGNATURES[0]})
        parts = {part for path in self.paths_in("lower") for part in path.split(b"/")}
        self.assertEqual({part.startswith(PREFIX) for part in parts}, {names == "coded"})

    def test_five_thousand_files_in_each_form_and_place(self):
        self.check_attributes()
        self.fill_five_thousand()
        for names, meta in FORMS:
            with self.subTest(names=names, meta=meta):
                self.assertIn(b"5000 files and 427 directories written, ", self.sealed(*in_form(names, meta)))
                self.check_tree(names, meta)
                self.recovered()
                self.assert_same("folder", "home")
                self.assertEqual(os.stat(self.at("folder")).st_mtime_ns, os.stat(self.at("home")).st_mtime_ns)
                for name in ("lower", "home"):
                    subprocess.run(["chmod", "-R", "u+w", self.at(name)], check=True)
                    shutil.rmtree(self.at(name))
                    os.remove(self.at({"lower": "lower.seal", "home": "home.recover"}[name]))

    def test_names_of_all_octets_and_lengths(self):
        every = bytes(octet for octet in range(1, 256) if octet != 0x2F)
        names = [every[:120], every[120:], b"%41", b" ", b"...", "ä".encode(), b"x" * 143, PREFIX + b"x", b"y" * 15, b"y" * 16]
        for name in names:
            self.write(b"folder/sub\n/" + name, name)
        self.sealed()
        self.recovered()
        self.assert_same("folder", "home")

    def test_the_largest_file_and_one_that_is_too_large(self):
        for name, size in (("largest", MOST_CONTENT), ("too_large", MOST_CONTENT + 1)):
            self.write("folder/" + name, b"front")
            os.truncate(self.at("folder/" + name), size)
        self.assertEqual(self.left_out(self.seal()), {"/too_large": "too large: 67108865 octets"})
        self.recovered()
        self.assert_same("folder", "home", without=[b"too_large"])

    def test_an_empty_folder_and_empty_directories(self):
        os.mkdir(self.at("folder"))
        self.assertIn(b"0 files and 0 directories written, 0 octets\n", self.sealed())
        os.makedirs(self.at("folder/a/b"))
        self.write("folder/none", b"")
        self.assertIn(b"1 files and 2 directories written, 0 octets\n", self.sealed())
        self.recovered()
        self.assert_same("folder", "home")

    def test_other_salts(self):
        self.fill("a", "sub/b")
        words = ["--salt", OTHER_SALT, "--namesalt", "0011223344556677"]
        self.assertIn(signature(bytes.fromhex(OTHER_SALT)).hex().encode(), self.sealed(*words))
        self.recovered("--namesalt", "0011223344556677")
        self.assert_same("folder", "home")

    def test_owners_and_modes_without_set_user_id(self):
        self.fill("a")
        os.chmod(self.at("folder/a"), 0o6751)
        if os.geteuid() == 0:
            os.chown(self.at("folder/a"), 1234, 5678)
            os.chmod(self.at("folder/a"), 0o6751)
        self.sealed("--names", "plain")
        found, wanted = os.stat(self.at("lower/a")), os.stat(self.at("folder/a"))
        self.assertEqual((stat.S_IMODE(found.st_mode), found.st_uid, found.st_gid), (0o751, wanted.st_uid, wanted.st_gid))


class Told(Seal):
    def test_the_signatures_and_the_line_that_mounts(self):
        self.check_attributes()
        self.fill("a")
        told = {
            ("coded", "header"): f"ecryptfs_sig={SIGNATURES[0]},ecryptfs_fnek_sig={SIGNATURES[1]},ecryptfs_cipher=aes,ecryptfs_key_bytes=16",
            ("plain", "header"): f"ecryptfs_sig={SIGNATURES[0]},ecryptfs_cipher=aes,ecryptfs_key_bytes=16",
        }
        for (names, meta), options in [*told.items()]:
            told[names, "attribute"] = options + ",ecryptfs_xattr_metadata"
        for number, ((names, meta), options) in enumerate(told.items()):
            lines = self.sealed(*in_form(names, meta), lower=f"lower {number}").decode().splitlines()
            self.assertEqual(lines[-2], f"signature of files {SIGNATURES[0]}, of names {SIGNATURES[1]}")
            self.assertEqual(lines[-1], f"mount -i -t ecryptfs -o {options} '{self.room}/lower {number}' MOUNTPOINT")

    def test_the_passphrase_is_asked_for_twice(self):
        self.fill("a")
        # (without a terminal the questions and the answers go over the standard streams)
        ran = self.run_named("seal", "folder", "lower", given=b"test\ntset\n")
        self.assertEqual(ran.returncode, 1)
        self.assertIn(b"the two passphrases differ", ran.stderr)
        self.assertFalse(os.path.exists(self.at("lower")))
        ran = self.run_named("seal", "folder", "lower", given=b"test\ntest\n")
        self.assertEqual(ran.returncode, 0, ran.stderr)
        self.recovered()
        self.assert_same("folder", "home")

    def test_a_line_of_progress_on_a_terminal(self):
        self.fill("a", "b")
        ours, theirs = pty.openpty()
        words = [*self.program('[ "$calls" -eq 4 ] && sleep 1\nexec $program "$@"'), "--passphrase-file", self.at("passphrase")]
        command = [sys.executable, os.path.join(TOOLS, "seal"), *words, self.at("folder"), self.at("lower")]
        ran = subprocess.run(command, stdout=subprocess.PIPE, stderr=theirs, timeout=SECONDS)
        os.close(theirs)
        with os.fdopen(ours, "rb", buffering=0) as terminal:
            shown = terminal.read(100_000)
        self.assertRegex(shown, rb"\r\x1b\[K0 files, 0 of 0 MB, 0 MB/s.*\r\x1b\[K$")
        self.assertEqual(ran.returncode, 0)

    def test_a_file_is_written_under_a_number_for_its_owner_alone(self):
        self.fill("a")
        os.chmod(self.at("folder/a"), 0o644)
        look = '[ "$calls" -eq 4 ] || exec $program "$@"\n$program "$@"\nsleep 1\nfind lower -type f -printf "%P %m %s\\n" > seen'
        self.sealed("--names", "plain", *self.program(look))
        self.assertRegex(read(self.at("seen")), rb"^\.seal-[0-9a-f]{8}/1 600 12288\n$")
        self.assertEqual(self.paths_in("lower"), [b"a"])

    def test_words_and_help(self):
        self.assertEqual(self.run_named("seal", "folder").returncode, 2)
        self.assertEqual(self.seal("--names", "other").returncode, 2)
        self.assertIn(b"is no part of what is proved", self.run_named("seal", "--help").stdout)


class LeftOut(Seal):
    def test_names_that_are_too_long(self):
        long, longest = "n" * 144, "m" * 255
        self.fill("a", long, longest, f"sub/{long}", f"{long}_folder/b", f"{long}_folder/sub/c")
        ran = self.seal()
        below = {f"/{long}_folder{path}": BELOW for path in ("/b", "/sub", "/sub/c")}
        refused = [long, longest, f"sub/{long}", f"{long}_folder"]
        self.assertEqual(self.left_out(ran), {**{f"/{path}": "namelong" for path in refused}, **below})
        self.assertIn(b"\n       4 namelong\n       3 below a directory that was left out\n", ran.stdout)
        self.recovered()
        self.assertEqual(self.paths_in("home"), [b"a", b"sub"])

    def test_links_and_devices_and_second_names(self):
        self.fill("a", "sub/b")
        os.symlink(self.at("passphrase"), self.at("folder/sub/link"))
        os.symlink("/", self.at("folder/root"))
        os.mkfifo(self.at("folder/pipe"))
        os.link(self.at("folder/a"), self.at("folder/sub/again"))
        with socket.socket(socket.AF_UNIX) as one:
            one.bind(self.at("folder/socket"))
        wanted = {"/sub/link": "symbolic link", "/root": "symbolic link", "/pipe": "pipe", "/socket": "socket"}
        self.assertEqual(self.left_out(self.seal()), {**wanted, "/sub/again": "second name of a file"})
        self.recovered()
        self.assertEqual(self.paths_in("home"), [b"a", b"sub", b"sub/b"])

    def test_what_cannot_be_read_is_named(self):
        self.fill("a", "closed", "shut/b")
        self.write("folder/empty", b"")
        for name in ("closed", "shut", "empty"):
            os.chmod(self.at("folder/" + name), 0)
        # (root may read all, unless it gives that up)
        within = ["setpriv", "--bounding-set", "-dac_override,-dac_read_search"] if os.geteuid() == 0 else []
        if within and shutil.which("setpriv") is None:
            self.skipTest("root can read all")
        ran = self.seal(within=within)
        self.assertEqual(self.left_out(ran), dict.fromkeys(["/closed", "/shut", "/empty"], "unreadable: Permission denied"))
        self.recovered()
        self.assertEqual(self.paths_in("home"), [b"a"])
        os.chmod(self.at("folder/shut"), 0o755)

    def test_a_file_that_changes_meanwhile_is_named(self):
        self.fill("a")
        self.write("folder/large", DRAWN * 20)
        self.write("folder/shrinks", DRAWN * 20)
        change = '[ "$calls" -eq 4 ] && echo >> folder/large && : > folder/shrinks\nexec $program "$@"'
        ran = self.seal(*self.program(change))
        self.assertEqual(self.left_out(ran), dict.fromkeys(["/large", "/shrinks"], "changed while it was read"))
        self.recovered()
        self.assert_same("folder", "home", without=[b"large", b"shrinks"])

    def test_where_the_program_fails_on_a_file_that_alone_is_left_out(self):
        self.fill("a", "b", "sub/worst", "sub/c")
        fails = 'cat > job$$\ngrep -aq "^create .*worst" job$$ && exit 1\nexec $program "$@" < job$$'
        self.assertEqual(self.left_out(self.seal(*self.program(fails))), {"/sub/worst": "the program failed: status 1"})
        self.recovered()
        self.assert_same("folder", "home", without=[b"sub/worst"])

    def test_a_line_that_is_not_done_leaves_its_file_out(self):
        self.fill("a", "b", "c")
        # (one write comes to an offset that no file has, and one file into a directory that isn't there)
        spoil = "s,^write 0 0 31,write 0 67108864 31,; s,^create 0 /c$,create 0 /c/d,"
        ran = self.seal(*self.program(f'[ "$calls" -ge 4 ] || exec $program "$@"\nsed "{spoil}" | $program "$@"'))
        self.assertEqual(self.left_out(ran), {"/b": "toobig", "/c": "notfound"})
        self.recovered()
        self.assert_same("folder", "home", without=[b"b", b"c"])

    def test_a_report_of_another_tree(self):
        self.fill("a", "b")
        other = '[ "$calls" -ge 4 ] || exec $program "$@"\nsed "s,^create 0 /b$,create 0 /x," | $program "$@"'
        self.assertEqual(self.left_out(self.seal(*self.program(other))), {"/b": "the program failed: its report can't be read"})
        self.recovered()
        self.assert_same("folder", "home", without=[b"b"])

    def test_what_the_target_refuses(self):
        self.fill("a", "b", "colon/c")
        patch = """
def refusing(call, refused):
    def called(first, *more, **words):
        if refused in (first, *more):
            raise OSError(22, "Invalid argument")
        return call(first, *more, **words)
    return called
os.rename, os.mkdir = refusing(os.rename, b"b"), refusing(os.mkdir, b"colon")
"""
        refused = "refused by the target: Invalid argument"
        wanted = {"/b": refused, "/colon": refused, "/colon/c": BELOW}
        self.assertEqual(self.left_out(self.seal("--names", "plain", patch=patch)), wanted)
        self.assertEqual(self.paths_in("lower"), [b"a"])

    def test_what_stands_on_another_file_system_is_named(self):
        self.fill("a")
        os.makedirs(self.at("folder/disk"))
        if os.geteuid() or subprocess.run(["mount", "-t", "tmpfs", "none", self.at("folder/disk")], capture_output=True).returncode:
            self.skipTest("no small file system can be mounted")
        self.addCleanup(subprocess.run, ["umount", self.at("folder/disk")])
        self.assertEqual(self.left_out(self.seal()), {"/disk": "on another file system"})


class Refusals(Seal):
    def nothing_written(self):
        self.assertEqual([name for name in os.listdir(self.room) if name.startswith("lower")], [])

    def test_one_folder_inside_the_other(self):
        self.fill("a", "sub/b")
        os.symlink("folder", self.at("link"))
        before = self.paths_in("folder")
        for lower in ("folder", "folder/lower", "link/sub", "."):
            with self.subTest(lower):
                self.refused(self.seal(lower=lower), b"the folder stands in it" if lower == "." else b"it is the folder or stands in it")
        self.refused(self.seal("--record", "folder/record"), b"it would stand in the folder")
        os.mkdir(self.at("lower"))
        self.refused(self.seal("--record", "lower/record"), b"it would stand in the lower tree")
        self.assertEqual((self.paths_in("folder"), self.paths_in("lower")), (before, []))

    def test_a_lower_tree_that_is_not_empty(self):
        self.fill("a")
        self.write("lower/mine", b"mine")
        self.refused(self.seal(), b"it isn't empty, and there is no record ")
        self.assertEqual((self.paths_in("lower"), os.path.exists(self.at("lower.seal"))), ([b"mine"], False))
        self.refused(self.seal(lower="passphrase"), b"it is no folder")

    def test_a_record_of_another_key_form_or_place(self):
        self.check_attributes()
        self.fill("a")
        self.sealed()
        record, tree = read(self.at("lower.seal")), self.paths_in("lower")
        self.assertIn(f" {SIGNATURES[0]} {SIGNATURES[1]} tag70 header\n".encode(), record)
        self.fill("a", "b")
        for words in (["--names", "plain"], ["--meta", "attribute"], ["--salt", OTHER_SALT], ["--namesalt", OTHER_SALT]):
            with self.subTest(words):
                self.refused(self.seal(*words), b"lower.seal: it is the record of a tree with " + " ".join(SIGNATURES).encode())
        self.write("passphrase", b"other\n")
        self.refused(self.seal(), b"it is the record of a tree with ")
        self.assertEqual((read(self.at("lower.seal")), self.paths_in("lower")), (record, tree))

    def test_a_file_that_takes_no_attribute(self):
        self.fill("a")
        patch = "def refused(*words, **more):\n    raise OSError(95, 'Operation not supported')\nos.setxattr = refused"
        self.refused(self.seal("--meta", "attribute", patch=patch), b"lower: files there take no attribute user.ecryptfs")
        self.nothing_written()
        self.sealed(patch=patch)

    def test_a_program_that_is_none(self):
        self.fill("a")
        self.refused(self.seal("--program", self.at("away")), b"No such file or directory")
        self.refused(self.seal(*self.program("exit 3")), b"doesn't make a file with tag70 names (status 3)")
        self.nothing_written()

    def test_a_record_and_a_list_that_are_none(self):
        self.fill("a")
        for name in ("record", "record.left_out"):
            self.write(name, b"mine\n")
            self.refused(self.seal("--record", self.at("record")), b"it is no ")
            self.assertEqual(read(self.at(name)), b"mine\n")
            os.remove(self.at(name))
        self.nothing_written()

    def test_salts_and_passphrases_that_are_none(self):
        self.fill("a")
        self.refused(self.seal("--salt", "0011"), b"a salt has 16 hexadecimal digits")
        self.write("passphrase", b"x" * 65)
        self.refused(self.seal(), b"a passphrase has 1 to 64 octets")
        self.refused(self.seal(folder="away"), b"away: No such file")
        self.nothing_written()


class Again(Seal):
    def test_a_stop_in_the_middle(self):
        paths = [f"{'wide' if number % 2 else 'sub'}/file {number}" for number in range(4500)]
        for number, path in enumerate(paths):
            self.write("folder/" + path, content(number)[:5000])
        stop = '[ "$calls" -eq 7 ] && kill -TERM $PPID && sleep 20\nexec $program "$@"'
        ran = self.seal("--jobs", "1", *self.program(stop))
        self.assertEqual(ran.returncode, 128 + 15, ran.stderr + ran.stdout)
        self.assertIn(b"the same command goes on from here", ran.stderr)
        first = self.paths_in("lower")
        self.assertEqual([path for path in first if path.startswith(b".seal")], [])
        self.assertTrue(3000 < len(first) < 4502, len(first))
        self.assertIn(b"\n%d entries stood there" % len(first), self.sealed())
        keys = [octets[KEY_AT : KEY_AT + 16] for octets in self.metadata().values()]
        self.assertEqual((len(keys), len(set(keys))), (4500, 4500))
        self.recovered()
        self.assert_same("folder", "home")

    def test_a_stop_while_names_are_written_writes_nothing(self):
        self.fill("a")
        ran = self.seal(*self.program('[ "$calls" -eq 2 ] && kill -INT $PPID && sleep 20\nexec $program "$@"'))
        self.refused(ran, b"seal: stopped; nothing was written", status=128 + 2)
        self.assertFalse(os.path.exists(self.at("lower")))

    def test_a_second_start_does_what_was_added_or_changed(self):
        self.fill("a", "sub/b", "sub/c")
        os.chmod(self.at("folder/sub"), 0o555)
        self.sealed()
        before = {path: (octets, os.stat(self.at(b"lower/" + path)).st_ino) for path, octets in self.metadata().items()}
        self.assertIn(b"0 files and 0 directories written, 0 octets\n4 entries stood there", self.sealed())
        os.chmod(self.at("folder/sub"), 0o755)
        self.write("folder/sub/new", b"new")
        self.assertIn(b"1 files and 0 directories written, 3 octets\n4 entries stood there", self.sealed())
        after = {path: (octets, os.stat(self.at(b"lower/" + path)).st_ino) for path, octets in self.metadata().items()}
        self.assertEqual({path: after[path] for path in before}, before)
        self.assertEqual(len({octets[KEY_AT : KEY_AT + 16] for octets, _ in after.values()}), 4)
        self.write("folder/a", b"another content")
        self.assertIn(b"1 files and 0 directories written, 15 octets\n4 entries stood there", self.sealed())
        self.recovered()
        self.assert_same("folder", "home")

    def test_what_was_changed_in_the_lower_tree_is_left_alone(self):
        self.fill("a", "sub/b")
        self.sealed("--names", "plain")
        self.write("lower/a", b"mine")
        shutil.rmtree(self.at("lower/sub"))
        os.symlink("/", self.at("lower/sub"))
        self.write("folder/a", b"another content")
        ran = self.seal("--names", "plain")
        self.assertEqual(self.left_out(ran), {"/a": IN_THE_WAY, "/sub": IN_THE_WAY, "/sub/b": BELOW})
        self.assertEqual(read(self.at("lower/a")), b"mine")

    def test_what_was_removed_from_the_folder_stays(self):
        self.fill("a", "b")
        self.sealed("--names", "plain")
        os.remove(self.at("folder/b"))
        self.sealed("--names", "plain")
        self.assertEqual(self.paths_in("lower"), [b"a", b"b"])

    def test_a_record_in_another_place(self):
        self.fill("a", "n" * 144)
        os.mkdir(self.at("records"))
        self.assertEqual(self.seal("--record", "records/one").returncode, 3)
        self.assertEqual(sorted(os.listdir(self.at("records"))), [b"one", b"one.left_out"])
        self.assertIn(b"\n1 entries stood there", self.seal("--record", "records/one").stdout)

    def test_a_full_target(self):
        os.mkdir(self.at("disk"))
        mount = ["mount", "-t", "tmpfs", "-o", "size=80k", "none", self.at("disk")]
        if os.geteuid() or subprocess.run(mount, capture_output=True).returncode:
            self.skipTest("no small file system can be mounted")
        self.addCleanup(subprocess.run, ["umount", self.at("disk")])
        self.fill(*map(str, range(10)))
        record, much = ["--record", self.at("record")], "import checks\nchecks.check_room = lambda target, need: None"
        self.refused(self.seal(*record, lower="disk/lower"), b"the files have 122880 octets, and ")
        ran = self.seal(*record, lower="disk/lower", patch=much)
        self.assertEqual(ran.returncode, 3, ran.stderr + ran.stdout)
        self.assertIn(b"No space left on device; the same command goes on from here", ran.stderr)
        subprocess.run(["mount", "-o", "remount,size=8m", self.at("disk")], check=True)
        self.assertEqual(self.seal(*record, lower="disk/lower").returncode, 0)
        self.assertEqual(len(self.paths_in("disk/lower")), 10)


# Batches of some three files, so that each worker gets several.
SMALL_BATCHES = "import seal_jobs\nseal_jobs.SealBatch.most_octets = 60_000"
# The number of the first process, for a program that a worker runs.
FIRST = "$(cut -d ' ' -f 4 /proc/$PPID/stat)"


class Workers(Seal):
    """Several batches in several processes."""

    def fill_batches(self):
        """60 files, which are some 20 batches."""
        for number in range(60):
            path = self.write(f"folder/{number % 4}/file {number:02}", DRAWN[: 18_000 + 50 * number])
            os.chmod(path, [0o644, 0o600, 0o444][number % 3])
            os.utime(path, ns=(10**18, 10**18 + number))

    def seal_batches(self, *words, jobs=4, **more):
        return self.seal("--jobs", str(jobs), *words, patch=SMALL_BATCHES, **more)

    def at_batch(self, number, what):
        """A program that does this at the batch with this number and at later ones; the calls before are for the form and names."""
        return self.program(f'[ "$calls" -ge {number + 3} ] && {what}\nexec $program "$@"')

    def assert_goes_on(self):
        """A second start does what is left: some of the files, but not all."""
        first = [path for path in self.paths_in("lower") if os.path.isfile(self.at(b"lower/" + path))]
        ran = self.seal_batches()
        self.assertEqual((ran.returncode, ran.stderr), (0, b""), ran.stdout)
        again = int(re.match(rb"([0-9]+) files and ", ran.stdout)[1])
        self.assertTrue(0 < again < 60, ran.stdout)
        self.assertEqual(again + len([path for path in first if not path.startswith(b".seal")]), 60)
        keys = [octets[KEY_AT : KEY_AT + 16] for octets in self.metadata().values()]
        self.assertEqual((len(keys), len(set(keys))), (60, 60))
        self.recovered()
        self.assert_same("folder", "home")

    def test_one_worker_and_four_write_the_same_tree(self):
        self.fill_batches()
        for number in (3, 40, 59):
            self.write(f"folder/{number % 4}/" + f"{number:02}" * 72, b"its name is too long")
        os.symlink("a", self.at("folder/2/link"))
        # (ten files come to an offset that no file has)
        spoil = 'sed "/file%205[0-9]$/,/^close/s,^write 0 0,write 0 67108864," | $program "$@"'
        told = []
        for jobs in (1, 4):
            ran = self.seal_batches(*self.program(spoil), jobs=jobs)
            told.append((self.left_out(ran), read(self.at("lower.seal.left_out")), ran.stdout))
            self.assertEqual(told[-1][0]["/2/file%2050"], "toobig")
            os.rename(self.at("lower"), self.at(f"lower {jobs}"))
            os.rename(self.at("lower.seal"), self.at(f"record {jobs}"))
        self.assertEqual(told[0], told[1])
        lines = [sorted(read(self.at(f"record {jobs}")).splitlines()[1:]) for jobs in (1, 4)]
        self.assertEqual(lines[0], lines[1])
        paths = self.paths_in("lower 1")
        self.assertEqual(paths, self.paths_in("lower 4"))
        seen = lambda jobs, path: os.stat(self.at(os.path.join(b"lower %d" % jobs, path)))
        marks = lambda jobs, path: (seen(jobs, path).st_mode, seen(jobs, path).st_mtime_ns, seen(jobs, path).st_size)
        files = [path for path in paths if os.path.isfile(self.at(b"lower 1/" + path))]
        self.assertEqual([marks(1, path) for path in files], [marks(4, path) for path in files])
        self.assertEqual(len(files), 50)

    def test_a_stop_in_the_middle_of_four_workers(self):
        for whom, number in (("$PPID", 15), (FIRST, 2)):
            with self.subTest(whom):
                self.fill_batches()
                stop = self.at_batch(8, f"kill -{number} {whom} && sleep 20")
                ran = self.seal_batches(*stop)
                self.assertEqual(ran.returncode, 128 + number, ran.stderr + ran.stdout)
                self.assertIn(b"seal: stopped; the same command goes on from here", ran.stderr)
                self.assertEqual([path for path in self.paths_in("lower") if path.startswith(b".seal")], [])
                self.assert_goes_on()
                for name in ("folder", "lower", "home"):
                    shutil.rmtree(self.at(name))
                for name in ("lower.seal", "home.recover", "calls"):
                    os.remove(self.at(name))

    def test_a_worker_that_is_killed_ends_the_work(self):
        self.fill_batches()
        ran = self.seal_batches(*self.at_batch(8, "kill -KILL $PPID"))
        self.assertEqual(ran.returncode, 3, ran.stderr + ran.stdout)
        self.assertIn(b"seal: a process of this program has ended before its work was done; the same command goes on", ran.stderr)
        self.assertEqual([path for path in self.paths_in("lower") if path.startswith(b".seal")], [])
        self.assert_goes_on()

    def test_workers_end_where_the_first_process_is_killed(self):
        self.fill_batches()
        # (the streams of the tool are at their end once the last of its processes has ended)
        ran = self.seal_batches(*self.at_batch(8, f"kill -KILL {FIRST} && sleep 20"))
        self.assertEqual((ran.returncode, ran.stdout), (-9, b""), ran.stderr)
        self.assert_goes_on()

    def test_a_full_target_ends_all_workers(self):
        self.fill_batches()
        patch = """
import itertools
calls, write = itertools.count(), os.write
def full(file, octets):
    if len(octets) > 20_000 and next(calls) == 3:
        raise OSError(28, "No space left on device")
    return write(file, octets)
os.write = full
"""
        ran = self.seal("--jobs", "4", patch=SMALL_BATCHES + patch)
        self.assertEqual(ran.returncode, 3, ran.stderr + ran.stdout)
        self.assertIn(b"seal: the target can't be written: No space left on device; the same command goes on from here", ran.stderr)
        self.assertEqual([path for path in self.paths_in("lower") if path.startswith(b".seal")], [])
        self.assert_goes_on()

    def test_no_more_is_under_way_than_so_many_whole_batches_have(self):
        entry = lambda number, size: Entry(b"%d" % number, None, Kind.FILE, Found(number, size, 0, 0, 0, 0, 0, 0))
        batches = [SealBatch([entry(number, size)]) for number, size in enumerate([MOST_CONTENT, 10_000_000, 16_777_216, 1, 1])]
        workers = Crowd([], [], 2, None)
        workers.room = 2 * SealBatch.most_octets
        workers.all, workers.waiting = [Idle() for _ in range(2)], [*enumerate(batches)][::-1]
        seen = []
        while workers.waiting or workers.busy:
            workers.hand_out()
            seen.append(sorted(worker.place for worker in workers.busy))
            workers.busy[0].batch = None
        self.assertEqual(seen, [[0], [1, 2], [2, 3], [2, 4], [2]])


class Idle:
    """A worker that does nothing."""

    place = batch = None

    def give(self, place, batch):
        self.place, self.batch = place, batch


class Parts(unittest.TestCase):
    """What no run shows."""

    def entry(self, path, parent, kind, size=0):
        return Entry(path, parent, kind, Found(1, size, 0, 0, 0, 0, 0, 0))

    def test_batches_are_within_their_bounds(self):
        above = self.entry(b"d", None, Kind.DIRECTORY)
        sizes = [6_000_000] * 5 + [68_000_000] + [1] * 9000
        files = [self.entry(b"d/%05d" % number, above, Kind.FILE, size) for number, size in enumerate(sizes)]
        batches = [*batches_of(files, SealBatch)]
        self.assertEqual([each for batch in batches for each in batch.own], files)
        self.assertEqual([len(batch.own) for batch in batches], [2, 2, 1, 1, 4094, 4094, 812])
        for batch in batches:
            self.assertTrue(len(batch.own) == 1 or sum(each.octets for each in batch.own) <= 16_777_216)
            self.assertEqual([type(half) for half in batch.halves()], [SealBatch] * 2)

    def test_long_paths_are_within_their_bounds(self):
        above = None
        for depth in range(600):
            above = self.entry(b"d" * 250 if above is None else above.path + b"/" + b"d" * 250, above, Kind.DIRECTORY)
        files = [self.entry(above.path + b"/%04d" % number, above, Kind.FILE, 1) for number in range(100)]
        self.assertTrue(is_too_deep(files[0]))
        lower = files[0].parent.parent
        while is_too_deep(lower):
            lower = lower.parent
        files = [self.entry(lower.path + b"/%04d" % number, lower, Kind.FILE, 1) for number in range(400)]
        batches = [*batches_of(files, SealBatch)]
        self.assertEqual(sum(len(batch.own) for batch in batches), 400)
        self.assertGreater(len(batches), 1)
        for batch in batches:
            self.assertLessEqual(sum(map(path_room, batch.nodes)), MOST_PATHS)

    def test_reports_of_another_implementation(self):
        folder = os.path.join(TOP, "tests", "replay")
        for name in sorted(name for name in os.listdir(folder) if name.endswith(".report")):
            with self.subTest(name), open(os.path.join(folder, name), "rb") as stream:
                whole, replies, found = read(os.path.join(folder, name)), [], []
                reader = reader_of(stream)
                pass_to_image(reader, lambda head, lines: replies.extend(lines) if head.startswith(b"session 0 ") else None)
                read_entries(reader, lambda head, pieces: found.append((head, b"".join(pieces))))
                told = [(head.path, (head.attribute, body) if head.is_file else None) for head, body in found]
                self.assertEqual(told, entries_of(image_in(whole)))
                self.assertEqual(len(replies), int(re.search(rb"\nsession 0 ([0-9]+)\n", whole)[1]))

    def test_the_first_word_of_several_lines(self):
        lines = lambda replies: iter(replies.replace(b",", b"\n,").split(b","))
        words = {b"ok 7,ok,ok\n": None, b"err namelong,err handle,err handle\n": "namelong", b"ok,err bad hmac,ok\n": "bad hmac"}
        for replies, word in words.items():
            self.assertEqual(first_word(lines(replies), 3), word)
        for replies in (b"ok,ok\n", b"ok,data -,ok\n"):
            with self.assertRaises(Refused):
                first_word(lines(replies), 3)


if __name__ == "__main__":
    sys.exit(run_over_program(__name__, "seal"))
