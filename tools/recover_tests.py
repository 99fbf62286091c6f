#!/usr/bin/env python3
"""The tests of tools/recover, over the built program.

    tools/recover_tests.py [PROGRAM]        PROGRAM is the built program, by default crates/mount_prog/out/mount_prog

The last line is `recover: N passed, M failed`, and the status is 1 where any test failed. Bodies are drawn: any octets are the
cipher text of some content, which one run of `show` tells.
"""
import argparse
import os
import pty
import shutil
import socket
import stat
import struct
import subprocess
import sys
import tempfile
import unittest
from unittest import mock

from checks import ecryptfs_devices, jobs_for
from content_jobs import batches_of
from lower_walk import Entry, Found, Kind
from testing import LINUX, PROGRAM, SALT, SECONDS, TOOLS, TOP, InRoom, drawn, read, run_over_program, signature

OTHER_SALT = bytes.fromhex("8899aabbccddeeff")
SIZES = [0, 1, 4096, 5000, 70_000]
SIGNATURES = {salt: signature(salt) for salt in (SALT, OTHER_SALT)}


def metadata(size, salt=SALT, ours=None, cipher=7, version=3):
    mark = drawn(f"mark {size}", 4)
    second = struct.pack(">I", struct.unpack(">I", mark)[0] ^ 0x3C81B7F5)
    fixed = struct.pack(">Q", size) + mark + second + bytes([version, 0, 0, 2]) + struct.pack(">IH", 4096, 2)
    tag3 = bytes([0x8C, 0x1D, 4, cipher, 3, 1]) + salt + b"\x60" + drawn(f"wrapped key {size}", 16)
    return fixed + tag3 + bytes.fromhex("ed166208") + b"_CONSOLE" + bytes(4) + (ours or SIGNATURES[salt])


def body(size, **words):
    return metadata(size, **words).ljust(8192, b"\0") + drawn(f"extents {size}", -(-size // 4096) * 4096)


BODIES = {size: body(size) for size in SIZES}


class Recover(InRoom):
    contents = {}

    @classmethod
    def setUpClass(cls):
        """What the bodies decode to, by one job of tools/pack."""
        if Recover.contents:
            return
        with tempfile.TemporaryDirectory() as room:
            os.mkdir(os.path.join(room, "lower"))
            for size, octets in BODIES.items():
                with open(os.path.join(room, "lower", str(size)), "wb") as file:
                    file.write(octets)
            with open(os.path.join(room, "passphrase"), "wb") as file:
                file.write(b"test")
            pack = [sys.executable, os.path.join(TOOLS, "pack"), "--passphrase-file", os.path.join(room, "passphrase")]
            job = subprocess.run([*pack, os.path.join(room, "lower")], capture_output=True, check=True).stdout
        shown = subprocess.run([PROGRAM, "show"], input=job, capture_output=True, check=True).stdout
        rows = [line.split() for line in shown.splitlines() if line.startswith(b"f ")]
        Recover.contents = {int(row[2][1:]): bytes.fromhex(row[5].decode().strip("-")) for row in rows}

    def lower(self, *sizes):
        """A small lower tree: a file of each size, and one below a directory."""
        for size in sizes or (1, 5000):
            self.write(f"lower/{size}", BODIES[size])
            self.write(f"lower/sub/{size}", BODIES[size])

    def run_tool(self, *words, **more):
        return self.run_named("recover", *words, **more)

    def recover(self, *words, lower="lower", target="home", **more):
        return self.run_tool("--passphrase-file", self.at("passphrase"), "--jobs", "2", lower, target, *words, **more)

    def recovered(self, *words, **more):
        ran = self.recover(*words, **more)
        self.assertEqual((ran.returncode, ran.stderr), (0, b""), ran.stdout)
        self.assertFalse(os.path.exists(self.at("home.recover.left_out")))
        return ran.stdout

    def left_out(self, ran):
        """The list of what was left out, as causes by their paths."""
        self.assertEqual(ran.returncode, 3, ran.stderr + ran.stdout)
        lines = read(self.at("home.recover.left_out")).decode().splitlines()[1:]
        return {path: why for why, _, path in (line.rpartition(": ") for line in lines)}

    def refused(self, ran, why, status=1):
        """One line that says why, and nothing written."""
        self.assertEqual((ran.returncode, ran.stdout, ran.stderr.count(b"\n")), (status, b"", 1), ran.stderr)
        self.assertIn(why, ran.stderr)
        written = [name for name in os.listdir(self.room) if name.startswith("home")]
        self.assertEqual(written, [])

    def assert_whole(self, paths):
        """The target has exactly these files, with what their lower files decode to: the size is the name's front."""
        found = [os.path.join(at, name) for at, _, names in os.walk(self.at("home")) for name in names]
        self.assertEqual(sorted(os.path.relpath(path, self.at("home")) for path in found), sorted(map(os.fsencode, paths)))
        wrong = [path for path in found if read(path) != self.contents[int(os.path.basename(path).split(b"_")[0])]]
        self.assertEqual(wrong, [])


class Trees(Recover):
    def test_a_tree_that_linux_wrote(self):
        lower = os.path.join(TOP, "examples", "lower")
        pass_file = os.path.join(TOP, "examples", "passphrase")
        ran = self.run_tool("--passphrase-file", pass_file, lower, self.at("home"))
        self.assertEqual((ran.returncode, ran.stderr), (0, b""))
        self.assertEqual(ran.stdout, b"4 files and 1 directories written, 9097 octets\n")
        rows = [line.split() for line in read(os.path.join(LINUX, "linux_header_plain.show")).splitlines()]
        wanted = {int(row[4]): bytes.fromhex(row[5].decode().strip("-")) for row in rows if row[0] == b"f"}
        for name, size in {"none": 0, "one": 1, "sub/more": 5000, "sub/page": 4096}.items():
            self.assertEqual(read(self.at("home/" + name)), wanted[size])

    def test_metadata_in_attributes(self):
        self.lower(1)
        path = self.write("lower/5000", BODIES[5000][8192:])
        try:
            os.setxattr(path, "user.ecryptfs", metadata(5000))
        except OSError:
            self.skipTest("the file system has no attributes")
        self.recovered()
        self.assert_whole(["1", "sub/1", "5000"])

    def test_ten_thousand_files_and_a_directory_of_five_thousand(self):
        paths = [f"wide/{SIZES[number % 3]}_{number}" for number in range(5000)]
        paths += [f"d{number % 7}/e{number % 11}/f{number % 13}/{SIZES[number % 5 % 4]}_{number}" for number in range(5000)]
        for folder in {os.path.dirname(path) for path in paths}:
            os.makedirs(self.at("lower/" + folder))
        for path in paths:
            with open(self.at("lower/" + path), "wb") as file:
                file.write(BODIES[int(os.path.basename(path).split("_")[0])])
        self.assertIn(b"10000 files and ", self.recovered())
        self.assert_whole(paths)

    def test_names_that_are_no_text(self):
        names = [b"1_\xff\xfe", b"1_a b", b"1_\n", b"1_%41", "1_ä".encode(), b"1_" + b"x" * 253]
        for name in names:
            self.write(b"lower/sub\n/" + name, BODIES[1])
        self.recovered()
        self.assert_whole([b"sub\n/" + name for name in names])

    def test_an_empty_file_comes_out_empty_and_an_empty_directory_too(self):
        self.lower(1)
        self.write("lower/0_none", b"")
        os.mkdir(self.at("lower/empty"))
        self.recovered()
        self.assert_whole(["1", "sub/1", "0_none"])
        self.assertTrue(os.path.isdir(self.at("home/empty")))

    def test_modes_times_and_owners(self):
        self.lower(1)
        os.chmod(self.at("lower/1"), 0o6751)
        os.utime(self.at("lower/1"), ns=(10**18 + 1, 10**18 + 2))
        os.chmod(self.at("lower/sub"), 0o555)
        os.utime(self.at("lower/sub"), ns=(10**18 + 3, 10**18 + 4))
        if os.geteuid() == 0:
            os.chown(self.at("lower/1"), 1234, 5678)
            os.chmod(self.at("lower/1"), 0o6751)
        self.recovered()
        found, folder = os.stat(self.at("home/1")), os.stat(self.at("home/sub"))
        self.assertEqual((stat.S_IMODE(found.st_mode), found.st_mtime_ns), (0o751, 10**18 + 2))
        self.assertEqual((stat.S_IMODE(folder.st_mode), folder.st_mtime_ns), (0o555, 10**18 + 4))
        if os.geteuid() == 0:
            self.assertEqual((found.st_uid, found.st_gid), (1234, 5678))
        os.chmod(self.at("lower/sub"), 0o755)

    def test_a_file_is_written_under_a_number_for_its_owner_alone(self):
        self.write("lower/1", BODIES[1])
        os.chmod(self.at("lower/1"), 0o644)
        look = '[ "$calls" -eq 2 ] || exec $program "$@"\n$program "$@"\nsleep 1\nfind home -type f -printf "%P %m %s\\n" > seen'
        self.recovered(*self.program(look))
        self.assertRegex(read(self.at("seen")), rb"^\.recover-[0-9a-f]{8}/1 600 1\n$")
        self.assertEqual(stat.S_IMODE(os.stat(self.at("home/1")).st_mode), 0o644)

    def test_bodies_with_holes(self):
        octets = metadata(70_000).ljust(8192, b"\0") + bytes(18 * 4096)
        self.write("lower/whole", octets)
        self.write("lower/holes", octets[:8192])
        os.truncate(self.at("lower/holes"), len(octets))
        self.write("lower/1", BODIES[1])
        os.truncate(self.at("lower/1"), 1 << 33)
        self.recovered()
        whole = read(self.at("home/whole"))
        self.assertEqual(len(whole), 70_000)
        self.assertEqual((read(self.at("home/holes")), read(self.at("home/1"))), (whole, self.contents[1]))

    def test_the_passphrase_is_asked_for(self):
        self.lower(1)
        # (without a terminal the question and the answer go over the standard streams)
        ran = self.run_tool("lower", "home", given=b"test\n")
        self.assertEqual(ran.returncode, 0, ran.stderr)
        self.assert_whole(["1", "sub/1"])

    def test_a_line_of_progress_on_a_terminal(self):
        self.lower(1, 70_000)
        ours, theirs = pty.openpty()
        words = ["--program", self.program('[ "$calls" -eq 2 ] && sleep 1\nexec $program "$@"')[1], "--passphrase-file", self.at("passphrase")]
        command = [sys.executable, os.path.join(TOOLS, "recover"), *words, self.at("lower"), self.at("home")]
        ran = subprocess.run(command, stdout=subprocess.PIPE, stderr=theirs, timeout=SECONDS)
        os.close(theirs)
        with os.fdopen(ours, "rb", buffering=0) as terminal:
            shown = terminal.read(100_000)
        self.assertRegex(shown, rb"\r\x1b\[K0 files, 0 of 0 MB, 0 MB/s.*\r\x1b\[K$")
        self.assertEqual((ran.returncode, ran.stdout.count(b"\n")), (0, 1))

    def test_hard_links_stay_links(self):
        self.lower(5000)
        os.link(self.at("lower/5000"), self.at("lower/sub/5000_again"))
        self.recovered()
        self.assert_whole(["5000", "sub/5000", "sub/5000_again"])
        self.assertTrue(os.path.samefile(self.at("home/5000"), self.at("home/sub/5000_again")))


class LeftOut(Recover):
    def test_bad_files_are_named_with_their_causes(self):
        self.lower(1)
        bad = {
            "short": (b"x", "bad short 1"),
            "marker": (bytes(9000), "bad marker 00000000 00000000"),
            "version": (body(1, version=4), "bad version 4"),
            "cipher": (body(1, cipher=8), "bad cipher 8"),
            "wrongkey": (body(1, ours=bytes(8)), f"bad wrongkey {bytes(8).hex()} {SIGNATURES[SALT].hex()}"),
            "shortdata": (BODIES[5000][:-1], "bad shortdata 16383 16384"),
            "large": (metadata(67_108_865), "too large: 67108865 octets"),
        }
        for name, (octets, _) in bad.items():
            self.write("lower/sub/" + name, octets)
        ran = self.recover()
        self.assertEqual(self.left_out(ran), {"/sub/" + name: why for name, (_, why) in bad.items()})
        self.assertIn(b"7 of 10 entries left out", ran.stdout)
        self.assertIn(b"1 bad wrongkey\n", ran.stdout)
        self.assert_whole(["1", "sub/1"])

    def test_links_sockets_and_pipes_are_named_and_not_followed(self):
        self.lower(1)
        os.symlink(self.at("passphrase"), self.at("lower/sub/link"))
        os.symlink("/", self.at("lower/root"))
        os.mkfifo(self.at("lower/pipe"))
        with socket.socket(socket.AF_UNIX) as one:
            one.bind(self.at("lower/socket"))
        wanted = {"/sub/link": "symbolic link", "/root": "symbolic link", "/pipe": "pipe", "/socket": "socket"}
        self.assertEqual(self.left_out(self.recover()), wanted)
        self.assert_whole(["1", "sub/1"])

    def test_what_cannot_be_read_is_named(self):
        self.lower(1)
        self.write("lower/closed", BODIES[1])
        self.write("lower/shut/1", BODIES[1])
        os.chmod(self.at("lower/closed"), 0)
        os.chmod(self.at("lower/shut"), 0)
        # (root may read all, unless it gives that up)
        within = ["setpriv", "--bounding-set", "-dac_override,-dac_read_search"] if os.geteuid() == 0 else []
        if within and shutil.which("setpriv") is None:
            self.skipTest("root can read all")
        ran = self.recover(within=within)
        wanted = {"/closed": "unreadable: Permission denied", "/shut": "unreadable: Permission denied"}
        self.assertEqual(self.left_out(ran), wanted)
        self.assert_whole(["1", "sub/1"])
        os.chmod(self.at("lower/shut"), 0o755)

    def test_an_error_of_the_disk_is_named(self):
        self.lower(1, 5000)
        self.write("lower/shut/1", BODIES[1])
        patch = """
def failing(call, end):
    def called(file, *more):
        if isinstance(file, int) and os.readlink(f"/proc/self/fd/{file}").endswith(end):
            raise OSError(5, "Input/output error")
        return call(file, *more)
    return called
os.read, os.listdir = failing(os.read, "/sub/5000"), failing(os.listdir, "/shut")
"""
        wanted = {"/sub/5000": "unreadable: Input/output error", "/shut": "unreadable: Input/output error"}
        self.assertEqual(self.left_out(self.recover(patch=patch)), wanted)
        self.assert_whole(["1", "sub/1", "5000"])

    def test_what_stands_on_another_file_system_is_named(self):
        self.lower(1)
        os.makedirs(self.at("lower/sub/disk"))
        if os.geteuid() or subprocess.run(["mount", "-t", "tmpfs", "none", self.at("lower/sub/disk")], capture_output=True).returncode:
            self.skipTest("no small file system can be mounted")
        self.addCleanup(subprocess.run, ["umount", self.at("lower/sub/disk")])
        self.write("lower/sub/disk/1", BODIES[1])
        self.assertEqual(self.left_out(self.recover()), {"/sub/disk": "on another file system"})
        self.assert_whole(["1", "sub/1"])

    def test_what_the_target_refuses(self):
        self.lower(1, 5000)
        os.mkdir(self.at("lower/colon"))
        self.write("lower/colon/1", BODIES[1])
        patch = """
def refusing(call, refused):
    def called(first, *more, **words):
        if refused in (first, *more):
            raise OSError(22, "Invalid argument")
        return call(first, *more, **words)
    return called
def utime(*words, **more):
    raise PermissionError(1, "Operation not permitted")
os.rename, os.mkdir, os.utime = refusing(os.rename, b"5000"), refusing(os.mkdir, b"colon"), utime
"""
        ran = self.recover(patch=patch)
        refused = "refused by the target: Invalid argument"
        wanted = {"/5000": refused, "/sub/5000": refused, "/colon": refused, "/colon/1": "below a directory that was left out"}
        self.assertEqual(self.left_out(ran), wanted)
        # (five files are marked, before two of them are refused; one directory, and the target itself)
        self.assertIn(b"\n6 times the target refused an owner, a mode or times\n", ran.stdout)
        self.assert_whole(["1", "sub/1"])

    def test_a_file_that_changes_meanwhile_is_named(self):
        self.lower(1)
        large = self.write("lower/large", body(4_000_000))
        ran = self.recover(*self.program('[ "$calls" -eq 2 ] && echo >> lower/large\nexec $program "$@"'))
        self.assertEqual(self.left_out(ran), {"/large": "changed while it was read"})
        self.assertEqual(os.path.getsize(large), 8192 + 4_001_792 + 1)
        self.assert_whole(["1", "sub/1"])

    def test_where_the_program_fails_on_a_file_that_alone_is_left_out(self):
        self.lower(1, 4096, 5000)
        self.write("lower/sub/1_worst", BODIES[1])
        ran = self.recover(*self.program('cat > job$$\ngrep -q 1_worst job$$ && exit 1\nexec $program "$@" < job$$'))
        self.assertEqual(self.left_out(ran), {"/sub/1_worst": "the program failed: status 1"})
        self.assert_whole(["1", "4096", "5000", "sub/1", "sub/4096", "sub/5000"])

    def test_what_stands_in_the_target_is_left_alone_and_named(self):
        self.lower(1)
        self.write("home/1", b"other")
        os.mkdir(self.at("elsewhere"))
        os.symlink("../elsewhere", self.at("home/sub"))
        there = "in the way in the target"
        wanted = {"/1": there, "/sub": there, "/sub/1": "below a directory that was left out"}
        self.assertEqual(self.left_out(self.recover()), wanted)
        self.assertEqual((read(self.at("home/1")), os.listdir(self.at("elsewhere"))), (b"other", []))
        self.assertTrue(os.path.islink(self.at("home/sub")))

    def test_a_path_that_would_leave_the_target_is_not_written(self):
        self.lower(1)
        lines = "ecryptfs-show 1\\nf 1 /../evil good 1 41\\nend\\n"
        ran = self.recover(*self.program(f'[ "$calls" -eq 1 ] && exec $program "$@"\ncat > job\nprintf "{lines}"'))
        self.assertEqual(ran.returncode, 4, ran.stderr)
        self.assertIn(b"2 of 3 entries left out", ran.stdout)
        self.assertFalse(os.path.exists(self.at("evil")))
        self.assertEqual([names for _, _, names in os.walk(self.at("home"))], [[], []])


class Refusals(Recover):
    def test_a_passphrase_that_opens_nothing(self):
        self.lower(1)
        self.write("passphrase", b"other\n")
        self.refused(self.recover(), b"no file opens with this passphrase: its signature is ", status=4)
        self.assertIn(SIGNATURES[SALT].hex().encode(), self.recover().stderr)

    def test_a_salt_is_found_in_the_files_and_a_given_one_is_taken_alone(self):
        self.write("lower/1", body(1, salt=OTHER_SALT))
        self.write("salt", SALT.hex().encode())
        self.refused(self.recover("--salt-file", self.at("salt")), b"no file opens", status=4)
        self.recovered()

    def test_aes_256_is_told(self):
        self.write("lower/1", body(1, cipher=9))
        self.refused(self.recover(), b"AES-256, which isn't read yet", status=4)

    def test_a_target_in_the_lower_tree_or_around_it(self):
        self.lower(1)
        os.symlink("lower", self.at("link"))
        for target in ("lower", "lower/home", "lower/sub", "link/sub", "."):
            with self.subTest(target):
                before = sorted(os.listdir(self.at("lower")))
                self.refused(self.recover(target=target), b"lower tree")
                self.assertEqual(sorted(os.listdir(self.at("lower"))), before)
        self.refused(self.recover("--record", "lower/record"), b"it would stand in the lower tree")
        self.recovered(lower="link")

    def test_what_is_no_lower_tree(self):
        self.write("lower/f", b"clear")
        self.refused(self.recover(), b"no file in it is encrypted")
        self.write("private/1", BODIES[1])
        os.symlink("../private", self.at("lower/.Private"))
        self.refused(self.recover(), b"the lower tree is " + self.at("private"))
        self.refused(self.recover(lower="away"), b"away: No such file")

    def test_a_program_that_does_not_read_coded_names(self):
        self.write("lower/sub/ECRYPTFS_FNEK_ENCRYPTED.FWabc", BODIES[1])
        program = self.program('cat > job$$\ngrep -aq "^names tag70" job$$ && exit 3\nexec $program "$@" < job$$')
        self.refused(self.recover(*program), b"doesn't do an empty job with tag70 names (status 3)")

    def test_a_program_that_is_none(self):
        self.lower(1)
        self.refused(self.recover("--program", self.at("away")), b"No such file or directory")
        self.refused(self.recover(*self.program("exit 3")), b"doesn't do an empty job with plain names (status 3)")

    def test_a_record_and_a_list_that_are_none(self):
        self.lower(1)
        for name in ("record", "record.left_out"):
            self.write(name, b"mine\n")
            self.refused(self.recover("--record", self.at("record")), b"it is no ")
            self.assertEqual(read(self.at(name)), b"mine\n")
            os.remove(self.at(name))

    def test_words_and_help(self):
        self.assertEqual(self.run_tool("lower").returncode, 2)
        self.assertEqual(self.recover("--jobs", "0").returncode, 2)
        self.assertIn(b"is no part of what is proved", self.run_tool("--help").stdout)


class Parts(unittest.TestCase):
    """What no run shows."""

    def test_batches_are_within_their_bounds(self):
        entry = lambda path, parent, kind, size: Entry(path, parent, kind, Found(1, size, 0, 0, 0, 0, 0, 0))
        above = None
        for depth in range(1, 11):
            above = entry(b"d" * (2 * depth - 1), above, Kind.DIRECTORY, 0)
        sizes = [30_000_000] * 5 + [68_000_000] + [1] * 9000
        files = [entry(b"%s/%05d" % (above.path, number), above, Kind.FILE, size) for number, size in enumerate(sizes)]
        batches = [*batches_of(files)]
        self.assertEqual([each for batch in batches for each in batch.own], files)
        self.assertEqual([len(batch.own) for batch in batches], [2, 2, 1, 1, 4085, 4085, 830])
        for batch in batches:
            self.assertLessEqual(len(batch.nodes), 4095)
            self.assertTrue(len(batch.own) == 1 or sum(each.octets for each in batch.own) <= 67_108_864)

    def test_an_ecryptfs_is_found_among_the_mounts(self):
        rows = ["36 35 98:0 / / rw - ext4 /dev/sda rw", "40 36 0:52 / /home/u rw shared:1 master:2 - ecryptfs /home/.ecryptfs rw"]
        self.assertEqual(ecryptfs_devices(rows), {"0:52"})

    def test_programs_are_within_the_processors_and_half_of_the_memory(self):
        gibibyte, wanted = 1 << 30, {(8, 2): 2, (8, 64): 8, (4, 0.5): 1, (1, 64): 1}
        for (processors, memory), count in wanted.items():
            sizes = {"SC_PAGE_SIZE": 4096, "SC_PHYS_PAGES": int(memory * gibibyte) // 4096}
            with mock.patch("os.sysconf", sizes.get), mock.patch("os.sched_getaffinity", lambda process: range(processors)):
                self.assertEqual(jobs_for(argparse.Namespace(jobs=None), 1 << 29), count)
                self.assertEqual(jobs_for(argparse.Namespace(jobs=3), 1 << 29), 3)


class Again(Recover):
    def test_a_stop_and_a_second_start(self):
        paths = [f"{SIZES[number % 2]}_{number:04}" for number in range(4500)] + ["z/1"]
        os.makedirs(self.at("lower/z"))
        for path in paths:
            with open(self.at("lower/" + path), "wb") as file:
                file.write(BODIES[1] if path.startswith("1") or path == "z/1" else b"")
        stop = '[ "$calls" -eq 3 ] && kill -TERM $PPID && sleep 20\nexec $program "$@"'
        ran = self.recover("--jobs", "1", *self.program(stop))
        self.assertEqual(ran.returncode, 128 + 15, ran.stderr + ran.stdout)
        self.assertIn(b"the same command goes on from here", ran.stderr)
        first = os.listdir(self.at("home"))
        self.assertEqual([name for name in first if name.startswith(b".recover")], [])
        self.assertEqual(len(first), 1 + 4095)
        self.assertIn(b"\n4096 entries stood there", self.recovered())
        self.assert_whole(paths)

    def test_a_second_start_does_what_was_added_or_changed(self):
        self.lower(1)
        self.recovered()
        self.write("lower/sub/4096", BODIES[4096])
        self.write("lower/1", BODIES[5000])
        os.chmod(self.at("home/sub"), 0o555)
        self.assertIn(b"2 files and 0 directories written", self.recovered())
        self.assertEqual(read(self.at("home/1")), self.contents[5000])
        self.assertEqual(stat.S_IMODE(os.stat(self.at("home/sub")).st_mode), stat.S_IMODE(os.stat(self.at("lower/sub")).st_mode))
        self.assertIn(b"0 files and 0 directories written", self.recovered())
        os.remove(self.at("home/sub/1"))
        self.write("lower/1", BODIES[1])
        self.write("home/1", b"mine")
        self.assertEqual(self.left_out(self.recover()), {"/1": "in the way in the target"})
        self.assertEqual((read(self.at("home/1")), read(self.at("home/sub/1"))), (b"mine", self.contents[1]))

    def test_a_record_in_another_place(self):
        self.lower(1)
        self.write("lower/bad", b"x")
        os.mkdir(self.at("records"))
        record = ["--record", "records/one"]
        self.assertEqual(self.recover(*record).returncode, 3)
        self.assertEqual(sorted(os.listdir(self.at("records"))), [b"one", b"one.left_out"])
        self.assertFalse(os.path.exists(self.at("home.recover")))
        self.assertIn(b"0 files and 0 directories written, 0 octets\n3 entries stood there", self.recover(*record).stdout)
        there = "in the way in the target"
        below = "below a directory that was left out"
        self.assertEqual(self.left_out(self.recover()), {"/1": there, "/bad": "bad short 1", "/sub": there, "/sub/1": below})

    def test_a_record_that_was_cut_goes_on(self):
        self.lower(1)
        self.recovered()
        record = read(self.at("home.recover"))
        self.write("home.recover", record[: record.rindex(b"/sub/1") - 3])
        os.remove(self.at("home/sub/1"))
        os.mkdir(self.at("home/" + record.split()[2].decode()))
        self.write("home/" + record.split()[2].decode() + "/17", b"not whole")
        self.recovered()
        self.assert_whole(["1", "sub/1"])

    def test_a_full_target(self):
        os.mkdir(self.at("disk"))
        mount = ["mount", "-t", "tmpfs", "-o", "size=1m", "none", self.at("disk")]
        if os.geteuid() or subprocess.run(mount, capture_output=True).returncode:
            self.skipTest("no small file system can be mounted")
        self.addCleanup(subprocess.run, ["umount", self.at("disk")])
        for number in range(600):
            self.write(f"lower/1_{number}", BODIES[1])
        record = ["--record", self.at("disk/record")]
        ran = self.recover(*record, target="disk/home")
        self.assertEqual(ran.returncode, 3, ran.stderr + ran.stdout)
        self.assertIn(b"No space left on device; the same command goes on from here", ran.stderr)
        self.assertEqual([name for name in os.listdir(self.at("disk/home")) if not name.startswith(b"1_")], [])
        subprocess.run(["mount", "-o", "remount,size=8m", self.at("disk")], check=True)
        ran = self.recover(*record, target="disk/home")
        self.assertEqual((ran.returncode, len(os.listdir(self.at("disk/home")))), (0, 600), ran.stderr)
        self.write("lower/large", body(9_000_000))
        ran = self.recover(*record, target="disk/home")
        self.assertEqual(ran.returncode, 1)
        self.assertIn(b"the files have 9000000 octets, and ", ran.stderr)


if __name__ == "__main__":
    sys.exit(run_over_program(__name__, "recover"))
