#!/usr/bin/env python3
"""The tests of tools/pack and tools/unpack, and of the trips from a lower tree over the program to a folder or a tar file.

    tools/tests.py [PROGRAM]        PROGRAM is the built program, by default crates/mount_prog/out/mount_prog

Where the program isn't built, the trips over it fail. The last line is `tools: N passed, M failed`, and the status is 1 where
any test failed.
"""
import errno
import io
import os
import re
import socket
import subprocess
import sys
import tarfile
import tempfile
import unittest

from testing import LINUX, PROGRAM, SALT, TOOLS, TOP, UTILS_NAME_SALT, coded, drawn, read, run_tests, signature

XATTR = "SCHILY.xattr.user.ecryptfs"

# The texts as docs/TEXTS.md has them, written out by hand.
HEAD = b"ecryptfs-job 1\npassphrase 74657374\nsalt 0011223344556677\nnamesalt 0011223344556677\nnames plain\nmeta header\nrandom "


def job(image, scripts=b"script 0\n", sessions=1, schedule=b"schedule"):
    return HEAD + b"0" * 64 + b"\nimage %d\n" % len(image) + image + b"\nsessions %d\n" % sessions + scripts + schedule + b"\nend\n"


def without_random(octets):
    """A job with zeros in place of its random octets, which are others each time."""
    return re.sub(rb"\nrandom [0-9a-f]{64}\n", b"\nrandom " + b"0" * 64 + b"\n", octets, count=1)


def report(image):
    parts = b"session 0 2\nok\nnames d:a\ntree 2\n0 0 0 0 mkdir /a = ok\n0 1 0 0 list / = names d:a\n"
    return b"ecryptfs-report 1\n" + parts + b"image %d\n" % len(image) + image + b"\nend\n"


def image_in(octets):
    found = re.search(rb"\nimage ([0-9]+)\n", octets)
    return octets[found.end() :][: int(found[1])]


def entries_of(image):
    """The entries of an image as (path, None) for a directory and (path, (attribute, body)) for a file."""
    stream = io.BytesIO(image)
    stream.seek(8)
    number = lambda octets: int.from_bytes(stream.read(octets), "big")
    parts, found = [], []
    for _ in range(number(4)):
        level, kind, length = number(2), number(1), number(1)
        parts[level - 1 :] = [stream.read(length)]
        attribute = stream.read(number(4)) if kind and number(1) else None
        found.append((b"/".join(parts), (attribute, stream.read(number(4))) if kind else None))
    return found


def shown_files(text):
    """The contents of the good files of a show text, by their paths."""
    rows = (line.split() for line in text.splitlines())
    return {row[2][1:]: bytes.fromhex(row[5].decode().strip("-")) for row in rows if row[3:4] == [b"good"]}


def metadata(salt, cipher=7):
    """The attribute of a file that is sealed with the passphrase `test` under this salt."""
    fixed = bytes(8) + bytes.fromhex("00000000 3c81b7f5 03000002 00001000 0002")
    tag3 = bytes([0x8C, 0x1D, 4, cipher, 3, 1]) + salt + b"\x60" + bytes(16)
    return fixed + tag3 + bytes.fromhex("ed166208") + b"_CONSOLE" + bytes(4) + signature(salt)


def coded_name(name_signature, cipher=7):
    """A coded lower name with this signature."""
    return coded(b"\x46\x29" + name_signature + bytes([cipher]) + drawn("name", 32))


def files_below(folder):
    folder = os.fsencode(folder)
    paths = [os.path.join(at, name) for at, _, names in os.walk(folder) for name in names]
    return {os.path.relpath(path, folder): read(path) for path in paths}


class Tools(unittest.TestCase):
    def setUp(self):
        room = tempfile.TemporaryDirectory()
        self.addCleanup(room.cleanup)
        self.room = room.name
        self.write("passphrase", b"test\n")

    def at(self, name):
        return os.path.join(self.room, name)

    def write(self, name, octets):
        with open(self.at(name), "wb") as file:
            file.write(octets)
        return self.at(name)

    def tar(self, *members, format=tarfile.PAX_FORMAT):
        """A tar file of (name, octets or None for a directory or a type of member, attribute)."""
        with tarfile.open(self.at("tree.tar"), "w", format=format) as tar:
            for name, what, *attribute in members:
                member = tarfile.TarInfo(name)
                if isinstance(what, io.BytesIO):
                    member.size = len(what.getvalue())
                else:
                    member.type = what
                member.linkname = "a" if what in (tarfile.SYMTYPE, tarfile.LNKTYPE) else ""
                if attribute:
                    member.pax_headers = {XATTR: attribute[0].decode("utf-8", "surrogateescape")}
                tar.addfile(member, what if isinstance(what, io.BytesIO) else None)
        return self.at("tree.tar")

    def run_tool(self, name, *words, given=b""):
        command = [sys.executable, os.path.join(TOOLS, name), *words]
        return subprocess.run(command, input=given, capture_output=True, cwd=self.room, start_new_session=True)

    def pack(self, tree, *words):
        return self.run_tool("pack", tree, "--passphrase-file", self.at("passphrase"), *words)

    def packed(self, tree, *words):
        ran = self.pack(tree, *words)
        self.assertEqual((ran.returncode, ran.stderr), (0, b""))
        return without_random(ran.stdout)

    def set_attribute(self, path, octets):
        try:
            os.setxattr(path, "user.ecryptfs", octets)
        except OSError as error:
            if error.errno != errno.ENOTSUP:
                raise
            self.skipTest("the file system has no attributes")

    def refused(self, ran, why):
        """One line on standard error that says why, status 1, and nothing written."""
        self.assertEqual(ran.returncode, 1)
        self.assertEqual(ran.stdout, b"")
        self.assertEqual(ran.stderr.count(b"\n"), 1, ran.stderr)
        self.assertIn(why, ran.stderr)


class Pack(Tools):
    def test_an_empty_folder_is_the_empty_image(self):
        os.mkdir(self.at("tree"))
        self.assertEqual(self.packed("tree"), job(b"ECRYIMG1\0\0\0\0"))

    def test_a_directory_and_a_file_stand_as_entries(self):
        os.makedirs(self.at("tree/b"))
        self.write("tree/b/g", b"xy")
        self.write("tree/a", b"")
        entries = b"\0\1\1\1a\0\0\0\0\0" + b"\0\1\0\1b" + b"\0\2\1\1g\0\0\0\0\2xy"
        self.assertEqual(self.packed("tree"), job(b"ECRYIMG1\0\0\0\3" + entries))

    def test_entries_stand_in_octet_order(self):
        names = [b"\xff", b"a", b"a.", b"a-", b"B", "ä".encode()]
        os.makedirs(self.at("tree/a"))
        for name in names:
            if name != b"a":
                os.mkdir(os.path.join(os.fsencode(self.at("tree")), name))
        self.write("tree/a/z", b"")
        paths = [path for path, _ in entries_of(image_in(self.packed("tree")))]
        self.assertEqual(paths, [b"B", b"a", b"a/z", b"a-", b"a.", "ä".encode(), b"\xff"])

    def test_the_attribute_of_a_file_in_a_folder(self):
        os.mkdir(self.at("tree"))
        self.set_attribute(self.write("tree/f", b""), b"\0\xff\n")
        self.assertEqual(image_in(self.packed("tree")), b"ECRYIMG1\0\0\0\1\0\1\1\1f\1\0\0\0\3\0\xff\n\0\0\0\0")

    def test_the_attribute_of_a_file_in_a_tar_file(self):
        tree = self.tar(("f", io.BytesIO(b""), b"\0\xff\n=\xc3\xa4"), ("g", io.BytesIO(b"x")))
        entries = b"\0\1\1\1f\1\0\0\0\6\0\xff\n=\xc3\xa4\0\0\0\0" + b"\0\1\1\1g\0\0\0\0\1x"
        self.assertEqual(self.packed(tree), job(b"ECRYIMG1\0\0\0\2" + entries))

    def test_names_that_are_no_text_come_out_of_a_tar_file_as_they_are(self):
        for format in (tarfile.PAX_FORMAT, tarfile.GNU_FORMAT):
            name = b"./\xff\xc3\xa4 ".decode("utf-8", "surrogateescape")
            tree = self.tar(("./", tarfile.DIRTYPE), (name, tarfile.DIRTYPE), format=format)
            self.assertEqual(entries_of(image_in(self.packed(tree))), [(b"\xff\xc3\xa4 ", None)])

    def test_directories_that_a_tar_file_does_not_name(self):
        tree = self.tar(("a/b/f", io.BytesIO(b"1")))
        self.assertEqual(entries_of(image_in(self.packed(tree))), [(b"a", None), (b"a/b", None), (b"a/b/f", (None, b"1"))])

    def test_random_octets_are_others_each_time(self):
        os.mkdir(self.at("tree"))
        self.assertNotEqual(self.pack("tree").stdout, self.pack("tree").stdout)

    def test_the_tar_program_and_pack_agree(self):
        os.makedirs(self.at("tree/a" + "b" * 150))
        file = self.write("tree/a" + "b" * 150 + "/f", b"123")
        try:
            os.setxattr(file, "user.ecryptfs", bytes(range(256)))
        except OSError as error:
            if error.errno != errno.ENOTSUP:
                raise
        words = ["--format=pax", "--xattrs", "--xattrs-include=user.*", "-C", self.at("tree"), "-cf", self.at("made.tar"), "."]
        subprocess.run(["tar", *words], check=True)
        self.assertEqual(self.packed("made.tar"), self.packed("tree"))

    def test_4095_entries_are_packed_and_4096_refused(self):
        os.mkdir(self.at("tree"))
        for number in range(4095):
            os.mkdir(self.at(f"tree/{number}"))
        self.assertEqual(image_in(self.packed("tree"))[8:12], b"\0\0\x0f\xff")
        self.write("tree/f", b"")
        self.refused(self.pack("tree"), b"more than 4095 entries")

    def test_names_of_255_octets_are_packed_and_of_256_refused(self):
        self.packed(self.tar(("a" * 255, tarfile.DIRTYPE)))
        self.refused(self.pack(self.tar(("a" * 256, tarfile.DIRTYPE))), b"more than 255 octets")

    def test_attributes_of_65536_octets_are_packed_and_of_65537_refused(self):
        self.packed(self.tar(("f", io.BytesIO(b""), bytes(65_536))))
        self.refused(self.pack(self.tar(("f", io.BytesIO(b""), bytes(65_537)))), b"the attribute has more than 65536 octets")

    def test_links_and_devices_in_a_folder_are_refused(self):
        makers = {
            "link": lambda path: os.symlink(self.at("passphrase"), path),
            "folder": lambda path: os.symlink(self.at("other"), path),
            "pipe": os.mkfifo,
            "socket": lambda path: socket.socket(socket.AF_UNIX).bind(path),
        }
        os.mkdir(self.at("tree"))
        os.mkdir(self.at("other"))
        for name, make in makers.items():
            with self.subTest(name):
                make(self.at("tree/" + name))
                self.refused(self.pack("tree", "-o", self.at("job")), f"pack: /{name}: it is neither".encode())
                self.assertFalse(os.path.exists(self.at("job")))
                os.remove(self.at("tree/" + name))

    def test_a_second_name_of_a_file_is_refused(self):
        os.mkdir(self.at("tree"))
        os.link(self.write("tree/f", b""), self.at("tree/g"))
        self.refused(self.pack("tree"), b"it is a link to another file of the tree")

    def test_links_and_devices_in_a_tar_file_are_refused(self):
        for kind in (tarfile.SYMTYPE, tarfile.LNKTYPE, tarfile.CHRTYPE, tarfile.BLKTYPE, tarfile.FIFOTYPE):
            with self.subTest(kind):
                why = b"a link to another file" if kind == tarfile.LNKTYPE else b"neither a file nor a directory"
                self.refused(self.pack(self.tar(("a", io.BytesIO(b"")), ("b", kind))), why)

    def test_a_tree_over_the_limit_of_a_job_is_refused(self):
        os.mkdir(self.at("tree"))
        with open(self.at("tree/f"), "wb") as file:
            file.truncate(268_435_457)
        self.refused(self.pack("tree", "-o", self.at("job")), b"more than 268435456 octets")
        self.assertFalse(os.path.exists(self.at("job")))
        os.truncate(self.at("tree/f"), 268_435_456)
        self.refused(self.pack("tree"), b"the job has more than 268435456 octets")

    def test_paths_of_a_tar_file_that_leave_the_tree_are_refused(self):
        for name in ("../f", "a/../../f", "/f"):
            with self.subTest(name):
                self.refused(self.pack(self.tar((name, io.BytesIO(b"")))), b"leads out of the tree")

    def test_what_a_tar_file_names_twice_is_refused(self):
        self.refused(self.pack(self.tar(("f", io.BytesIO(b"")), ("./f", io.BytesIO(b"")))), b"stands in the tree twice")
        self.refused(self.pack(self.tar(("f", io.BytesIO(b"")), ("f/g", io.BytesIO(b"")))), b"a part of the path is a file")

    def test_a_tar_file_that_is_cut_or_damaged_is_refused(self):
        whole = read(self.tar(("f", io.BytesIO(b"x" * 600)), ("g", io.BytesIO(b"y"))))
        self.refused(self.pack(self.write("cut.tar", whole[:1000])), b"pack: ")
        damaged = whole[:1536] + b"?" * 512 + whole[2048:]
        self.refused(self.pack(self.write("damaged.tar", damaged)), b"cut or damaged")
        self.refused(self.pack(self.write("none.tar", b"no tar file")), b"no tar file that can be read")

    def test_a_tree_that_is_not_there_is_refused(self):
        self.refused(self.pack("away"), b"away: No such file or directory")

    def test_a_line_end_in_a_name_leaves_the_refusal_on_one_line(self):
        os.mkdir(self.at("tree"))
        os.symlink("f", self.at("tree/a\nb"))
        self.refused(self.pack("tree"), b"/a%0ab")

    def test_the_output_file_is_for_its_owner_alone(self):
        os.mkdir(self.at("tree"))
        self.assertEqual(self.packed("tree", "-o", self.at("job")), b"")
        self.assertEqual(without_random(read(self.at("job"))), job(b"ECRYIMG1\0\0\0\0"))
        self.assertEqual(os.stat(self.at("job")).st_mode & 0o077, 0)

    def test_the_salt_of_a_file(self):
        os.mkdir(self.at("tree"))
        self.write("salt", b"0123456789abcdef\n")
        self.assertIn(b"\nsalt 0123456789abcdef\n", self.packed("tree", "--salt-file", self.at("salt")))
        for wrong in (b"", b"0123456789abcde\n", b"0123456789abcdeg\n"):
            self.write("salt", wrong)
            self.refused(self.pack("tree", "--salt-file", self.at("salt")), b"a salt has 16 hexadecimal digits")

    def test_passphrases_of_1_to_64_octets(self):
        os.mkdir(self.at("tree"))
        self.write("passphrase", b"p" * 64 + b"\n")
        self.assertIn(b"\npassphrase " + b"70" * 64 + b"\n", self.packed("tree"))
        for wrong in (b"\n", b"p" * 65):
            self.write("passphrase", wrong)
            self.refused(self.pack("tree"), b"a passphrase has 1 to 64 octets")

    def test_passphrase_and_salt_are_asked_for(self):
        os.mkdir(self.at("tree"))
        # (without a terminal the questions and answers go over the standard streams)
        self.assertEqual(without_random(self.run_tool("pack", "tree", given=b"test\n\n").stdout), job(b"ECRYIMG1\0\0\0\0"))
        ran = self.run_tool("pack", "tree", given=b"test\n0123456789abcdef\n")
        self.assertIn(b"\nsalt 0123456789abcdef\n", ran.stdout)
        self.assertEqual(self.run_tool("pack", "tree").returncode, 1)

    def test_a_script_stands_in_the_job_as_it_stands_in_its_file(self):
        os.mkdir(self.at("tree"))
        scripts = {b"": b"script 0\n", b"mkdir /a\nlist /\n": b"script 2\nmkdir /a\nlist /\n", b"\nno line": b"script 2\n\nno line\n"}
        for script, lines in scripts.items():
            self.write("script", script)
            self.assertEqual(self.packed("tree", "--script", self.at("script")), job(b"ECRYIMG1\0\0\0\0", lines))
        self.refused(self.pack("tree", "--script", "away"), b"away: No such file or directory")

    def test_each_script_is_a_session(self):
        os.mkdir(self.at("tree"))
        first, second = self.write("first", b"mkdir /a\nlist /\n"), self.write("second", b"stat /a")
        sessions = ["--script", first, "--script", second, "--script", first]
        scripts = b"script 2\nmkdir /a\nlist /\nscript 1\nstat /a\nscript 2\nmkdir /a\nlist /\n"
        self.assertEqual(self.packed("tree", *sessions), job(b"ECRYIMG1\0\0\0\0", scripts, 3))
        for text, line in ((b"", b"schedule"), (b" 0 1\n\n2\t0\r\n1", b"schedule 0 1 2 0 1")):
            packed = self.packed("tree", *sessions, "--schedule", self.write("turns", text))
            self.assertEqual(packed, job(b"ECRYIMG1\0\0\0\0", scripts, 3, line))
        most = self.packed("tree", *["--script", second] * 16, "--schedule", self.write("turns", b"15 0 10"))
        self.assertEqual(most, job(b"ECRYIMG1\0\0\0\0", b"script 1\nstat /a\n" * 16, 16, b"schedule 15 0 10"))

    def test_a_schedule_of_one_session(self):
        os.mkdir(self.at("tree"))
        packed = self.packed("tree", "--schedule", self.write("turns", b"0\n" * 1_048_576))
        self.assertEqual(packed, job(b"ECRYIMG1\0\0\0\0", schedule=b"schedule" + b" 0" * 1_048_576))

    def test_sessions_and_schedules_that_are_refused(self):
        os.mkdir(self.at("tree"))
        script = self.write("script", b"")
        self.refused(self.pack("tree", *["--script", script] * 17), b"there are 17 scripts, and a job has at most 16 sessions")
        two = ["--script", script, "--script", script]
        for text, item in ((b"0 1 2", b"item 3 is 2"), (b"0\n-1", b"item 2 is -1"), (b"00", b"item 1 is 00"), (b"1,0", b"item 1 is 1,0"), (b"\xff", b"item 1 is %ff")):
            with self.subTest(text=text):
                self.write("turns", text)
                self.refused(self.pack("tree", *two, "--schedule", "turns"), b"turns: " + item + b", and the job has the sessions 0 to 1")
        self.refused(self.pack("tree", "--schedule", "turns"), b"turns: item 1 is %ff, and the job has session 0 alone")
        self.write("turns", b"0 " * 1_048_577)
        self.refused(self.pack("tree", "--schedule", "turns"), b"turns: the schedule has more than 1048576 items")
        self.refused(self.pack("tree", "--schedule", "away"), b"away: No such file or directory")

    def test_no_argument_takes_a_passphrase(self):
        os.mkdir(self.at("tree"))
        for words in (["--passphrase", "test"], ["--salt", "0011223344556677"], ["test"]):
            self.assertNotEqual(self.run_tool("pack", "tree", *words).returncode, 0)


class PackKeys(Tools):
    """The form of names and the salts that stand in the job, and what is told of a tree that doesn't open."""

    HINT = b" (the passphrase of the mount isn't that of the login"

    def tree(self, *names, attribute=None):
        """A folder with empty files of these names, one of which has the attribute."""
        os.makedirs(self.at("tree"), exist_ok=True)
        for name in names:
            self.write(os.path.join(b"tree", name).decode(), b"")
        if attribute is not None:
            self.set_attribute(self.write("tree/sealed", b""), attribute)
        return "tree"

    def settings(self, ran):
        """The salts and the form of names of the job."""
        self.assertEqual(ran.returncode, 0, ran.stderr)
        lines = re.search(rb"\nsalt (.*)\nnamesalt (.*)\nnames (.*)\n", ran.stdout)
        return tuple(lines.groups())

    def test_coded_names_and_their_salt_are_found(self):
        for salt in (UTILS_NAME_SALT, SALT):
            with self.subTest(salt):
                tree = self.tree(coded_name(signature(salt)), b"clear")
                ran = self.pack(tree)
                self.assertEqual(self.settings(ran), (SALT.hex().encode(), salt.hex().encode(), b"tag70"))
                self.assertEqual(ran.stderr, b"")
                os.remove(os.path.join(self.at(tree), coded_name(signature(salt)).decode()))

    def test_a_coded_name_below_a_directory_of_a_tar_file(self):
        tree = self.tar(("a/" + coded_name(signature(UTILS_NAME_SALT)).decode(), tarfile.DIRTYPE))
        self.assertEqual(self.settings(self.pack(tree))[1:], (UTILS_NAME_SALT.hex().encode(), b"tag70"))

    def test_the_form_of_names_can_be_given(self):
        tree = self.tree(coded_name(bytes(8)))
        ran = self.pack(tree, "--names", "plain")
        self.assertEqual((self.settings(ran)[2], ran.stderr), (b"plain", b""))
        os.mkdir(self.at("clear"))
        self.assertEqual(self.settings(self.pack("clear", "--names", "tag70")), (SALT.hex().encode(), SALT.hex().encode(), b"tag70"))
        self.assertEqual(self.settings(self.pack("clear"))[2], b"plain")

    def test_the_salt_of_names_can_be_given(self):
        other = bytes.fromhex("0123456789abcdef")
        ran = self.pack(self.tree(coded_name(signature(other))), "--namesalt", other.hex())
        self.assertEqual((self.settings(ran)[1], ran.stderr), (other.hex().encode(), b""))
        self.refused(self.pack("tree", "--namesalt", "01"), b"a salt has 16 hexadecimal digits")

    def test_the_salt_of_files_is_found(self):
        other = bytes.fromhex("0123456789abcdef")
        ran = self.pack(self.tree(coded_name(signature(other)), attribute=metadata(other)))
        self.assertEqual((self.settings(ran), ran.stderr), ((other.hex().encode(), other.hex().encode(), b"tag70"), b""))

    def told(self, ran, line):
        """One line on standard error, and the job is written all the same."""
        self.settings(ran)
        self.assertEqual(ran.stderr.count(b"\n"), 1, ran.stderr)
        self.assertIn(line, ran.stderr)

    def test_a_passphrase_that_opens_no_file_is_told(self):
        tree = self.tree(coded_name(signature(UTILS_NAME_SALT)), attribute=metadata(SALT))
        self.write("passphrase", b"other")
        signatures = f"its signature is {signature(SALT, b'other').hex()}, that of the files {signature(SALT).hex()}"
        self.told(self.pack(tree), b"pack: no file opens with this passphrase: " + signatures.encode() + self.HINT)

    def test_a_passphrase_that_opens_no_name_is_told(self):
        ours = f"{signature(UTILS_NAME_SALT).hex()} or {signature(SALT).hex()}"
        line = f"pack: no name opens with this passphrase: its signature is {ours}, that of the names 0001020304050607"
        self.told(self.pack(self.tree(coded_name(bytes(range(8))), attribute=metadata(SALT))), line.encode() + self.HINT)

    def test_aes_256_is_told(self):
        name = coded_name(signature(UTILS_NAME_SALT), cipher=9)
        self.told(self.pack(self.tree(name)), b"pack: the names are encrypted by AES-256, which isn't read yet\n")
        self.tree(coded_name(signature(UTILS_NAME_SALT)))
        self.told(self.pack("tree"), b"pack: some names are encrypted by AES-256, which isn't read yet: 1 of 2\n")
        self.set_attribute(self.write("tree/sealed", b""), metadata(SALT, cipher=9))
        self.told(self.pack("tree"), b"pack: the files are encrypted by AES-256, which isn't read yet\n")

    def test_names_that_are_cut_make_a_job_all_the_same(self):
        for name in (b"ECRYPTFS_FNEK_ENCRYPTED.", b"ECRYPTFS_FNEK_ENCRYPTED.FW", b"ECRYPTFS_FNEK_ENCRYPTED." + b"!" * 60):
            ran = self.pack(self.tree(name))
            self.assertEqual((self.settings(ran)[2], ran.stderr), (b"tag70", b""))

    def test_trees_that_linux_wrote(self):
        # (the names of the second have a salt of their own)
        for name, words in {"linux_header_plain": [], "linux_attribute_plain": ["--namesalt", "9988776655443322"]}.items():
            octets = read(os.path.join(LINUX, name + ".job"))
            setting = lambda word: re.search(rb"\n" + word + b" (.*)\n", octets)[1]
            self.write("passphrase", bytes.fromhex(setting(b"passphrase").decode()))
            members = [(path.decode(), tarfile.DIRTYPE if file is None else io.BytesIO(file[1])) for path, file in entries_of(image_in(octets))]
            ran = self.pack(self.tar(*members), *words)
            self.assertEqual((self.settings(ran), ran.stderr), ((setting(b"salt"), setting(b"namesalt"), b"tag70"), b""))


class LeaveOut(Tools):
    def test_links_devices_and_second_names_in_a_folder(self):
        os.mkdir(self.at("tree"))
        os.link(self.write("tree/f", b"x"), self.at("tree/g"))
        os.symlink("f", self.at("tree/a\nb"))
        os.mkfifo(self.at("tree/pipe"))
        ran = self.pack("tree", "--leave-out")
        neither = b"pack: left out, it is neither a file nor a directory: /"
        wanted = [neither + b"a%0ab", b"pack: left out, it is a link to another file of the tree: /g", neither + b"pipe"]
        self.assertEqual((ran.returncode, ran.stderr.splitlines()), (0, wanted))
        self.assertEqual(entries_of(image_in(ran.stdout)), [(b"f", (None, b"x"))])

    def test_links_and_devices_in_a_tar_file(self):
        kinds = (tarfile.SYMTYPE, tarfile.LNKTYPE, tarfile.CHRTYPE, tarfile.BLKTYPE, tarfile.FIFOTYPE)
        ran = self.pack(self.tar(("a", io.BytesIO(b"")), *((f"b{number}", kind) for number, kind in enumerate(kinds))), "--leave-out")
        self.assertEqual((ran.returncode, ran.stderr.count(b"pack: left out, ")), (0, 5), ran.stderr)
        self.assertEqual(entries_of(image_in(ran.stdout)), [(b"a", (None, b""))])


class Unpack(Tools):
    def unpack(self, *lines, folder="folder"):
        text = b"".join(line + b"\n" for line in (b"ecryptfs-show 1", *lines, b"end"))
        return self.run_tool("unpack", folder, given=text)

    def refused(self, ran, why):
        super().refused(ran, why)
        self.assertFalse(os.path.exists(self.at("folder")))

    def test_directories_and_contents_are_written(self):
        lines = [b"d 1 /a", b"f 2 /a/b%20c good 3 00ff0a", b"d 3 /a/d", b"f 4 /e good 0 -", b"f 5 /f empty"]
        ran = self.unpack(*lines)
        self.assertEqual((ran.returncode, ran.stdout, ran.stderr), (0, b"", b""))
        self.assertEqual(files_below(self.at("folder")), {b"a/b c": b"\0\xff\n", b"e": b"", b"f": b""})
        self.assertTrue(os.path.isdir(self.at("folder/a/d")))

    def test_a_name_may_have_any_octet_that_a_name_has(self):
        name = bytes(octet for octet in range(1, 256) if octet != 0x2F)
        spelling = b"".join(b"%c" % octet if 0x21 <= octet <= 0x7E and octet != 0x25 else b"%%%02x" % octet for octet in name)
        self.assertEqual(self.unpack(b"f 1 /" + spelling + b" good 1 41").returncode, 0)
        self.assertEqual(files_below(self.at("folder")), {name: b"A"})

    def test_bad_and_foreign_entries_are_named_and_left_out(self):
        ran = self.unpack(b"d 1 /a", b"f 2 /a/b bad marker 11223344 2da384b0", b"f 3 /a/c empty", b"x 4 /a/d")
        self.assertEqual((ran.returncode, ran.stderr.count(b"\n")), (3, 3))
        self.assertIn(b"bad marker 11223344 2da384b0: /a/b\n", ran.stderr)
        self.assertIn(b"foreign: /a/d\n", ran.stderr)
        self.assertIn(b"unpack: 2 of 4 entries were left out\n", ran.stderr)
        self.assertEqual(files_below(self.at("folder")), {b"a/c": b""})

    def test_a_passphrase_that_opens_no_file_is_told(self):
        wrong_key = b"bad wrongkey 0011223344556677 8899aabbccddeeff"
        ran = self.unpack(b"f 1 /a " + wrong_key, b"f 2 /b empty", b"f 3 /c bad version 4")
        self.assertEqual((ran.returncode, ran.stderr.count(b"\n")), (4, 3))
        self.assertTrue(ran.stderr.endswith(b"\nunpack: no file opens with this passphrase and salt\n"), ran.stderr)
        ran = self.unpack(b"f 1 /a " + wrong_key, b"f 2 /b good 0 -", folder="other")
        self.assertTrue(ran.stderr.endswith(b"\nunpack: 1 of 2 entries were left out\n"), ran.stderr)

    def test_that_no_name_could_be_read_is_told(self):
        foreign = [b"x 2 /clear/" + coded_name(bytes(8)), b"x 3 /" + coded_name(bytes(8))]
        ran = self.unpack(b"d 1 /clear", *foreign)
        self.assertEqual((ran.returncode, ran.stderr.count(b"\n")), (4, 3))
        self.assertTrue(ran.stderr.endswith(b"\nunpack: no name of a file could be read with this passphrase and name salt\n"), ran.stderr)
        ran = self.unpack(b"d 1 /clear", *foreign, b"f 4 /f empty", folder="other")
        self.assertTrue(ran.stderr.endswith(b"\nunpack: 2 of 4 entries were left out\n"), ran.stderr)
        self.assertEqual(ran.returncode, 3)

    def test_an_empty_folder_is_taken_and_another_refused(self):
        os.mkdir(self.at("empty"))
        self.assertEqual(self.unpack(b"f 1 /f empty", folder="empty").returncode, 0)
        self.refused(self.unpack(b"f 1 /g empty", folder="empty"), b"empty: the folder isn't empty")
        self.assertEqual(os.listdir(self.at("empty")), ["f"])
        self.refused(self.unpack(b"f 1 /g empty", folder="passphrase"), b"passphrase: it is no folder")

    def test_paths_that_would_leave_the_folder_are_refused(self):
        for path in (b"/..", b"/../f", b"/a/../../f", b"/.", b"/a%2ff", b"/..%2ff", b"/a%00", b"//f", b"/", b"/a/", b"//"):
            with self.subTest(path):
                ran = self.unpack(b"d 1 /a", b"f 2 /g empty", b"f 3 " + path + b" empty")
                self.refused(ran, b"line 4: the path would leave the folder")
        for path in (b"f", b"../f", b"a/f", b"C:/f"):
            with self.subTest(path):
                self.refused(self.unpack(b"d 1 /a", b"f 2 " + path + b" empty"), b"line 3: the path doesn't begin at the root")

    def test_paths_have_one_spelling(self):
        for path in (b"/%61", b"/%2E%2e", b"/%2e%2e", b"/%", b"/%2", b"/a%zz", b"/a\x01", b"/\xff", b"/a\t"):
            with self.subTest(path):
                self.refused(self.unpack(b"f 1 " + path + b" empty"), b"line 2: the path isn't spelled as one")

    def test_a_name_of_256_octets_is_refused(self):
        self.refused(self.unpack(b"d 1 /" + b"a" * 256), b"more than 255 octets")

    def test_paths_that_the_system_cannot_take_are_refused_before_anything_is_written(self):
        path = b""
        lines = []
        for number in range(1, 21):
            path += b"/" + b"a" * 250
            lines.append(b"d %d %s" % (number, path))
        self.refused(self.unpack(*lines), b"longer than the system takes")

    def test_entries_below_what_is_no_directory_are_refused(self):
        self.refused(self.unpack(b"f 1 /a/b empty"), b"the directory above it isn't there")
        self.refused(self.unpack(b"f 1 /a empty", b"f 2 /a/b empty"), b"the directory above it isn't there")

    def test_a_path_that_stands_twice_is_refused(self):
        self.refused(self.unpack(b"d 1 /a", b"f 2 /a empty"), b"stands there twice")

    def test_lines_that_are_none_are_refused(self):
        contents = [b"", b"0", b"0 00", b"1 -", b"1 0", b"1 0A", b"2 00", b"01 00", b"1 00 ", b"99999999999 -"]
        lines = [b"f 1 /a good " + content for content in contents]
        lines += [b"f 1 /a", b"f 1 /a ", b"f 1 /a bad", b"f 1 /a bad ", b"f 1 /a bad \x1b[2J", b"f 1 /a Empty"]
        lines += [b"", b"d", b"d 1", b"d 1 /a ", b"d 1 /a b", b"d 0 /a", b"d  1 /a", b"d 1  /a", b"e 1 /a", b"end"]
        for line in lines:
            with self.subTest(line):
                self.refused(self.unpack(b"d 1 /d", line), b"line 3: ")

    def test_texts_that_are_cut_are_refused(self):
        whole = b"ecryptfs-show 1\nf 1 /a empty\nend\n"
        for length in range(0, len(whole), 4):
            self.refused(self.run_tool("unpack", "folder", given=whole[:length]), b"unpack: ")
        self.refused(self.run_tool("unpack", "folder", given=whole + b"\n"), b"something follows it")

    def test_a_show_text_of_a_file(self):
        self.write("show", b"ecryptfs-show 1\nf 1 /a good 1 41\nend\n")
        self.assertEqual(self.run_tool("unpack", "-i", "show", "folder").returncode, 0)
        self.assertEqual(files_below(self.at("folder")), {b"a": b"A"})


class UnpackReport(Tools):
    """The lower tree of a report, as a folder and as a tar file."""

    DIRECTORY = b"\0\1\0\1b"
    ATTRIBUTE = bytes(range(256))
    FILES = b"\0\2\1\2g\xff\1\0\0\1\0" + ATTRIBUTE + b"\0\0\0\2xy" + b"\0\1\1\1c\0\0\0\0\0"
    IMAGE = b"ECRYIMG1\0\0\0\3" + DIRECTORY + FILES

    def unpack(self, *words, given=report(IMAGE)):
        return self.run_tool("unpack", *words, given=given)

    def unpacked(self, *words):
        ran = self.unpack(*words)
        self.assertEqual((ran.returncode, ran.stdout, ran.stderr), (0, b"", b""))

    def test_a_folder_has_the_files_and_their_attributes(self):
        self.set_attribute(self.write("f", b""), b"")
        self.unpacked("folder")
        self.assertEqual(files_below(self.at("folder")), {b"b/g\xff": b"xy", b"c": b""})
        self.assertEqual(image_in(self.packed("folder")), self.IMAGE)

    def test_a_tar_file_has_the_files_and_their_attributes(self):
        self.unpacked("--tar", "tree.tar")
        self.assertEqual(image_in(self.packed("tree.tar")), self.IMAGE)
        self.refused(self.unpack("--tar", "tree.tar"), b"tree.tar: File exists")

    def test_the_tar_program_sets_the_attributes(self):
        self.set_attribute(self.write("f", b""), b"")
        self.unpacked("--tar", "tree.tar")
        os.mkdir(self.at("folder"))
        words = ["--xattrs", "--xattrs-include=user.*", "-C", self.at("folder"), "-xf", self.at("tree.tar")]
        subprocess.run(["tar", *words], check=True, stderr=subprocess.DEVNULL)
        self.assertEqual(image_in(self.packed("folder")), self.IMAGE)

    def test_reports_that_are_none_are_refused(self):
        whole = report(self.IMAGE)
        texts = [whole[:length] for length in range(0, len(whole), 17)]
        texts += [whole + b"\n", whole.replace(b"tree 2", b"tree 3"), whole.replace(b"ok\n", b"", 1), whole.replace(b"image", b"image 1")]
        for text in texts:
            with self.subTest(text):
                self.refused(self.unpack("folder", given=text), b"unpack: ")
                self.assertFalse(os.path.exists(self.at("folder")))

    def test_a_report_of_a_run_that_was_stuck_is_refused(self):
        whole = report(self.IMAGE)
        for text in [b"ecryptfs-report 1\nstuck 0 0 1\n", whole[: whole.index(b"image")] + b"stuck 9 0 1\n"]:
            self.refused(self.unpack("folder", given=text), b"unpack: the run was stuck, and its report has no lower tree")
        self.assertFalse(os.path.exists(self.at("folder")))

    def test_images_that_are_none_are_refused(self):
        faults = {
            b"\0\0\0\1b": b"no directory is open at its level",
            b"\0\2\0\1b": b"no directory is open at its level",
            b"\0\1\2\1b\0\0\0\0\0": b"it is neither a directory nor a file",
            b"\0\1\1\1b\2\0\0\0\0": b"it is neither a directory nor a file",
            b"\0\1\1\1b\0\0\0\0\1": b"the image is cut",
            b"\0\1\0\0": b"the path would leave the folder",
            b"\0\1\0\2..": b"the path would leave the folder",
            b"\0\1\0\3a/b": b"the path would leave the folder",
        }
        for entry, why in faults.items():
            with self.subTest(why):
                given = report(b"ECRYIMG1\0\0\0\1" + entry)
                self.refused(self.unpack("folder", given=given), b"entry 1 of the image: " + why)
        twice = b"ECRYIMG1\0\0\0\2" + 2 * self.DIRECTORY
        self.refused(self.unpack("folder", given=report(twice)), b"entry 2 of the image: the path stands there twice")
        self.refused(self.unpack("folder", given=report(self.IMAGE + b"\0")), b"something follows the last entry")
        self.assertFalse(os.path.exists(self.at("folder")))


class Documents(unittest.TestCase):
    def test_links_and_files_that_are_named_are_there(self):
        for name in subprocess.run(["git", "ls-files", "*.md"], cwd=TOP, capture_output=True, text=True, check=True).stdout.split():
            text = read(os.path.join(TOP, name)).decode()
            links = [os.path.join(os.path.dirname(name), link) for link in re.findall(r"\]\(([^():#]+)\)", text)]
            sources = [f"crates/{source}" for source in re.findall(r"`([a-z0-9_]+/(?:src|specs|proofs)/[A-Za-z0-9_/]+\.(?:rt|antt))`", text)]
            for path in links + sources:
                with self.subTest(name):
                    self.assertTrue(os.path.exists(os.path.join(TOP, path)), f"there is no {path}")


class Help(Tools):
    def test_the_tools_say_that_they_are_unproved(self):
        for name in ("pack", "unpack"):
            ran = self.run_tool(name, "--help")
            self.assertEqual(ran.returncode, 0)
            self.assertIn(b"is no part of what is proved", ran.stdout)


class Trip(Tools):
    """Trees that Linux wrote go from a tar file or a folder into a job, and over the program into a folder or a tar file."""

    def linux(self, name):
        packed = read(os.path.join(LINUX, name + ".job"))
        given = re.search(rb"\npassphrase ([0-9a-f]+)\n", packed)[1]
        self.write("passphrase", bytes.fromhex(given.decode()))
        return image_in(packed), read(os.path.join(LINUX, name + ".show"))

    def tar_of(self, image):
        members = []
        for path, file in entries_of(image):
            path = path.decode("utf-8", "surrogateescape")
            attribute, body = file or (None, None)
            members.append((path, tarfile.DIRTYPE if file is None else io.BytesIO(body), *([] if attribute is None else [attribute])))
        return self.tar(*members)

    def folder_of(self, image):
        os.mkdir(self.at("tree"))
        for path, file in entries_of(image):
            path = self.at("tree/" + path.decode())
            if file is None:
                os.mkdir(path)
                continue
            attribute, body = file
            self.write(path, body)
            if attribute is not None:
                self.set_attribute(path, attribute)
        return self.at("tree")

    def output(self, command, given):
        ran = subprocess.run([PROGRAM, command], input=given, capture_output=True)
        self.assertEqual((ran.returncode, ran.stderr), (0, b""))
        return ran.stdout

    def travel(self, name, tree_of):
        """Over show: the contents are those of the show text."""
        image, text = self.linux(name)
        packed = self.packed(tree_of(image), "--names", "plain")
        self.assertEqual(image_in(packed), image)
        shown = self.output("show", packed)
        self.assertEqual(shown, text)
        self.assertEqual(self.run_tool("unpack", "folder", given=shown).returncode, 0)
        wanted = shown_files(text)
        self.assertEqual(len(wanted), 4)
        self.assertEqual(files_below(self.at("folder")), wanted)

    def test_a_tar_file_with_headers(self):
        self.travel("linux_header_plain", self.tar_of)

    def test_a_tar_file_with_attributes(self):
        self.travel("linux_attribute_plain", self.tar_of)

    def test_a_folder_with_headers(self):
        self.travel("linux_header_plain", self.folder_of)

    def test_a_folder_with_attributes(self):
        self.travel("linux_attribute_plain", self.folder_of)

    def change(self, name):
        """Over replay: the lower tree afterwards has a directory more, and its files have the octets that they had."""
        image, text = self.linux(name)
        script = self.write("script", b"mkdir /new\nlist /new\n")
        packed = self.packed(self.tar_of(image), "--names", "plain", "--script", script)
        given = self.output("replay", packed)
        self.assertTrue(given.startswith(b"ecryptfs-report 1\nsession 0 2\nok\nnames\n"), given[:100])
        self.assertEqual(self.run_tool("unpack", "--tar", "after.tar", given=given).returncode, 0)
        after = self.packed("after.tar", "--names", "plain")
        self.assertEqual(dict(entries_of(image_in(after))), {**dict(entries_of(image)), b"new": None})
        self.assertEqual(shown_files(self.output("show", after)), shown_files(text))

    def test_a_script_on_a_tree_with_headers(self):
        self.change("linux_header_plain")

    def test_a_script_on_a_tree_with_attributes(self):
        self.change("linux_attribute_plain")

    def test_lines_of_a_script_are_judged_by_the_program(self):
        os.mkdir(self.at("tree"))
        packed = self.packed("tree", "--script", self.write("script", b"mkdir a\n"))
        ran = subprocess.run([PROGRAM, "replay"], input=packed, capture_output=True)
        self.assertEqual((ran.returncode, ran.stdout, ran.stderr), (3, b"badjob %d\n" % packed.rindex(b"mkdir a\n"), b"ecryptfs: bad job\n"))


if __name__ == "__main__":
    sys.exit(run_tests(__name__, "tools"))
