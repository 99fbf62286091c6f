#!/usr/bin/env python3
"""The tests of the tools on trees with coded names, over a built program that has them.

    tools/coded_tests.py [PROGRAM]        PROGRAM is the built program, by default crates/mount_prog/out/mount_prog

The last line is `coded: N passed, M failed`, and the status is 1 where any test failed. No cipher is needed here: the program
writes the coded names, by `rename` of clear names in a job, and bodies are drawn.
"""
import os
import re
import struct
import subprocess
import sys

from recover_tests import BODIES, SIZES, Recover, metadata
from testing import LINUX, PREFIX, PROGRAM, SALT, TOOLS, UTILS_NAME_SALT, coded, drawn, packet_of, read, run_over_program
from tests import entries_of, image_in, shown_files
from texts import spelled

MOST_RENAMES = 4000


def coded_job(entries, name_salt, script=()):
    """A job with coded names, over these entries of an image."""
    head = [b"ecryptfs-job 1", b"passphrase " + b"test".hex().encode(), b"salt " + SALT.hex().encode()]
    head += [b"namesalt " + name_salt.hex().encode(), b"names tag70", b"meta header", b"random " + b"00" * 32]
    image = b"ECRYIMG1" + struct.pack(">I", len(entries)) + b"".join(entries)
    tail = [b"", b"sessions 1", b"script %d" % len(script), *script, b"schedule", b"end", b""]
    return b"\n".join([*head, b"image %d" % len(image), image]) + b"\n".join(tail)


def renaming_job(uppers, name_salt):
    """A job that renames clear names to these; the body of each file is its new name."""
    entries = [b"\0\1\1\5\1%04d\0" % number + struct.pack(">I", len(upper)) + upper for number, upper in enumerate(uppers)]
    return coded_job(entries, name_salt, [b"rename /%%01%04d /%s" % (number, spelled(upper)) for number, upper in enumerate(uppers)])


def lower_names(uppers, name_salt=UTILS_NAME_SALT):
    """The lower names that the program writes for these upper names."""
    uppers, found = [*dict.fromkeys(uppers)], {}
    for start in range(0, len(uppers), MOST_RENAMES):
        job = renaming_job(uppers[start : start + MOST_RENAMES], name_salt)
        ran = subprocess.run([PROGRAM, "replay"], input=job, capture_output=True, check=True)
        found |= {body: lower for lower, (_, body) in entries_of(image_in(ran.stdout))}
    return found


def with_first_block(name, what):
    """The coded name with other octets in the first block of its cipher text, so mostly with another lead of the same name."""
    packet = packet_of(name)
    return coded(packet[:11] + drawn(what, 16) + packet[27 : 2 + packet[1]])


class Coded(Recover):
    def setUp(self):
        super().setUp()
        self.lower_of = {}

    def code(self, *uppers, **words):
        """Lets the program write the lower names of these upper names."""
        self.lower_of |= lower_names([os.fsencode(upper) for upper in uppers], **words)

    def lower_path(self, path):
        """The path in the lower tree, in which the names that were coded are."""
        return b"/".join(self.lower_of.get(name, name) for name in (b"lower/" + os.fsencode(path)).split(b"/"))

    def put(self, path, size=None):
        """Writes a lower file at the place of this path; the size stands at the front of its name."""
        return self.write(self.lower_path(path), BODIES[int(os.path.basename(path).split("_")[0]) if size is None else size])

    def coded_lower(self, *sizes):
        """A small lower tree with coded names: a file of each size, and one below a directory."""
        sizes = sizes or (1, 5000)
        self.code("sub", *map(str, sizes))
        for size in sizes:
            self.put(f"{size}")
            self.put(f"sub/{size}")

    def other_lead(self, upper):
        """Lower names of this upper name with another lead, in octet order, as the program reads them."""
        made = sorted({with_first_block(self.lower_of[upper], f"lead {number}") for number in range(6)})
        # (each in a directory of its own, `a` and so on)
        in_directories = [(b"%c" % (0x61 + number), name) for number, name in enumerate(made)]
        entries = [entry for above, name in in_directories for entry in (b"\0\1\0\1" + above, b"\0\2\1%c" % len(name) + name + bytes(5))]
        shown = subprocess.run([PROGRAM, "show"], input=coded_job(entries, UTILS_NAME_SALT), capture_output=True, check=True).stdout
        return [name for above, name in in_directories if b"/" + above + b"/" + spelled(upper) + b" empty\n" in shown]


class Trips(Coded):
    """Trees that Linux wrote."""

    NAME_SALTS = {"linux_header_tag70": [], "linux_attribute_tag70": ["--namesalt", "9988776655443322"]}

    def lay_out(self, name):
        """Lays out the lower tree of a job; gives its show text."""
        job = read(os.path.join(LINUX, name + ".job"))
        self.write("passphrase", bytes.fromhex(re.search(rb"\npassphrase (.*)\n", job)[1].decode()))
        for path, file in entries_of(image_in(job)):
            if file is None:
                os.makedirs(self.at(b"lower/" + path))
                continue
            attribute, body = file
            path = self.write(b"lower/" + path, body)
            try:
                if attribute is not None:
                    os.setxattr(path, "user.ecryptfs", attribute)
            except OSError:
                self.skipTest("the file system has no attributes")
        return read(os.path.join(LINUX, name + ".show"))

    def tool(self, name, *words, given=b""):
        command = [sys.executable, os.path.join(TOOLS, name), *words]
        ran = subprocess.run(command, input=given, capture_output=True, cwd=self.room)
        self.assertEqual((ran.returncode, ran.stderr), (0, b""))
        return ran.stdout

    def files(self):
        """The files in the target, by their paths as a show text spells them."""
        found = [os.path.join(at, name) for at, _, names in os.walk(self.at("home")) for name in names]
        return {b"/".join(map(spelled, os.path.relpath(path, self.at("home")).split(b"/"))): read(path) for path in found}

    def test_pack_show_and_unpack(self):
        for name, words in self.NAME_SALTS.items():
            with self.subTest(name):
                text = self.lay_out(name)
                job = self.tool("pack", "lower", "--passphrase-file", self.at("passphrase"), *words)
                shown = subprocess.run([PROGRAM, "show"], input=job, capture_output=True).stdout
                self.assertEqual(shown, text)
                self.tool("unpack", "home", given=shown)
                self.assertEqual(self.files(), shown_files(text))
                subprocess.run(["rm", "-r", self.at("lower"), self.at("home")], check=True)

    def test_recover(self):
        for name, words in self.NAME_SALTS.items():
            with self.subTest(name):
                text = self.lay_out(name)
                self.recovered(*words)
                self.assertEqual(self.files(), shown_files(text))
                subprocess.run(["rm", "-r", *map(self.at, ("lower", "home", "home.recover"))], check=True)

    def test_a_script_on_a_tree_with_coded_names(self):
        text = self.lay_out("linux_header_tag70")
        self.write("script", b"rename /one /sub/two\nmkdir /new\nlist /sub\n")
        job = self.tool("pack", "lower", "--passphrase-file", self.at("passphrase"), "--script", "script")
        told = subprocess.run([PROGRAM, "replay"], input=job, capture_output=True).stdout
        self.assertTrue(told.startswith(b"ecryptfs-report 1\nsession 0 3\nok\nok\nnames f:more f:two f:%c5%be\n"), told[:100])
        self.tool("unpack", "--tar", "after.tar", given=told)
        after = self.tool("pack", "after.tar", "--passphrase-file", self.at("passphrase"))
        wanted = {(b"sub/two" if path == b"one" else path): content for path, content in shown_files(text).items()}
        shown = subprocess.run([PROGRAM, "show"], input=after, capture_output=True).stdout
        self.assertEqual(shown_files(shown), wanted)
        self.assertIn(b"/new\n", shown)


class CodedTrees(Coded):
    def test_a_small_tree(self):
        self.coded_lower()
        self.assertIn(b"4 files and 1 directories written, ", self.recovered())
        self.assert_whole(["1", "5000", "sub/1", "sub/5000"])

    def test_the_salt_of_files_may_be_that_of_names_too(self):
        self.code("1", name_salt=SALT)
        self.put("1")
        self.recovered()
        self.assert_whole(["1"])

    def test_a_salt_of_names_that_is_given(self):
        self.code("1", name_salt=bytes(8))
        self.put("1")
        self.refused(self.recover(), b"no name opens with this passphrase: its signature is ", status=4)
        self.recovered("--namesalt", "0000000000000000")
        self.assert_whole(["1"])

    def test_names_of_all_lengths_and_octets(self):
        names = [b"1_" + b"x" * 141, b"1_ \n%/".replace(b"/", b"\xff"), "1_ä".encode()]
        self.code(*names)
        for name in names:
            self.write(self.lower_path(name), BODIES[1])
        self.recovered()
        self.assert_whole(names)

    def test_ten_thousand_files_and_a_directory_of_five_thousand(self):
        paths = [f"wide/{SIZES[number % 3]}_{number}" for number in range(5000)]
        paths += [f"d{number % 7}/e{number % 11}/f{number % 13}/{SIZES[number % 5 % 4]}_{number}" for number in range(5000)]
        self.code(*{part for path in paths for part in path.split("/")})
        for path in paths:
            self.put(path)
        self.assertIn(b"10000 files and ", self.recovered())
        self.assert_whole(paths)

    def test_two_lower_names_of_one_upper_name(self):
        self.code("1_a", "sub")
        leads = self.other_lead(b"1_a")
        self.assertGreater(len(leads), 1)
        first, *others = sorted([self.lower_of[b"1_a"], *leads])
        for folder, shown, hidden in ((self.lower_path("sub"), first, others), (b"lower/clear", b"1_a", leads)):
            self.write(folder + b"/" + shown, BODIES[1])
            for name in hidden:
                self.write(folder + b"/" + name, BODIES[5000])
        foreign = {f"/sub/{name.decode()}" for name in others} | {f"/clear/{name.decode()}" for name in leads}
        self.assertEqual(self.left_out(self.recover()), dict.fromkeys(foreign, "foreign"))
        self.assert_whole(["sub/1_a", "clear/1_a"])

    def test_two_lower_names_of_one_upper_name_in_different_batches(self):
        paths = [f"0_{number:04}" for number in range(4996)]
        self.code(*paths, "E1", "zz")
        for path in paths:
            self.put(path)
        # (one clear name stands before all coded ones, one behind them)
        for name, clear, coded_one in (("E1", 1, 5000), ("zz", 5000, 1)):
            self.write("lower/" + name, BODIES[clear])
            self.put(name, coded_one)
        self.assertEqual(self.left_out(self.recover()), {"/zz": "foreign", "/" + self.lower_of[b"E1"].decode(): "foreign"})
        self.assertEqual([read(self.at("home/" + name)) for name in ("E1", "zz")], [self.contents[1]] * 2)


class CodedLeftOut(Coded):
    def test_foreign_entries_and_what_lies_below_them(self):
        self.coded_lower(1)
        self.code("away", "1_x")
        packet = packet_of(self.lower_of[b"away"])
        other_key, cut = coded(packet[:2] + bytes(8) + packet[10:]), self.lower_of[b"1_x"][:-4]
        self.write(b"lower/" + other_key + b"/" + self.lower_of[b"1_x"], BODIES[1])
        self.write(b"lower/" + other_key + b"/clear/1", BODIES[1])
        self.write(self.lower_path("sub") + b"/" + cut, BODIES[1])
        ran = self.recover()
        below = "/" + other_key.decode() + "/"
        wanted = {below + name: "below a foreign directory" for name in (self.lower_of[b"1_x"].decode(), "clear", "clear/1")}
        self.assertEqual(self.left_out(ran), {below[:-1]: "foreign", "/sub/" + cut.decode(): "foreign", **wanted})
        self.assertIn(b"\n       3 below a foreign directory\n       2 foreign\n", ran.stdout)
        self.assert_whole(["1", "sub/1"])

    def test_links_and_pipes_have_their_upper_names(self):
        self.coded_lower(1)
        self.code("link", "pipe")
        os.symlink(self.at("passphrase"), self.at(self.lower_path("sub/link")))
        os.mkfifo(self.at(self.lower_path("pipe")))
        self.assertEqual(self.left_out(self.recover()), {"/sub/link": "symbolic link", "/pipe": "pipe"})
        self.assert_whole(["1", "sub/1"])

    def test_a_file_whose_first_name_is_foreign(self):
        self.coded_lower(1)
        self.code("5000_again", "5000_more")
        foreign = PREFIX + b"-"
        self.write(b"lower/" + foreign, BODIES[5000])
        for name in ("5000_again", "5000_more"):
            os.link(self.at(b"lower/" + foreign), self.at(self.lower_path(name)))
        # (and one whose other name stands in a directory)
        self.write("lower/zz/4096", BODIES[4096])
        os.link(self.at("lower/zz/4096"), self.at(b"lower/" + foreign + b"-"))
        self.assertEqual(self.left_out(self.recover()), {"/" + foreign.decode(): "foreign", "/" + foreign.decode() + "-": "foreign"})
        self.assert_whole(["1", "sub/1", "5000_again", "5000_more", "zz/4096"])
        self.assertTrue(os.path.samefile(self.at("home/5000_again"), self.at("home/5000_more")))

    def test_names_under_another_key_beside_clear_ones(self):
        self.code("1", name_salt=bytes(8))
        self.put("1")
        self.put("5000")
        ran = self.recover()
        self.assertEqual(self.left_out(ran), {"/" + self.lower_of[b"1"].decode(): "foreign"})
        self.assertIn(b"recover: no name opens with this passphrase: its signature is ", ran.stderr)
        self.assert_whole(["5000"])

    def test_bad_files_have_their_upper_names(self):
        self.coded_lower(1)
        self.code("short", "large")
        self.write(self.lower_path("sub/short"), b"x")
        self.write(self.lower_path("large"), metadata(67_108_865))
        self.assertEqual(self.left_out(self.recover()), {"/sub/short": "bad short 1", "/large": "too large: 67108865 octets"})

    def test_a_name_on_which_the_program_fails_is_left_out_alone(self):
        self.coded_lower(1, 4096, 5000)
        worst = self.lower_of[b"4096"]
        ran = self.recover(*self.program(f'cat > job$$\ngrep -aq {worst.decode()} job$$ && exit 1\nexec $program "$@" < job$$'))
        wanted = {f"{above}/{worst.decode()}": "the program failed: status 1" for above in ("", "/sub")}
        self.assertEqual(self.left_out(ran), wanted)
        self.assert_whole(["1", "5000", "sub/1", "sub/5000"])

    def test_a_name_that_would_leave_the_target(self):
        self.coded_lower(1)
        lines = "ecryptfs-show 1\\nd 1 /0001\\nf 2 /0001/.. empty\\nend\\n"
        of_names = f'grep -aq "^names tag70" job$$ && grep -aq {PREFIX.decode()} job$$'
        ran = self.recover(*self.program(f'cat > job$$\n{of_names} && printf "{lines}" && exit\nexec $program "$@" < job$$'))
        self.assertEqual((ran.returncode, os.listdir(self.at("home"))), (4, []), ran.stderr)
        self.assertIn(b"\n       2 the program failed\n       1 below a foreign directory\n", ran.stdout)


class CodedAgain(Coded):
    def test_a_stop_and_a_second_start(self):
        paths = [f"{SIZES[number % 2]}_{number:04}" for number in range(4500)] + ["z/1"]
        self.code(*{part for path in paths for part in path.split("/")})
        for path in paths:
            self.put(path)
        stop = 'cat > job$$\ngrep -aq "^names plain" job$$ && [ "$calls" -eq 6 ] && kill -TERM $PPID && sleep 20\nexec $program "$@" < job$$'
        ran = self.recover("--jobs", "1", *self.program(stop))
        self.assertEqual(ran.returncode, 128 + 15, ran.stderr + ran.stdout)
        self.assertIn(b"the same command goes on from here", ran.stderr)
        first = [name for _, directories, names in os.walk(self.at("home")) for name in directories + names]
        self.assertEqual([name for name in first if name.startswith(b".recover")], [])
        self.assertTrue(4000 < len(first) < 4500)
        self.assertIn(b"\n%d entries stood there" % len(first), self.recovered())
        self.assert_whole(paths)

    def test_a_stop_while_names_are_read_writes_nothing(self):
        self.coded_lower()
        stop = 'cat > job$$\n[ "$calls" -eq 3 ] && kill -INT $PPID && sleep 20\nexec $program "$@" < job$$'
        ran = self.recover("--jobs", "1", *self.program(stop))
        self.refused(ran, b"recover: stopped; nothing was written", status=128 + 2)

    def test_a_second_start_does_what_was_added_or_changed(self):
        self.coded_lower(1)
        self.recovered()
        self.code("4096")
        self.put("sub/4096")
        self.put("1", 5000)
        self.assertIn(b"2 files and 0 directories written", self.recovered())
        self.assertEqual(read(self.at("home/1")), self.contents[5000])
        self.assertEqual(read(self.at("home/sub/4096")), self.contents[4096])
        self.assertIn(b"0 files and 0 directories written", self.recovered())


class CodedRefusals(Coded):
    def test_a_passphrase_that_opens_nothing(self):
        self.coded_lower(1)
        self.write("passphrase", b"other\n")
        self.refused(self.recover(), b"no file opens with this passphrase: its signature is ", status=4)

    def test_names_by_aes_256_are_told(self):
        self.code("1")
        packet = packet_of(self.lower_of[b"1"])
        self.write(b"lower/" + coded(packet[:10] + b"\t" + packet[11:]), BODIES[1])
        self.refused(self.recover(), b"the names are encrypted by AES-256, which isn't read yet", status=4)

    def test_a_home_is_answered_by_where_its_lower_tree_is(self):
        self.code("empty")
        os.makedirs(self.at("lower/.Private/" + self.lower_of[b"empty"].decode()))
        self.refused(self.recover(), b"the lower tree is " + self.at("lower/.Private"))


if __name__ == "__main__":
    sys.exit(run_over_program(__name__, "coded"))
