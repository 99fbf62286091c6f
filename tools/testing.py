"""What the scripts of tests share: where things are, the built program, coded names by hand, and a run with its last line."""
import hashlib
import os
import subprocess
import sys
import tempfile
import unittest

TOOLS = os.path.dirname(os.path.abspath(__file__))
TOP = os.path.dirname(TOOLS)
LINUX = os.path.join(TOP, "tests", "linux")
PROGRAM = os.path.abspath(sys.argv[1]) if sys.argv[1:] else os.path.join(TOP, "crates", "mount_prog", "out", "mount_prog")
SALT, UTILS_NAME_SALT = bytes.fromhex("0011223344556677"), b"99887766"
PREFIX = b"ECRYPTFS_FNEK_ENCRYPTED."
LETTERS = b"-.0123456789ABCDEFGHIJKLMNOPQRSTUVWXYZabcdefghijklmnopqrstuvwxyz"
SECONDS = 100


def read(path):
    with open(path, "rb") as file:
        return file.read()


def drawn(what, length):
    """Octets that look random, and are the same in each run."""
    return hashlib.shake_256(what.encode()).digest(length)


def signature(salt, passphrase=b"test"):
    """The signature of the key of a passphrase."""
    key = salt + passphrase
    for _ in range(65_537):
        key = hashlib.sha512(key).digest()
    return key[:8]


def coded(packet):
    """The lower name with this packet."""
    bits = "".join(f"{octet:08b}" for octet in packet + bytes(-len(packet) % 3))
    return PREFIX + bytes(LETTERS[int(bits[at : at + 6], 2)] for at in range(0, len(bits), 6))


def packet_of(name):
    """The packet of a lower name, with the zeros behind it."""
    bits = "".join(f"{LETTERS.index(letter):06b}" for letter in name[len(PREFIX) :])
    return bytes(int(bits[at : at + 8], 2) for at in range(0, len(bits), 8))


class InRoom(unittest.TestCase):
    """A test with a folder of its own, a passphrase in it, and the built program in the hands of a shell script."""

    def setUp(self):
        room = tempfile.TemporaryDirectory()
        self.addCleanup(room.cleanup)
        self.room = room.name
        self.write("passphrase", b"test\n")

    def at(self, name):
        return os.path.join(os.fsencode(self.room), os.fsencode(name))

    def write(self, name, octets):
        os.makedirs(os.path.dirname(self.at(name)), exist_ok=True)
        with open(self.at(name), "wb") as file:
            file.write(octets)
        return self.at(name)

    def program(self, script):
        """A program that is this shell script; $program is the built one, and $calls counts its calls."""
        text = f"#!/bin/sh\nprogram={PROGRAM}\ncd {self.room}\necho >> calls\ncalls=$(wc -l < calls)\n{script}\n"
        os.chmod(self.write("program", text.encode()), 0o755)
        return ["--program", self.at("program")]

    def run_named(self, name, *words, within=(), patch="", given=b""):
        """Runs a tool; `patch` are lines of Python that stand in front of it, in place of calls of the system."""
        tool = os.path.join(TOOLS, name)
        patched = f"import os, runpy, sys\nsys.path.insert(0, {TOOLS!r})\n{patch}\nrunpy.run_path({tool!r}, run_name='__main__')"
        command = [*within, sys.executable, *(["-c", patched] if patch else [tool]), "--program", PROGRAM, *words]
        return subprocess.run(command, capture_output=True, cwd=self.room, input=given, timeout=SECONDS, start_new_session=True)


def run_tests(module, name):
    """Runs the tests of a module; its last line is `NAME: N passed, M failed`. Gives the exit status."""
    tests = unittest.defaultTestLoader.loadTestsFromModule(sys.modules[module])
    count = tests.countTestCases()
    ran = unittest.TextTestRunner(stream=sys.stdout).run(tests)
    # (the parts of a test may fail each for itself: the test counts once)
    bad = {getattr(test, "test_case", test).id() for test, _ in ran.failures + ran.errors}
    for test, why in ran.skipped:
        print(f"left out: {test.id()}: {why}")
    print(f"{name}: {count - len(bad) - len(ran.skipped)} passed, {len(bad)} failed")
    return 1 if bad or count == 0 else 0


def run_over_program(module, name):
    """As `run_tests`, where no test goes without the built program."""
    if os.access(PROGRAM, os.X_OK):
        return run_tests(module, name)
    print(f"there is no program {PROGRAM}: build it by 'cd crates/mount_prog && rt run'\n{name}: 0 passed, 1 failed")
    return 1
