"""The built program as a process: its words, input, output and status. Every test reaches it through here."""

import contextlib
import os
import shutil
import signal
import subprocess
import tempfile
import unittest
from pathlib import Path
from typing import NamedTuple

ROOT = Path(__file__).resolve().parent.parent

# Another file in the program's place, for one who tries these tests on a program that is known to be right or wrong.
PROGRAM = Path(os.environ.get("BPDESK_PROGRAM", ROOT / "crates/bpdesk/out/bpdesk"))

LATEST = 250_000_000_000
LONGEST = 67_108_864

# A test that waits longer than this for the program has failed.
PATIENCE = 120

# The processes that the test under way has started.
STARTED = []


def is_built():
    return os.access(PROGRAM, os.X_OK) and PROGRAM.is_file()


class Answer(NamedTuple):
    """What a run gave, and what it has to say where it made a vault."""

    status: int
    out: bytes
    err: bytes
    made: bytes = b""


def frame(status, body):
    """Returns a reply as a session sends it."""
    return b"%d %d\n%s" % (status, len(body), body)


class Desk:
    """A folder for a vault, and the program run on it."""

    def __init__(self, folder, program=PROGRAM):
        self.folder, self.program = str(folder), str(program)

    def words(self, words):
        """Returns the whole command for some words, given as one text or one by one."""
        if len(words) == 1:
            words = words[0].split(" ") if words[0] else []
        return [self.program, self.folder, *words]

    def run(self, *words, payload=b"", **how):
        """Runs the program to its end. `payload` is its standard input, or None where `how` says what that is."""
        if payload is not None:
            how["input"] = payload
        how.setdefault("stdout", subprocess.PIPE)
        made = self.made(how.get("cwd", "."))
        ran = subprocess.run(self.words(words), stderr=subprocess.PIPE, timeout=PATIENCE, **how)
        return Answer(ran.returncode, ran.stdout, ran.stderr, made)

    def made(self, cwd="."):
        """Returns what is said of the vault where there is none yet, so that the next run makes one."""
        journal = os.path.join(cwd, self.file())
        is_there = os.path.isfile(journal) and os.path.getsize(journal) > 0
        return b"" if is_there else f"bpdesk: made a new vault in {self.folder}\n".encode()

    def start(self, *words, **how):
        """Starts the program and returns its process, with pipes for what is not said otherwise."""
        for stream in ("stdin", "stdout", "stderr"):
            how.setdefault(stream, subprocess.PIPE)
        made = self.made()
        process = subprocess.Popen(self.words(words), **how)
        process.made = made
        STARTED.append(process)
        return process

    def file(self, number=0):
        return Path(self.folder, f"{number}.nbv")

    def bytes(self):
        """Returns the journal as it stands on the disk."""
        return self.file().read_bytes()

    def files(self):
        """Returns the bytes of the vault's files by their numbers, without those that are empty."""
        found = {int(path.stem): path.read_bytes() for path in Path(self.folder).glob("*.nbv")}
        return {number: file for number, file in found.items() if file}

    def put(self, files):
        """Writes the files of a vault, or a journal alone, as an earlier run might have left them."""
        files = files if isinstance(files, dict) else {0: files}
        Path(self.folder).mkdir(exist_ok=True)
        for path in Path(self.folder).glob("*.nbv"):
            path.unlink()
        for number, file in files.items():
            self.file(number).write_bytes(file)

    def exists(self):
        return os.path.lexists(self.folder)


class DeskTest(unittest.TestCase):
    """A test with a temporary folder of its own, removed afterwards, and a desk whose folder is not there yet."""

    def setUp(self):
        self.top = tempfile.mkdtemp(prefix="bpdesk-test-")
        self.addCleanup(shutil.rmtree, self.top, ignore_errors=True)
        self.addCleanup(end_all)
        self.made = 0
        self.desk = self.new_desk()

    def new_desk(self):
        self.made += 1
        return Desk(Path(self.top, f"vault{self.made}"))

    def check(self, answer, status, out):
        """Compares the status and the whole of standard output."""
        self.assertEqual((answer.status, shown(answer.out)), (status, shown(out)), f"standard error: {shown(answer.err)}")

    def check_quiet(self, answer, status, out):
        """The same, with nothing on standard error but a vault that was made, and last a line on words that are refused."""
        self.check(answer, status, out)
        if status == 2 and out.startswith(b"bad request"):
            self.assertRegex(answer.err, rb"(?m)^bpdesk: [^\n]+\n\Z")
        elif status == 22:
            self.assertRegex(answer.err, rb"\Abpdesk: \S+/0\.nbv is no vault; the file is left as it is\n\Z")
        else:
            self.assertEqual(answer.err, answer.made)

    def check_told(self, answer, status, out, *words):
        """The same, with one plain line on standard error that has one of the words, where words are given."""
        self.check(answer, status, out)
        self.assertRegex(answer.err, rb"\A[^\n]+\n\Z")
        if words:
            self.assertTrue(any(word in answer.err.lower() for word in words), shown(answer.err))

    def ending(self, process):
        """Ends a process that the test started, where it still runs, and returns its status and output."""
        try:
            out, err = process.communicate(timeout=PATIENCE)
        except subprocess.TimeoutExpired:
            process.send_signal(signal.SIGKILL)
            process.communicate()
            self.fail("the program did not end")
        return Answer(process.returncode, out, err, process.made)


def end_all():
    """Ends what a test that failed left running."""
    for process in STARTED:
        if process.poll() is None:
            process.kill()
            process.wait()
        for stream in (process.stdin, process.stdout, process.stderr):
            if stream:
                with contextlib.suppress(OSError):
                    stream.close()
    STARTED.clear()


def shown(text):
    """Returns bytes as they are, or how they begin where they are many: a failed comparison then stays readable."""
    return text if text is None or len(text) <= 400 else text[:200] + b"..(%d bytes).." % len(text)
