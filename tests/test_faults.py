"""Folders, inputs and outputs that fail: the status, what is told, and that the vault stays whole."""

import os
import random
import resource
import shutil
import signal
import subprocess
from pathlib import Path

import vault
from desk import PROGRAM, Desk, DeskTest, frame
from test_backup import HELLO

BACKUP = "@1 bpbackup client=a"


def with_files_of(most):
    """Returns how a program runs whose files can't grow past so many bytes, as on a disk that is full: a write past them fails."""

    def limit():
        signal.signal(signal.SIGXFSZ, signal.SIG_IGN)
        resource.setrlimit(resource.RLIMIT_FSIZE, (most, most))

    return {"preexec_fn": limit, "restore_signals": False}


class Folders(DeskTest):
    def test_a_folder_below_a_file(self):
        Path(self.top, "file").write_bytes(b"kept")
        for folder in (Path(self.top, "file"), Path(self.top, "file", "vault")):
            with self.subTest(folder=folder.name):
                self.check_told(Desk(folder).run(BACKUP, payload=b"x"), 18, b"disk fault\n")
        self.assertEqual(Path(self.top, "file").read_bytes(), b"kept")

    def test_a_folder_where_none_can_be_made(self):
        self.check_told(Desk("/proc/bpdesk-test").run(BACKUP, payload=b"x"), 18, b"disk fault\n")

    def test_a_folder_with_no_name(self):
        """As from a variable of a script that was not set: nothing may be written where the program happens to run."""
        desk = Desk("")
        self.check_told(desk.run(BACKUP, payload=b"x", cwd=self.top), 18, b"disk fault\n", b"no name")
        self.check_told(desk.run("session", payload=b"", cwd=self.top), 18, frame(18, b"disk fault\n"), b"no name")
        self.check_quiet(desk.run("client add", cwd=self.top), 2, b"bad request at 2\n")
        self.assertEqual(os.listdir(self.top), [])

    def test_a_name_that_is_too_long(self):
        self.check_told(Desk(Path(self.top, "n" * 300)).run(BACKUP, payload=b"x"), 18, b"disk fault\n")

    def test_a_journal_that_is_a_folder(self):
        Path(self.desk.folder, "0.nbv").mkdir(parents=True)
        self.check_told(self.desk.run(BACKUP, payload=b"x"), 18, b"disk fault\n")

    def test_a_link_to_itself(self):
        os.symlink(self.desk.folder, self.desk.folder)
        self.check_told(self.desk.run(BACKUP, payload=b"x"), 18, b"disk fault\n")

    def test_a_folder_that_cannot_be_written(self):
        self.desk.put(HELLO)
        os.chmod(self.desk.file(), 0o444)
        os.chmod(self.desk.folder, 0o555)
        self.addCleanup(os.chmod, self.desk.folder, 0o755)
        refused, how = self.desk, {}
        if os.geteuid() == 0:
            # Who may do everything is refused nothing, so a copy of the program runs as another.
            os.chmod(self.top, 0o755)
            refused = Desk(self.desk.folder, shutil.copy(PROGRAM, Path(self.top, "bpdesk")))
            how = {"user": 65534, "group": 65534, "extra_groups": []}
            try:
                self.assertEqual(refused.run("frobnicate", **how).status, 2)
            except OSError as it:
                self.skipTest(f"the program cannot be run as another user here: {it}")
        self.check_told(refused.run(BACKUP, payload=b"x", **how), 18, b"disk fault\n")
        below = Desk(Path(self.desk.folder, "below"), refused.program)
        self.check_told(below.run(BACKUP, payload=b"x", **how), 18, b"disk fault\n")
        self.assertEqual(self.desk.files(), HELLO)

    def test_a_disk_that_is_full(self):
        """A limit on the length of files stands for the full disk: a write past it fails."""
        before = vault.files(*(vault.Image(b"b", time, b"hello", time) for time in range(1, 10_000)))
        length = len(before[0])

        for payload, most in ((b"hello", length), (b"hello", length + 20), (random.Random(1).randbytes(300_000), 200_000)):
            with self.subTest(length=len(payload), most=most):
                self.desk.put(before)
                answer = self.desk.run(BACKUP, payload=payload, **with_files_of(most))
                self.check(answer, 18, b"disk fault\n")
                # What was there stays, and the next run takes the place of what the failed one left.
                self.assertTrue(vault.read(self.desk.files()) == vault.read(before), "the vault has other images")
                self.check_quiet(self.desk.run(BACKUP, payload=b"x"), 0, b"a_1\n")
                self.assertTrue(vault.read(self.desk.files()) == [*vault.read(before), vault.Image(b"a", 1, b"x", 1)], "the vault has other images")


class Outputs(DeskTest):
    """A reply that cannot be sent: status 20, and the image stands, since a send changes no state."""

    def stands(self):
        self.assertEqual(vault.read(self.desk.files()), [vault.Image(b"a", 1, b"x", 1)])
        self.check_quiet(self.desk.run(BACKUP, payload=b"y"), 0, b"a_2\n")

    def test_an_output_that_takes_nothing(self):
        with open("/dev/full", "wb", buffering=0) as full:
            self.assertEqual(self.desk.run(BACKUP, payload=b"x", stdout=full).status, 20)
        self.stands()

    def test_an_output_whose_reader_is_gone(self):
        taken, given = os.pipe()
        os.close(taken)
        with open(given, "wb", buffering=0) as gone:
            self.assertEqual(self.desk.run(BACKUP, payload=b"x", stdout=gone).status, 20)
        self.stands()

    def test_an_output_that_may_only_be_read(self):
        with open("/dev/null", "rb", buffering=0) as source:
            self.assertEqual(self.desk.run(BACKUP, payload=b"x", stdout=source).status, 20)
        self.stands()

    def test_an_output_that_is_closed(self):
        """The vault's own file must not take the number of the closed output: a reply would be written into it."""
        ran = subprocess.run(["sh", "-c", 'exec "$@" >&-', "sh", *self.desk.words([BACKUP])], input=b"x", stderr=subprocess.PIPE)
        self.assertEqual(ran.returncode, 20)
        self.stands()

    def test_a_refusal_that_cannot_be_sent(self):
        with open("/dev/full", "wb", buffering=0) as full:
            self.assertEqual(self.desk.run("frobnicate", stdout=full).status, 20)
        self.assertFalse(self.desk.exists())


class Inputs(DeskTest):
    """An input that cannot be read: status 19, and nothing is stored."""

    def is_read_fault(self, answer):
        self.check(answer, 19, b"read fault\n")
        self.assertEqual(vault.read(self.desk.files()), [])
        self.check_quiet(self.desk.run(BACKUP, payload=b"y"), 0, b"a_1\n")

    def test_an_input_that_is_a_folder(self):
        source = os.open(self.top, os.O_RDONLY)
        try:
            answer = self.desk.run(BACKUP, payload=None, stdin=source)
        finally:
            os.close(source)
        self.is_read_fault(answer)

    def test_an_input_that_may_only_be_written(self):
        with open("/dev/null", "wb", buffering=0) as sink:
            answer = self.desk.run(BACKUP, payload=None, stdin=sink)
        self.is_read_fault(answer)

    def test_an_input_that_is_closed(self):
        """The vault's own file must not take the number of the closed input: it would be read as the payload."""
        ran = subprocess.run(["sh", "-c", 'exec "$@" <&-', "sh", *self.desk.words([BACKUP])], capture_output=True)
        self.assertEqual((ran.returncode, ran.stdout), (19, b"read fault\n"))
        self.assertEqual(vault.read(self.desk.files()), [])

    def test_no_stream_is_open(self):
        ran = subprocess.run(["sh", "-c", 'exec "$@" <&- >&- 2>&-', "sh", *self.desk.words([BACKUP])])
        self.assertEqual(ran.returncode, 20)
        self.assertEqual(vault.read(self.desk.files()), [])
