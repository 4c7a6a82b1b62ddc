"""The program's system calls, as a tracer sees them: the order of writes, syncs and the reply, and calls that fail."""

import os
import random
import re
import shutil
import subprocess
import unittest
from pathlib import Path
from typing import NamedTuple

import desk
import vault
from desk import DeskTest
from test_backup import HELLO

STRACE = shutil.which("strace")
# The calls that read, write, move in, cut or sync a file, or make one.
CALLS = "open,openat,creat,mkdir,mkdirat,read,readv,pread64,preadv,write,writev,pwrite64,pwritev,lseek,ftruncate,fsync,fdatasync,sendfile,copy_file_range"
LINE = re.compile(r"\A(?:\d+ +)?(\w+)\((.*)\) += (-?\d+)(.*)\Z")
FILE = re.compile(r"\A(\d+)<([^>]*)>")


class Step(NamedTuple):
    """A call on a file of the vault, the folder or the standard output: what it does, from where, how many bytes, and in which file."""

    what: str
    at: int = 0
    count: int = 0
    file: int = vault.JOURNAL


def recorded(gate, end):
    """Returns the steps of a record from its gate to the next one: the length, the body and the closed next gate, and then its own gate."""
    return [Step("write", gate + 1, end - gate), Step("sync"), Step("write", gate, 1), Step("sync")]


# An opening of a vault whose pool holds a piece. The folder is synced too, behind the first sync of a file: a stop may have come after
# the file was made and before that.
OPENED = [Step("sync"), Step("sync folder"), Step("sync", file=vault.POOL), Step("sync folder")]
# And of one whose pool holds none.
OPENED_EMPTY = OPENED[:2]


def may_trace():
    if not STRACE:
        return False
    return subprocess.run([STRACE, "-o", "/dev/null", "true"], capture_output=True).returncode == 0


@unittest.skipUnless(may_trace(), "there is no strace here, or it may not trace")
class Traced(DeskTest):
    def trace(self, *words, payload=b"", more=()):
        """Runs the program under the tracer, and returns its answer and the lines of the trace."""
        log = Path(self.top, "trace")
        command = [STRACE, "-f", "-y", "-s", "16", "-o", str(log), "-e", f"trace={CALLS}", *more, *self.desk.words(words)]
        ran = subprocess.run(command, input=payload, capture_output=True, timeout=desk.PATIENCE)
        return desk.Answer(ran.returncode, ran.stdout, ran.stderr), log.read_text(errors="replace").splitlines()

    def on_the_vault(self):
        """Returns what has the tracer see calls on the vault alone: what loads the program makes some of them too."""
        return [word for path in (self.desk.folder, self.desk.file(vault.JOURNAL), self.desk.file(vault.POOL)) for word in ("-P", str(path))]

    def steps(self, lines):
        """Returns the calls that succeeded, in order."""
        folder = os.path.realpath(self.desk.folder)
        files = {os.path.join(folder, f"{number}.nbv"): number for number in range(18)}
        found, places = [], {}
        for line in lines:
            read = LINE.match(line)
            file = read and FILE.match(read[2])
            if not file or int(read[3]) < 0:
                continue
            call, rest, given = read[1], read[2], int(read[3])
            number, path = int(file[1]), os.path.realpath(file[2])
            if path == folder and call in ("fsync", "fdatasync"):
                found.append(Step("sync folder"))
            if number == 1 and call in ("write", "writev"):
                found.append(Step("reply", 0, given))
            if path not in files:
                continue
            if call == "lseek":
                places[number] = given
            elif call in ("fsync", "fdatasync"):
                found.append(Step("sync", file=files[path]))
            elif call == "ftruncate":
                found.append(Step("cut", int(rest.rsplit(",", 1)[1]), file=files[path]))
            elif call in ("pread64", "preadv", "pwrite64", "pwritev"):
                # (what a call reads into or writes from is long and cut off: its last word is the place)
                found.append(Step("read" if call.startswith("pr") else "write", int(rest.rsplit(",", 1)[1]), given, files[path]))
            elif call in ("read", "readv", "write", "writev"):
                at = places.get(number, 0)
                places[number] = at + given
                found.append(Step("read" if call.startswith("r") else "write", at, given, files[path]))
        return found


def joined(steps):
    """Returns the steps with writes that follow one another at one stretch put together, and without reads."""
    found = []
    for step in steps:
        if step.what == "read":
            continue
        last = found[-1] if found else None
        if last and step.what == last.what == "write" and step.file == last.file and step.at == last.at + last.count:
            found[-1] = last._replace(count=last.count + step.count)
        else:
            found.append(step)
    return found


def whole_replies(steps):
    """Returns the steps with replies that follow one another put together: one may be sent in several writes."""
    found = []
    for step in steps:
        if found and step.what == found[-1].what == "reply":
            step = Step("reply", 0, found.pop().count + step.count)
        found.append(step)
    return found


class Order(Traced):
    def backs_up(self, payload, images):
        """Backs up a payload behind some images, compares the calls from the record's first write on, and returns those before."""
        answer, lines = self.trace("@5000 bpbackup client=b", payload=payload)
        self.check(answer, 0, b"b_5000\n")
        new = vault.Image(b"b", 5000, payload, 5000)
        steps = joined(self.steps(lines))
        wanted = [*recorded(*vault.gates(*images, new)[-2:]), Step("reply", 0, len(new.id) + 1)]
        self.assertEqual(steps[-len(wanted) :], wanted)
        self.assertTrue(self.desk.files() == vault.files(*images, new), "the vault differs")
        return self.steps(lines), steps[: -len(wanted)]

    def test_a_backup_on_an_earlier_vault(self):
        """The pool is written and synced before the record, and only where a piece is new."""
        for payload, placed in ((b"hello", []), (b"", []), (b"other", [Step("write", vault.SEGMENT, 5, vault.POOL), Step("sync", file=vault.POOL)])):
            with self.subTest(payload=payload):
                self.desk.put(HELLO)
                every, before = self.backs_up(payload, vault.read(HELLO))
                self.assertEqual(before, [*OPENED, *placed], "an opening syncs and writes nothing")
                for file in (vault.JOURNAL, vault.POOL):
                    whats = [step.what for step in every if step.file == file]
                    self.assertLess(whats.index("sync"), [*whats, "read"].index("read"), "a file was read before it was synced")

    def test_a_backup_of_a_long_payload(self):
        """Its pieces are written in their order, and the pool is synced once."""
        self.desk.put(HELLO)
        _, before = self.backs_up(random.Random(1).randbytes(5_000_000), vault.read(HELLO))
        self.assertEqual(before, [*OPENED, Step("write", vault.SEGMENT, 5_000_000, vault.POOL), Step("sync", file=vault.POOL)])

    def test_a_backup_of_equal_pieces(self):
        """What is found in the pool is written no second time, be it of an earlier image or of this one."""
        self.desk.put(HELLO)
        _, before = self.backs_up(bytes(5_000_000), vault.read(HELLO))
        last = 5_000_000 % vault.SEGMENT
        self.assertEqual(before, [*OPENED, Step("write", vault.SEGMENT, vault.SEGMENT + last, vault.POOL), Step("sync", file=vault.POOL)])

    def test_a_backup_on_a_new_vault(self):
        _, before = self.backs_up(b"hello", [])
        begun = [Step("cut", 0), Step("write", 0, len(vault.EMPTY)), Step("sync")]
        # (the pool's file is made by its first write, and so the folder is synced again)
        placed = [Step("write", 0, 5, vault.POOL), Step("sync", file=vault.POOL), Step("sync folder")]
        self.assertEqual(before, [*OPENED_EMPTY, *begun, *placed])

    def test_the_folder_above_each_one_that_is_made_is_synced(self):
        top = os.path.realpath(self.top)
        self.desk = desk.Desk(Path(top, "a", "b", "c"))
        answer, lines = self.trace("@1 bpbackup client=a", payload=b"x")
        self.check(answer, 0, b"a_1\n")
        calls = [read for read in map(LINE.match, lines) if read and read[1] in ("fsync", "fdatasync") and read[3] == "0"]
        synced = [os.path.realpath(FILE.match(read[2])[2]) for read in calls]
        for above in (top, os.path.join(top, "a"), os.path.join(top, "a", "b"), os.path.join(top, "a", "b", "c")):
            self.assertIn(above, synced)

    def test_a_refusal_writes_nothing(self):
        self.desk.put(vault.files(vault.Image(b"b", vault.LATEST, b"x", 1)))
        answer, lines = self.trace("@1 bpbackup client=b", payload=b"y")
        self.assertEqual(answer.status, 15)
        self.assertEqual(joined(self.steps(lines))[:-1], OPENED)

    def test_a_restore_writes_nothing(self):
        self.desk.put(HELLO)
        answer, lines = self.trace("bprestore id=alpha_1000")
        self.check(answer, 0, b"hello")
        self.assertEqual(joined(self.steps(lines)), [*OPENED, Step("reply", 0, 5)])

    def test_each_file_is_opened_once(self):
        self.desk.put(HELLO)
        answer, lines = self.trace("@1 bpbackup client=b", payload=random.Random(1).randbytes(1_000_000))
        self.assertEqual(answer.status, 0)
        opened = re.findall(r'\bopen(?:at)?\([^\n]*/(\d+)\.nbv"[^\n]* = \d', "\n".join(lines))
        self.assertEqual(sorted(opened), ["0", "2"])

    def test_long_payloads_move_in_large_blocks(self):
        """A payload of 8 MiB takes no more than some hundred reads and writes."""
        answer, lines = self.trace("@1 bpbackup client=b", payload=random.Random(1).randbytes(8 << 20))
        self.assertEqual(answer.status, 0)
        steps = self.steps(lines)
        self.assertLessEqual(len([step for step in steps if step.what == "write"]), 300)
        reads = [line for line in lines if re.search(r"\bread\(0<", line)]
        self.assertLessEqual(len(reads), 1_200)


class Failing(Traced):
    """A call that the tracer lets fail: what is answered, and what the next opening finds."""

    def with_fault(self, calls, error, when, payload=b"hello"):
        answer, lines = self.trace("@5000 bpbackup client=b", payload=payload, more=[*self.on_the_vault(), "-e", f"inject={calls}:error={error}:when={when}"])
        return answer, any("(INJECTED)" in line for line in lines)

    def each_failing(self, calls, error, start, payload=b"hello"):
        """Lets the first, second, .. of these calls fail, until none is left, and returns how many there were."""
        new = vault.Image(b"b", 5000, payload, 5000)
        for when in range(1, 20):
            self.desk = self.new_desk()
            if start is not None:
                self.desk.put(start)
            answer, was_met = self.with_fault(calls, error, when, payload)
            if not was_met:
                self.check(answer, 0, b"b_5000\n")
                return when - 1
            with self.subTest(calls=calls, when=when, new=start is None):
                self.check(answer, 18, b"disk fault\n")
                self.assertNotIn(b"b_5000", answer.out)
                images = vault.read(start or {})
                again = self.desk.run("@6000 bpbackup client=b", payload=b"again")
                self.check(again, 0, b"b_6000\n")
                last = vault.Image(b"b", 6000, b"again", 6000)
                self.assertIn(vault.read(self.desk.files()), ([*images, last], [*images, new, last]))
        self.fail("there is no end to these calls")

    def test_a_sync_that_fails(self):
        # The opening's of the journal and the pool, each with its folder's, the record's and the gate's.
        self.assertEqual(self.each_failing("fsync,fdatasync", "EIO", HELLO), 6)
        # And the new piece's.
        self.assertEqual(self.each_failing("fsync,fdatasync", "EIO", HELLO, b"other"), 7)

    def test_a_sync_that_fails_on_a_new_vault(self):
        # Those of the opening with the folder, the header, the piece with the folder, the record and the gate.
        self.assertGreaterEqual(self.each_failing("fsync,fdatasync", "EIO", None), 7)

    def test_a_write_that_fails(self):
        for error in ("EIO", "ENOSPC"):
            self.assertGreaterEqual(self.each_failing("pwrite64,pwritev", error, HELLO), 2)
            self.assertGreaterEqual(self.each_failing("pwrite64,pwritev", error, HELLO, b"other"), 3)

    def test_a_write_that_fails_on_a_new_vault(self):
        self.assertGreaterEqual(self.each_failing("pwrite64,pwritev", "ENOSPC", None), 4)

    def test_a_read_that_fails(self):
        # The journal's, and that of the piece that may be the same.
        self.assertGreaterEqual(self.each_failing("pread64,preadv", "EIO", HELLO), 2)

    def test_a_cut_that_fails(self):
        self.assertGreaterEqual(self.each_failing("ftruncate", "EIO", None), 1)

    def test_no_call_follows_a_sync_that_failed(self):
        for when in range(1, 7):
            with self.subTest(when=when):
                self.desk.put(HELLO)
                answer, lines = self.trace("@1 bpbackup client=b", payload=b"x", more=["-e", f"inject=fsync,fdatasync:error=EIO:when={when}"])
                self.assertEqual(answer.status, 18)
                failed = next(at for at, line in enumerate(lines) if "(INJECTED)" in line)
                whats = [step.what for step in self.steps(lines[failed + 1 :])]
                self.assertEqual(whats, ["reply"], "the vault was used after a sync failed")

    def test_an_interrupted_call_is_made_again(self):
        met = 0
        for calls in ("pwrite64,pwritev", "pread64,preadv", "fsync,fdatasync"):
            for when in (1, 2):
                with self.subTest(calls=calls, when=when):
                    self.desk = self.new_desk()
                    self.desk.put(HELLO)
                    answer, was_met = self.with_fault(calls, "EINTR", when, b"other")
                    met += was_met
                    if was_met:
                        self.check(answer, 0, b"b_5000\n")
                        self.assertEqual(self.desk.files(), vault.files(*vault.read(HELLO), vault.Image(b"b", 5000, b"other", 5000)))
        self.assertGreaterEqual(met, 4, "too few calls were interrupted to tell anything")
