"""What a person is told on standard error: what is wrong with words and site files, and what failed on which file, and why."""

import os
import pty
import re
import shutil
import subprocess
from pathlib import Path

import desk
import vault
from desk import PROGRAM, Desk, DeskTest
from rows import line_of
from test_backup import HELLO
from test_faults import with_files_of

USAGE = Path(desk.ROOT, "share/usage.txt").read_bytes()
NAME = "a name, 1 to 64 of A-Z a-z 0-9 . _ -"
SCHEDULE = "bpplsched add policy=p schedule=s kind=full"

# Words, the index that the reply has, and the line; a star stands for the usage before it.
MISTAKES = [
    # No form is meant.
    ("", 0, "* a request is missing"),
    ("@5", 1, "* a request is missing behind @5"),
    ("--help", 0, "* word 0, --help: there is no such request"),
    ("-x client add", 0, "* word 0, -x: there is no such request"),
    ("frobnicate name=a", 0, "* word 0, frobnicate: there is no such request"),
    ("@5 Client add name=a", 1, "* word 1, Client: there is no such request"),
    (" client add name=a", 0, "* word 0, '': there is no such request"),
    ("@x client add name=a", 0, "word 0, @x: a moment is @ and a number from 0 to 250000000000"),
    ("@250000000001 bpload", 0, "word 0, @250000000001: a moment is @ and a number from 0 to 250000000000"),
    ("@05 bpload", 0, "word 0, @05: a moment is @ and a number from 0 to 250000000000"),
    ("session more", 1, "word 1, more: session takes no further words"),
    ("@5 session", 1, "word 1, session: session takes no moment"),
    # The second word.
    ("client", 1, "client is followed by add or remove"),
    ("@5 client", 2, "client is followed by add or remove"),
    ("client grow", 1, "word 1, grow: client is followed by add or remove"),
    ("bppolicynew clientadd", 1, "word 1, clientadd: bppolicynew is followed by add, change, remove, client-add, client-remove, select or unselect"),
    ("bpzone rule=UTC0", 1, "word 1, rule=UTC0: bpzone is followed by set"),
    # What is missing.
    ("client add", 2, "client add lacks name="),
    ("@5 bppolicynew add policy=p", 4, "bppolicynew add lacks type= and lifecycle="),
    ("bpplsched add frequency=1", 3, "bpplsched add lacks policy=, schedule=, kind= and windows="),
    ("bpbackup policy=adhoc", 2, "bpbackup lacks client="),
    ("bprestore copy=1", 2, "bprestore lacks id="),
    ("bprestore", 1, "bprestore lacks id=, or client= and policy="),
    ("@5 bprestore client=a", 3, "bprestore lacks policy="),
    ("bprestore before=5", 2, "bprestore lacks client= and policy="),
    # What doesn't go together.
    ("bpzone set", 2, "bpzone set takes one of rule= and offset="),
    ("bpzone set rule=UTC0 offset=+00:00", 4, "bpzone set takes one of rule= and offset="),
    (f"{SCHEDULE} windows=none", 6, "bpplsched add takes one of frequency= and calendar="),
    ("bprestore id=a_1 client=a policy=p", 4, "bprestore: id= and copy= don't go with client=, policy= and before="),
    ("bprestore copy=1 before=5", 3, "bprestore: id= and copy= don't go with client=, policy= and before="),
    ("unit change name=t low=10", 4, "unit change takes both of high= and low=, or none"),
    ("unit change name=t high=40 low=40", 5, "unit change: low= is below high="),
    ("unit add name=t capacity=1 high=80", 5, "unit add: low= is below high=, and is 80 where it is missing"),
    ("unit add name=t capacity=1 low=98", 5, "unit add: low= is below high=, which is 98 where it is missing"),
    # A word that is none of the form.
    ("client add a", 2, "word 2, a: a word behind client add is KEY=VALUE"),
    ("client add =a", 2, "word 2, =a: a word behind client add is KEY=VALUE"),
    ("@5 client add name=a ", 4, "word 4, '': a word behind client add is KEY=VALUE"),
    ("client add nam=a", 2, "word 2, nam=a: client add has no key nam, but name"),
    ("unit change name=t segment=16", 3, "word 3, segment=16: unit change has no key segment, but name, capacity, slots, high and low"),
    ("bpload file=a", 1, "word 1, file=a: bpload has no key file"),
    ("client add name=a name=b", 3, "word 3, name=b: name= stands there already"),
    # A value.
    ("client add name=a/b", 2, f"word 2, name=a/b: name takes {NAME}"),
    ("@5 bpbackup client=", 2, f"word 2, client=: client takes {NAME}"),
    ("client add name=caf\u00e9", 2, rf"word 2, name=caf\xC3\xA9: name takes {NAME}"),
    (f"client add name={'n' * 99}", 2, f"word 2, name={'n' * 75}..: name takes {NAME}"),
    ("unit add name=t capacity=0", 3, "word 3, capacity=0: capacity takes a number from 1 to 1125899906842624"),
    ("unit add name=t capacity=1 segment=15", 4, "word 4, segment=15: segment takes a number from 16 to 131072"),
    ("unit change name=t high=101", 3, "word 3, high=101: high takes a number from 1 to 100"),
    ("bprestore id=a_1 copy=33", 2, "word 2, copy=33: copy takes a number from 1 to 32"),
    ("bprestore id=a", 1, "word 1, id=a: id takes an id as a backup printed it: a name, _ and a time from 1 to 250000000000"),
    ("bppolicynew add policy=p type=tape", 3, "word 3, type=tape: type takes files or raw"),
    ("bprestore client=a policy=p before=now", 3, "word 3, before=now: before takes a number from 0 to 250000000000"),
    ("bprestore client=a time=5", 2, "word 2, time=5: bprestore has no key time, but id, copy, client, policy and before"),
    ("bppolicynew change policy=p active=y", 3, "word 3, active=y: active takes yes or no"),
    ("bpplsched add kind=incr", 2, "word 2, kind=incr: kind takes full, diff or cumul"),
    (f"{SCHEDULE} calendar=m0", 5, "word 5, calendar=m0: calendar takes up to 64 items as w1mon, mL or d2027-12-24, joined by +"),
    (f"{SCHEDULE} windows=all", 5, "word 5, windows=all: windows takes always, none, or up to 28 windows as fri/20:00:00/36000, joined by +"),
    ("bpzone set rule=Europe/Zurich", 2, "word 2, rule=Europe/Zurich: rule takes a rule as CET-1CEST,M3.5.0,M10.5.0/3, and no place"),
    ("bpzone set offset=2", 2, "word 2, offset=2: offset takes +HH:MM or -HH:MM, as +02:00"),
]

# Site files, and the line.
SITE_FILES = [
    ("[[client]]\nname = \n", "is no TOML: line 2: "),
    ("[[clients]]\nname = 'a'\n", "has no part clients, but zone, unit, client and policy"),
    ("zone = 'UTC0'\n", "zone is no table"),
    ("[zone]\n", "zone: bpzone set takes one of rule= and offset="),
    ("[[unit]]\nname = 't'\ncapacity = 0\n", "unit 1: capacity takes a number from 1 to 1125899906842624"),
    ("client = 'a'\n", "client is no array"),
    ("[[client]]\nname = 'a'\n[[client]]\nname = 'a/b'\n", f"client 2: name takes {NAME}"),
    ("[[client]]\nname = ['a']\n", "client 1: name is neither a string nor a number"),
    ("[[client]]\nnam = 'a'\n", "client 1: client add has no key nam, but name"),
    ("[[policy]]\npolicy = 'p'\ntype = 'raw'\n", "policy 1: bppolicynew add lacks lifecycle="),
    ("[[policy]]\npolicy = 'p'\ntype = 'raw'\nlifecycle = 'basic'\nclients = ['a', 'b c']\n", f"policy 1, clients 2: client takes {NAME}"),
    ("[[policy]]\npolicy = 'p'\ntype = 'raw'\nlifecycle = 'basic'\nselections = ['a']\n", "policy 1, selections 1: path takes a path as /home/a%20b, 1 to 1024 bytes: "),
    ("[[policy]]\npolicy = 'p'\ntype = 'raw'\nlifecycle = 'basic'\n[[policy.schedule]]\nschedule = 's'\nkind = 'full'\nwindows = 'none'\n", "policy 1, schedule 1: bpplsched add takes one of frequency= and calendar="),
]


def told(line):
    """Returns what standard error has for a line of the table of mistakes."""
    usage = USAGE if line.startswith("* ") else b""
    return usage + f"bpdesk: {line.removeprefix('* ')}\n".encode()


class Mistakes(DeskTest):
    def tells(self, one):
        for words, index, line in MISTAKES:
            with self.subTest(words=words):
                answer = one.run(words)
                self.check(answer, 2, b"bad request at %d\n" % index)
                self.assertEqual(answer.err, told(line))

    def test_there_are_forty_of_them(self):
        self.assertGreaterEqual(len(MISTAKES), 40)

    def test_words_without_a_vault(self):
        self.tells(self.desk)
        self.assertFalse(self.desk.exists(), "a folder was made")

    def test_words_over_a_vault(self):
        self.desk.put(HELLO)
        self.tells(self.desk)
        self.assertEqual(self.desk.files(), HELLO)

    def test_no_folder(self):
        ran = subprocess.run([PROGRAM], input=b"", capture_output=True, timeout=desk.PATIENCE)
        self.assertEqual((ran.returncode, ran.stdout, ran.stderr), (2, b"", told("* a folder and a request are missing")))

    def test_a_folder_that_was_left_out(self):
        for words, first in ((["bpbackup", "client=a"], b"client=a"), (["client", "add", "name=a"], b"add"), (["session"], None)):
            with self.subTest(words):
                ran = subprocess.run([PROGRAM, *words], input=b"", capture_output=True, timeout=desk.PATIENCE)
                self.assertEqual((ran.returncode, ran.stdout), (2, b"bad request at 0\n"))
                why = b"a request is missing" if first is None else b"word 0, %s: there is no such request" % first
                taken = b"%s was taken for the folder of the vault, which stands before a request" % words[0].encode()
                self.assertEqual(ran.stderr, USAGE + b"bpdesk: %s\nbpdesk: %s\n" % (why, taken))

    def test_a_line_on_a_word_stays_one_line(self):
        for word in ("a\nb", "a\tb", "\x1b[2J", "n" * 100_000):
            with self.subTest(word=word[:20]):
                answer = self.desk.run("client", "add", f"name={word}")
                self.check(answer, 2, b"bad request at 2\n")
                self.assertRegex(answer.err, rb"\Abpdesk: [ -~]{1,200}\n\Z")

    def test_bad_words_in_a_session_stay_untold(self):
        self.desk.put(HELLO)
        lines = b"".join(line_of(words) for words, _, _ in MISTAKES if words.isascii())
        answer = self.desk.run("session", payload=lines)
        self.assertEqual((answer.status, answer.err), (0, b""))
        self.assertEqual(self.desk.files(), HELLO)

    def test_site_files(self):
        self.desk.put(HELLO)
        for file, line in SITE_FILES:
            with self.subTest(file=file):
                for words in ("bpload", "@5 bpload"):
                    answer = self.desk.run(words, payload=file.encode())
                    self.check(answer, 2, b"bad request at 1\n")
                    start = "bpdesk: the site file" + (" " if line.startswith(("is ", "has ")) else ", ")
                    self.assertRegex(answer.err.decode(), rf"\A{re.escape(start + line)}[^\n]*\n\Z")
        self.assertEqual(self.desk.files(), HELLO)

    def test_bytes_that_are_no_text(self):
        for file in (b"\xff", b"[[client]]\nname = '\xff'\n", bytes(1000)):
            with self.subTest(file=file[:20]):
                self.desk.put(HELLO)
                answer = self.desk.run("bpload", payload=file)
                self.check(answer, 2, b"bad request at 1\n")
                self.assertRegex(answer.err, rb"\Abpdesk: the site file is no TOML: line [12]: [^\n]+\n\Z")


class Folders(DeskTest):
    BACKUP = "@1 bpbackup client=a"

    def says(self, answer, status, out, line):
        self.check(answer, status, out)
        self.assertEqual(answer.err, f"bpdesk: {line}\n".encode())

    def fails(self, one, line, **how):
        self.says(one.run(self.BACKUP, payload=b"x", **how), 18, b"disk fault\n", line)

    def test_a_vault_that_is_made(self):
        made = f"made a new vault in {self.desk.folder}"
        self.says(self.desk.run("bprestore id=a_1"), 4, b"a_1 unknown\n", made)
        self.says(desk.Desk("v").run("session", payload=b"", cwd=self.top), 0, b"", "made a new vault in v")
        for words, out in ((self.BACKUP, b"a_1\n"), ("bprestore id=a_1", b"x")):
            answer = self.desk.run(words, payload=b"x")
            self.assertEqual((answer.status, answer.out, answer.err), (0, out, b""))

    def test_folders_that_cannot_be_used(self):
        Path(self.top, "file").write_bytes(b"")
        os.symlink("loop", Path(self.top, "loop"))
        for place, line in (
            ("file", "cannot open {}/0.nbv: Not a directory"),
            ("file/vault", "cannot make {}: Not a directory"),
            ("n" * 300, "cannot make {}: File name too long"),
            ("loop", "cannot open {}/0.nbv: Too many levels of symbolic links"),
        ):
            with self.subTest(place=place[:20]):
                one = Desk(Path(self.top, place))
                self.fails(one, line.format(one.folder))
        self.fails(Desk(""), "the folder has no name", cwd=self.top)
        Path(self.desk.folder, "0.nbv").mkdir(parents=True)
        self.fails(self.desk, f"cannot open {self.desk.folder}/0.nbv: Is a directory")

    def test_a_folder_that_may_not_be_written(self):
        self.desk.put(HELLO)
        one, how = self.desk, {}
        if os.geteuid() == 0:
            os.chmod(self.top, 0o755)
            os.chmod(self.desk.folder, 0o755)
            one = Desk(self.desk.folder, shutil.copy(PROGRAM, Path(self.top, "bpdesk")))
            how = {"user": 65534, "group": 65534, "extra_groups": []}
            try:
                self.assertEqual(one.run("frobnicate", **how).status, 2)
            except OSError as it:
                self.skipTest(f"the program cannot be run as another user here: {it}")
        os.chmod(self.desk.file(), 0o444)
        self.fails(one, f"cannot open {one.folder}/0.nbv: Permission denied", **how)
        self.assertEqual(self.desk.files(), HELLO)

    def test_a_vault_in_use(self):
        held = self.desk.start("session")
        held.stdin.write(b"@1 bpbackup client=a payload=1\nx")
        held.stdin.flush()
        held.stdout.read(len(b"0 4\na_1\n"))
        self.fails(self.desk, f"the vault {self.desk.folder} is in use by another process")
        self.check_quiet(self.ending(held), 0, b"")

    def test_a_disk_that_is_full(self):
        self.desk.put(HELLO)
        for payload, most, file in ((bytes(300_000), 1_000, 2), (b"hello", len(HELLO[0]), 0)):
            line = f"cannot write {self.desk.folder}/{file}.nbv: File too large"
            self.says(self.desk.run(self.BACKUP, payload=payload, **with_files_of(most)), 18, b"disk fault\n", line)
            text = line_of(self.BACKUP, payload) + line_of(self.BACKUP, b"x")
            answer = self.desk.run("session", payload=text, **with_files_of(most))
            self.says(answer, 18, desk.frame(18, b"disk fault\n"), line)
            self.assertEqual(vault.read(self.desk.files()), vault.read(HELLO))

    def test_a_file_that_is_no_vault(self):
        line = f"{self.desk.folder}/0.nbv is no vault; the file is left as it is"
        self.desk.put(bytes(100))
        self.says(self.desk.run(self.BACKUP, payload=b"x"), 22, b"not a vault at 0\n", line)
        self.says(self.desk.run("session"), 22, desk.frame(22, b"not a vault at 0\n"), line)
        self.assertEqual(self.desk.bytes(), bytes(100))

    def test_a_reply_that_cannot_be_written(self):
        self.desk.put(HELLO)
        with open("/dev/full", "wb", buffering=0) as full:
            answer = self.desk.run(self.BACKUP, payload=b"x", stdout=full)
        line = "the reply could not be written: No space left on device; the request may have been done"
        self.says(answer, 20, None, line)
        with open("/dev/full", "wb", buffering=0) as full:
            answer = self.desk.run("frobnicate", stdout=full)
        self.says(answer, 20, None, line)

    def test_an_input_that_cannot_be_read(self):
        self.desk.put(HELLO)
        source = os.open(self.top, os.O_RDONLY)
        self.addCleanup(os.close, source)
        answer = self.desk.run(self.BACKUP, payload=None, stdin=source)
        self.says(answer, 19, b"read fault\n", "the input could not be read: Is a directory")

    def test_an_input_from_a_terminal(self):
        self.desk.put(HELLO)
        ours, its = pty.openpty()
        self.addCleanup(os.close, ours)
        for words, line in ((self.BACKUP, "the payload is read from the terminal, to its end (Ctrl-D)"), ("session", None)):
            with self.subTest(words=words):
                os.write(ours, b"\x04")
                answer = self.desk.run(words, payload=None, stdin=its)
                self.assertEqual((answer.status, answer.err), (0, f"bpdesk: {line}\n".encode() if line else b""))
        answer = self.desk.run("bprestore id=alpha_1000", payload=None, stdin=its)
        self.assertEqual((answer.status, answer.out, answer.err), (0, b"hello", b""))
        os.close(its)
