"""The first command, `bpbackup client=NAME`: its answers as rows, and the bytes that it leaves."""

import os
import random
import subprocess
from pathlib import Path

import desk
import vault
from desk import DeskTest

HELLO = {
    0: b"NBDESK VAULT 001"  # the header
    b"\xa5"  # the gate of the first record, open
    b"\x00\x00\x00\x75"  # its body has 117 bytes
    b"\x02"  # a backup
    b"\x00\x05alpha"  # the client
    b"\x00\x00\x00\x00\x00\x00\x03\xe8"  # the image's time, 1000
    b"\x00\x05adhoc"  # the policy
    b"\x00\x06manual"  # the schedule
    b"\x00"  # a full backup
    b"\x00\x00\x00\x00\x00\x00\x00\x00"  # no base
    b"\x00\x05basic"  # the lifecycle
    b"\x00\x01"  # its version
    b"\x00\x00\x00\x00\x00\x00\x03\xe8"  # completed at 1000
    b"\x00\x00\x00\x00\x00\x00\x00\x05"  # five bytes
    b"\x00\x00\x00\x01"  # one new segment
    b"\x00\x00\x00\x00"  # in the first slot
    b"\x00\x00\x00\x05"  # of five bytes
    b"\x2c\xf2\x4d\xba\x5f\xb0\xa3\x0e\x26\xe8\x3b\x2a\xc5\xb9\xe2\x9e"  # and with their digest
    b"\x1b\x16\x1e\x5c\x1f\xa7\x42\x5e\x73\x04\x33\x62\x93\x8b\x98\x24"
    b"\x00\x00\x00\x01"  # one piece
    b"\x00\x00\x00\x00"  # in the first slot
    b"\x00",  # the gate of the next record, closed
    2: b"hello",  # the pool
}

NAME_OF_64 = "n" * 64

# Words that are no request, and the index of the first bad one.
BAD_WORDS = [
    ([], 0),
    ([""], 0),
    (["frobnicate"], 0),
    (["bpbackup"], 1),
    (["bpbackup", "client=a/b"], 1),
    (["bpbackup", "client=a", "client=a"], 2),
    (["bpbackup", "client=a", "client=b"], 2),
    (["bpbackup", "client="], 1),
    (["bpbackup", "client"], 1),
    (["bpbackup", "Client=a"], 1),
    (["bpbackup", "client=a b"], 1),
    (["bpbackup", "client=a\n"], 1),
    (["bpbackup", "client=caf\u00e9"], 1),
    (["bpbackup", f"client={NAME_OF_64}n"], 1),
    (["bpbackup", "frob=1", "client=a"], 1),
    (["bpbackup", "client=a", "frob=1"], 2),
    (["bpbackup", "client=a", ""], 2),
    (["bpbackup", "", "client=a"], 1),
    (["bpbackup", "client=a", "payload=5"], 2),
    (["bpbackup client=a"], 0),
    (["Bpbackup", "client=a"], 0),
    (["client=a", "bpbackup"], 0),
    (["@x"], 0),
    (["@"], 0),
    (["@01"], 0),
    (["@-1"], 0),
    (["@+1"], 0),
    (["@250000000001"], 0),
    (["@18446744073709551616", "bpbackup", "client=a"], 0),
    (["@340282366920938463463374607431768211457", "bpbackup", "client=a"], 0),
    (["@x", "bpbackup", "client=a"], 0),
    (["@5"], 1),
    (["@5", "frobnicate"], 1),
    (["@5", "bpbackup"], 2),
    (["@5", "bpbackup", "client=a/b"], 2),
    (["@5", "bpbackup", "client=a", "client=a"], 3),
    (["@5", "@6", "bpbackup", "client=a"], 1),
    (["bpbackup", "@5", "client=a"], 1),
]
# Options come with a later request.
BAD_OPTIONS = [(["--help"], 0), (["--framed"], 0), (["--framed", "bpbackup", "client=a"], 0), (["-x"], 0), (["bpbackup", "--framed", "client=a"], 1)]
# Requests that no form makes yet. The one that adds such a form takes its row away.
NOT_YET = [
    (["job-open", "client=a"], 0),
    (["job-feed", "job=1"], 0),
    (["job-seal", "job=1"], 0),
    (["bpverify", "id=a_5", "copy=1"], 0),
    (["nbstl", "set", "name=l", "priority=0", "op0=backup,-,disk0,infinite,always"], 0),
    (["@5", "nbstl", "show", "name=basic"], 1),
    (["dup-open", "id=a_5", "op=1"], 0),
    (["nbstlutil", "cancel", "id=a_5"], 0),
    (["cleanup"], 0),
    (["@5", "bpexpdate", "id=a_5", "copy=1", "date=0"], 1),
    (["primary", "id=a_5", "copy=1"], 0),
    (["crcontrol", "collect", "unit=disk0"], 0),
    (["restore-open", "id=a_5"], 0),
    (["bpimagelist"], 0),
    (["units"], 0),
    (["due"], 0),
    (["@5", "crcontrol", "stats"], 1),
    (["sim", "seed=1"], 0),
]

# One vault, requests in turn: words, payload, status, standard output.
SESSIONS = {
    "ids rise": [
        ("@1000 bpbackup client=alpha", b"hello", 0, b"alpha_1000\n"),
        ("@1000 bpbackup client=alpha", b"hello", 0, b"alpha_1001\n"),
        ("@1000 bpbackup client=alpha", b"", 0, b"alpha_1002\n"),
        ("@5 bpbackup client=alpha", b"x", 0, b"alpha_1003\n"),
        ("@5 bpbackup client=beta", b"x", 0, b"beta_5\n"),
        ("@2000 bpbackup client=alpha", b"x", 0, b"alpha_2000\n"),
        ("@2000 bpbackup client=alpha", b"x", 0, b"alpha_2001\n"),
        ("@6 bpbackup client=beta", b"x", 0, b"beta_6\n"),
    ],
    "time ends": [
        ("@250000000000 bpbackup client=a", b"x", 0, b"a_250000000000\n"),
        ("@250000000000 bpbackup client=a", b"x", 15, b"too many time: 250000000000 of 250000000000\n"),
        ("@1 bpbackup client=a", b"x", 15, b"too many time: 250000000000 of 250000000000\n"),
        ("@1 bpbackup client=b", b"x", 0, b"b_1\n"),
    ],
    "time begins at 1": [
        ("@0 bpbackup client=a", b"x", 0, b"a_1\n"),
        ("@0 bpbackup client=a", b"x", 0, b"a_2\n"),
    ],
    "names": [
        (f"@1 bpbackup client={NAME_OF_64}", b"x", 0, f"{NAME_OF_64}_1\n".encode()),
        ("@1 bpbackup client=A-z.0_9", b"x", 0, b"A-z.0_9_1\n"),
        ("@1 bpbackup client=a_1", b"x", 0, b"a_1_1\n"),
        ("@1 bpbackup client=a", b"x", 0, b"a_1\n"),
        ("@1 bpbackup client=A", b"x", 0, b"A_1\n"),
        ("@1 bpbackup client=-", b"x", 0, b"-_1\n"),
        ("@1 bpbackup client=..", b"x", 0, b".._1\n"),
    ],
}


class Rows(DeskTest):
    def test_sessions_of_commands(self):
        for name, rows in SESSIONS.items():
            one = self.new_desk()
            for words, payload, status, out in rows:
                with self.subTest(name, words=words):
                    self.check_quiet(one.run(words, payload=payload), status, out)

    def test_bad_words_are_answered_and_nothing_is_made(self):
        for words, index in with_moments([*BAD_WORDS, *BAD_OPTIONS, *NOT_YET]):
            with self.subTest(words=words):
                one = self.new_desk()
                answer = run_exactly(one, words)
                self.check(answer, 2, b"bad request at %d\n" % index)
                self.assertFalse(one.exists(), "a folder was made")

    def test_bad_words_leave_a_vault_as_it_was(self):
        self.desk.put(HELLO)
        for words in (["frobnicate"], ["bpbackup", "client=a/b"], ["@x", "bpbackup", "client=a"]):
            self.assertEqual(run_exactly(self.desk, words).status, 2)
            self.assertEqual(self.desk.files(), HELLO)

    def test_bad_words_read_no_input(self):
        path = Path(self.top, "input")
        path.write_bytes(b"left alone")
        for words in (["frobnicate"], ["bpbackup"], ["bpbackup", "client=a/b"]):
            with self.subTest(words=words), path.open("rb", buffering=0) as source:
                answer = run_exactly(self.desk, words, payload=None, stdin=source)
                self.assertEqual(answer.status, 2)
                self.assertEqual(source.tell(), 0, "input was read")

    def test_bad_words_stand_before_an_unusable_folder(self):
        below = desk.Desk(Path(self.top, "file", "vault"))
        Path(self.top, "file").write_bytes(b"")
        self.check(below.run("frobnicate"), 2, b"bad request at 0\n")

    def test_without_a_folder_the_usage_is_told(self):
        ran = subprocess.run([str(desk.PROGRAM)], input=b"", capture_output=True, timeout=desk.PATIENCE)
        usage = Path(desk.ROOT, "share/usage.txt").read_bytes()
        self.assertEqual((ran.returncode, ran.stdout, ran.stderr), (2, b"", usage + b"bpdesk: a folder and a request are missing\n"))

    def test_a_word_that_is_no_text_has_no_reply(self):
        for words in ([self.desk.folder, b"\xff"], [b"\xff", "bprestore", "id=a_1"]):
            with self.subTest(words=words):
                ran = subprocess.run([str(desk.PROGRAM), *words], input=b"", capture_output=True, timeout=desk.PATIENCE)
                self.assertEqual((ran.returncode, ran.stdout, ran.stderr), (2, b"", b"bpdesk: a word is not UTF-8\n"))
        self.assertFalse(self.desk.exists(), "a folder was made")

    def test_the_clock_gives_the_moment(self):
        import time

        before = int(time.time())
        answer = self.desk.run("bpbackup client=alpha", payload=b"hello")
        after = int(time.time())
        self.assertEqual(answer.status, 0)
        client, _, moment = answer.out.rstrip(b"\n").rpartition(b"_")
        self.assertEqual(client, b"alpha")
        self.assertTrue(before <= int(moment) <= after, moment)


def with_moments(rows):
    """Returns rows of bad words, and behind each that names no moment the same words with one."""
    for words, index in rows:
        yield words, index
        if not (words and words[0].startswith("@")):
            yield ["@250000000000", *words], index + 1


def run_exactly(one, words, **how):
    """Runs with these words one by one, also where there is one or none."""
    how.setdefault("payload", b"payload")
    return Exact(one.folder).run(*words, **how)


class Exact(desk.Desk):
    def words(self, words):
        return [self.program, self.folder, *words]


class Files(DeskTest):
    def test_the_first_backup_leaves_these_139_bytes_and_those_of_the_payload(self):
        self.assertEqual((len(HELLO[0]), HELLO[0][16], len(HELLO[2])), (139, 0xA5, 5))
        self.check_quiet(self.desk.run("@1000 bpbackup client=alpha", payload=b"hello"), 0, b"alpha_1000\n")
        self.assertEqual(self.desk.files(), HELLO)
        # (the tests' own speller agrees, and their reader)
        first = vault.Image(b"alpha", 1000, b"hello", 1000)
        self.assertEqual(vault.files(first), HELLO)
        self.assertEqual(vault.read(HELLO), [first])

    def test_records_follow_one_another(self):
        images = [
            vault.Image(b"alpha", 1000, b"hello", 1000),
            vault.Image(b"alpha", 1001, b"", 1000),
            vault.Image(b"b", 7, bytes(range(256)), 7),
            vault.Image(b"alpha", 1002, b"\xa5" * 40, 3),
        ]
        for image in images:
            answer = self.desk.run(f"@{image.completed} bpbackup client={image.client.decode()}", payload=image.payload)
            self.check_quiet(answer, 0, image.id + b"\n")
        self.assertEqual(self.desk.files(), vault.files(*images))

    def test_a_refusal_writes_nothing(self):
        self.desk.run("@250000000000 bpbackup client=a", payload=b"x")
        before = self.desk.files()
        self.assertEqual(self.desk.run("@1 bpbackup client=a", payload=b"y").status, 15)
        self.assertEqual(self.desk.files(), before)

    def test_no_other_file_is_made(self):
        self.desk.run("@1 bpbackup client=a", payload=b"x")
        self.assertEqual(sorted(os.listdir(self.desk.folder)), ["0.nbv", "2.nbv"])

    def test_folders_above_the_vault_are_made_too(self):
        deep = desk.Desk(Path(self.top, "a", "b", "c"))
        self.check_quiet(deep.run("@1 bpbackup client=a", payload=b"x"), 0, b"a_1\n")
        self.assertEqual(vault.read(deep.files())[0].payload, b"x")

    def test_a_relative_folder_is_below_where_the_program_runs(self):
        self.check_quiet(desk.Desk("here").run("@1 bpbackup client=a", payload=b"x", cwd=self.top), 0, b"a_1\n")
        self.assertTrue(Path(self.top, "here", "0.nbv").exists())


class Payloads(DeskTest):
    def test_lengths(self):
        """Lengths about the sizes in which a program may read or write."""
        some = random.Random(1).randbytes(1_048_577)
        images = []
        for time, length in enumerate([0, 1, 4_095, 4_096, 4_097, 65_535, 65_536, 65_537, 131_072, 131_073, 1_048_576, 1_048_577], 1):
            with self.subTest(length=length):
                images.append(vault.Image(b"a", time, some[:length], time))
                self.check_quiet(self.desk.run(f"@{time} bpbackup client=a", payload=some[:length]), 0, b"a_%d\n" % time)
        self.assertTrue(self.desk.files() == vault.files(*images), "the vault differs")

    def test_an_input_that_comes_in_pieces(self):
        process = self.desk.start("@1 bpbackup client=a")
        for piece in (b"he", b"l", b"lo", b"x" * 70_000, b"y"):
            process.stdin.write(piece)
            process.stdin.flush()
        self.check_quiet(self.ending(process), 0, b"a_1\n")
        self.assertEqual(vault.read(self.desk.files())[0].payload, b"hello" + b"x" * 70_000 + b"y")

    def test_an_input_from_a_file(self):
        path = Path(self.top, "input")
        path.write_bytes(b"hello" * 20_000)
        with path.open("rb") as source:
            self.check_quiet(self.desk.run("@1 bpbackup client=a", payload=None, stdin=source), 0, b"a_1\n")
        self.assertEqual(vault.read(self.desk.files())[0].payload, b"hello" * 20_000)

    def test_the_longest_payload(self):
        most = random.Random(2).randbytes(desk.LONGEST)
        self.check_quiet(self.desk.run("@1 bpbackup client=a", payload=most), 0, b"a_1\n")
        self.assertTrue(self.desk.files() == vault.files(vault.Image(b"a", 1, most, 1)), "the vault differs")
        # It is there at the next opening.
        self.check_quiet(self.desk.run("@1 bpbackup client=a", payload=b"x"), 0, b"a_2\n")

    def test_one_byte_more_is_refused_and_nothing_is_stored(self):
        self.desk.put(HELLO)
        answer = self.desk.run("@1 bpbackup client=a", payload=bytes(desk.LONGEST + 1))
        self.check_quiet(answer, 15, b"too many bytes: 67108865 of 67108864\n")
        self.assertEqual(self.desk.files(), HELLO)

    def test_far_more_is_refused_with_the_same_count(self):
        with open("/dev/zero", "rb") as source:
            cut = subprocess.Popen(["head", "-c", "200000000"], stdin=source, stdout=subprocess.PIPE, stderr=subprocess.DEVNULL)
            answer = self.desk.run("@1 bpbackup client=a", payload=None, stdin=cut.stdout)
            cut.stdout.close()
            cut.wait()
        self.check_quiet(answer, 15, b"too many bytes: 67108865 of 67108864\n")
        self.assertEqual(vault.read(self.desk.files()), [])
