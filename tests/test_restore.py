"""`bprestore id= [copy=]`: a copy's bytes come back as they were backed up, or the refusal tells what is not there."""

import os
import random
from pathlib import Path

import desk
import vault
from desk import DeskTest
from test_backup import HELLO, run_exactly, with_moments

BAD_WORDS = [
    (["bprestore"], 1),
    (["bprestore", "id="], 1),
    (["bprestore", "id=b"], 1),
    (["bprestore", "id=_5"], 1),
    (["bprestore", "id=b_"], 1),
    (["bprestore", "id=b_0"], 1),
    (["bprestore", "id=b_01"], 1),
    (["bprestore", "id=b_250000000001"], 1),
    (["bprestore", "id=b/c_5"], 1),
    (["bprestore", "id=" + "n" * 65 + "_5"], 1),
    (["bprestore", "copy=1"], 2),
    (["bprestore", "id=b_5", "copy=0"], 2),
    (["bprestore", "id=b_5", "copy=01"], 2),
    (["bprestore", "id=b_5", "copy=33"], 2),
    (["bprestore", "id=b_5", "copy=x"], 2),
    (["bprestore", "id=b_5", "id=b_5"], 2),
    (["bprestore", "id=b_5", "copy=1", "copy=1"], 3),
    (["bprestore", "id=b_5", "frob=1"], 2),
    (["@5", "bprestore"], 2),
    (["@5", "bprestore", "id=b"], 2),
]


class Restore(DeskTest):
    def test_rows(self):
        self.desk.put(HELLO)
        rows = [
            ("bprestore id=alpha_1000", 0, b"hello"),
            ("@1001 bprestore id=alpha_1000", 0, b"hello"),
            ("bprestore id=alpha_1000 copy=1", 0, b"hello"),
            ("bprestore copy=1 id=alpha_1000", 0, b"hello"),
            ("bprestore id=b_9", 4, b"b_9 unknown\n"),
            ("bprestore id=alpha_1001", 4, b"alpha_1001 unknown\n"),
            ("bprestore id=alph_1000", 4, b"alph_1000 unknown\n"),
            ("bprestore id=b_9 copy=2", 4, b"b_9 unknown\n"),
            ("bprestore id=alpha_1000 copy=2", 4, b"alpha_1000/2 unknown\n"),
            ("bprestore id=alpha_1000 copy=32", 4, b"alpha_1000/32 unknown\n"),
        ]
        for words, status, out in rows:
            with self.subTest(words=words):
                self.check_quiet(self.desk.run(words), status, out)
                self.assertEqual(self.desk.files(), HELLO)

    def test_bad_words(self):
        for words, index in with_moments(BAD_WORDS):
            with self.subTest(words=words):
                one = self.new_desk()
                self.check(run_exactly(one, words), 2, b"bad request at %d\n" % index)
                self.assertFalse(one.exists())

    def test_each_image_comes_back(self):
        draw = random.Random(4)
        payloads = {}
        for turn in range(1, 30):
            payload = draw.randbytes(draw.choice([0, 1, 100, 65_536, 131_072, 300_001]))
            client = draw.choice(["a", "a_1", "b"])
            answer = self.desk.run(f"@{turn} bpbackup client={client}", payload=payload)
            self.assertEqual(answer.status, 0)
            payloads[answer.out.rstrip(b"\n").decode()] = payload
        for id, payload in payloads.items():
            self.check_quiet(self.desk.run(f"bprestore id={id}"), 0, payload)

    def test_the_longest(self):
        most = random.Random(5).randbytes(desk.LONGEST)
        self.desk.put(vault.files(vault.Image(b"a", 1, most, 1)))
        answer = self.desk.run("bprestore id=a_1")
        self.assertEqual(answer.status, 0)
        self.assertTrue(answer.out == most)

    def test_on_a_new_vault(self):
        self.check_quiet(self.desk.run("bprestore id=a_1"), 4, b"a_1 unknown\n")
        self.assertEqual(self.desk.bytes(), vault.EMPTY)

    def test_the_input_is_left_alone(self):
        self.desk.put(HELLO)
        path = Path(self.top, "input")
        path.write_bytes(b"left alone")
        with path.open("rb", buffering=0) as source:
            self.check_quiet(self.desk.run("bprestore id=alpha_1000", payload=None, stdin=source), 0, b"hello")
            self.assertEqual(source.tell(), 0, "input was read")
        folder = os.open(self.top, os.O_RDONLY)
        try:
            self.check_quiet(self.desk.run("bprestore id=alpha_1000", payload=None, stdin=folder), 0, b"hello")
        finally:
            os.close(folder)

    def test_an_output_that_takes_nothing(self):
        self.desk.put(HELLO)
        with open("/dev/full", "wb", buffering=0) as full:
            self.assertEqual(self.desk.run("bprestore id=alpha_1000", stdout=full).status, 20)
        self.assertEqual(self.desk.files(), HELLO)
