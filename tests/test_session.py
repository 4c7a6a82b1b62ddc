"""`session`: many requests in one run, each with a framed reply, however the input comes in."""

import os
import random
import threading
import time
from pathlib import Path

import desk
import vault
from desk import Desk, DeskTest, frame
from test_backup import HELLO
from test_processes import IN_USE, waits_for

BAD = [frame(2, b"bad request at %d\n" % index) for index in range(5)]
TOO_LONG = b"@5 bpbackup client=b payload=67108865"

# The input, the replies and the status, each on a new vault.
ROWS = {
    "nothing": (b"", [], 0),
    "a backup and a restore": (
        b"@1000 bpbackup client=alpha payload=5\nhello@1001 bprestore id=alpha_1000\n",
        [frame(0, b"alpha_1000\n"), frame(0, b"hello")],
        0,
    ),
    "the payload of a bad request is dropped": (
        b"frobnicate payload=3\nabc@5 bpbackup client=b\n",
        [BAD[0], frame(0, b"b_5\n")],
        0,
    ),
    "the last line may lack its line feed": (b"frobnicate payload=3\nabc@5 bpbackup client=b", [BAD[0], frame(0, b"b_5\n")], 0),
    "an input that ends inside a payload": (b"@5 bpbackup client=b payload=4\nab", [BAD[3]], 2),
    "an input that ends before a payload": (b"@5 bpbackup client=b payload=4\n", [BAD[3]], 2),
    "a last line that names a payload": (b"@5 bpbackup client=b payload=4", [BAD[3]], 2),
    "a last line that names no payload": (b"@5 bpbackup client=b payload=0", [frame(0, b"b_5\n")], 0),
    "whole requests are answered first": (
        b"@5 bpbackup client=b\n@6 bprestore id=b_5\nfrobnicate payload=9\nabc",
        [frame(0, b"b_5\n"), frame(0, b""), BAD[1]],
        2,
    ),
    "an empty line": (b"\n@5 bpbackup client=b\n\n", [BAD[0], frame(0, b"b_5\n"), BAD[0]], 0),
    "a carriage return alone": (b"\r\n@5 bpbackup client=b\r\n", [BAD[0], frame(0, b"b_5\n")], 0),
    "two carriage returns": (b"@5 bpbackup client=b\r\r\n@6 bpbackup client=b\n", [BAD[2], frame(0, b"b_6\n")], 0),
    "a carriage return at the end of the input": (b"@5 bpbackup client=b\r", [BAD[2]], 0),
    "a carriage return before a payload": (b"@5 bpbackup client=b payload=2\r\n\r\n@6 bprestore id=b_5\r\n", [frame(0, b"b_5\n"), frame(0, b"\r\n")], 0),
    "a payload of 01": (b"@5 bpbackup client=b payload=01\n@6 bpbackup client=b\n", [BAD[3]], 2),
    "a payload of x": (b"frobnicate payload=x\n@6 bpbackup client=b\n", [BAD[1]], 2),
    "a payload of nothing": (b"@5 bpbackup payload=\n@6 bpbackup client=b\n", [BAD[2]], 2),
    "a payload that is too long to name": (TOO_LONG + b"\n", [BAD[3]], 2),
    "a payload word that is not the last": (b"@5 bpbackup payload=1 client=b\n@6 bpbackup client=b\n", [BAD[2], frame(0, b"b_6\n")], 0),
    "a payload where none is taken": (
        b"@5 bpbackup client=b\n@6 bprestore id=b_5 payload=3\nabc@7 bprestore id=b_5 payload=0\n",
        [frame(0, b"b_5\n"), BAD[3], frame(0, b"")],
        0,
    ),
    "two spaces": (b"@5  bpbackup client=b\n", [BAD[1]], 0),
    "a space at the end": (b"@5 bpbackup client=b \n", [BAD[3]], 0),
    "a payload where none is taken, at the end": (b"bprestore id=b_9 payload=1\nx", [BAD[2]], 0),
    "a payload of x on a line without its line feed": (b"bpbackup client=b payload=x", [BAD[2]], 2),
    "a restore with a carriage return": (b"bprestore id=b_9\r\n", [frame(4, b"b_9 unknown\n")], 0),
    "a last restore without its line feed": (b"@7 bpbackup client=b\nbprestore id=b_7 copy=2", [frame(0, b"b_7\n"), frame(4, b"b_7/2 unknown\n")], 0),
    "a line feed alone": (b"\n", [BAD[0]], 0),
    "a moment that is none": (b"@7 bpbackup client=b\n\r\n@x bpbackup client=b\n", [frame(0, b"b_7\n"), BAD[0], BAD[0]], 0),
    "a session behind a backup": (b"@7 bpbackup client=b\nsession\n", [frame(0, b"b_7\n"), BAD[0]], 0),
    "a payload alone": (b"payload=0\npayload=1 a\n", [BAD[0], BAD[0]], 0),
    "a payload of a bad request behind a carriage return": (b"a b payload=3\r\nxyzc\n", [BAD[0], BAD[0]], 0),
    "a payload of line feeds": (b"a payload=2\n\n\nb\n", [BAD[0], BAD[0]], 0),
    "a payload of line feeds that is cut": (b"a payload=3\n\n\n", [BAD[1]], 2),
    "a payload that is cut, of a bad request": (b"a b payload=1", [BAD[2]], 2),
    "a payload of nothing, alone": (b"payload=", [BAD[0]], 2),
    "the longest payload that a line may name, cut": (b"a payload=67108864\nx", [BAD[1]], 2),
    "a last line of 8,192 bytes": (b"x" * 8_192, [BAD[0]], 0),
    "a tab": (b"@5 bpbackup\tclient=b\n", [BAD[1]], 0),
    "session in a session": (b"session\n@5 session\n", [BAD[0], BAD[1]], 0),
    "a line of 8,192 bytes": (b"x" * 8_192 + b"\n@5 bpbackup client=b\n", [BAD[0], frame(0, b"b_5\n")], 0),
    "a line of 8,192 bytes, the last a carriage return": (b"x" * 8_191 + b"\r\n@5 bpbackup client=b\n", [BAD[0], frame(0, b"b_5\n")], 0),
    "a line of 8,193 bytes": (b"x" * 8_193 + b"\n@5 bpbackup client=b\n", [BAD[0]], 2),
    "a line of 8,193 bytes, the last a carriage return": (b"x" * 8_192 + b"\r\n@5 bpbackup client=b\n", [BAD[0]], 2),
    "a last line of 8,193 bytes": (b"@5 bpbackup client=b\n" + b"x" * 8_193, [frame(0, b"b_5\n"), BAD[0]], 2),
    "ids of one client rise": (
        b"@5 bpbackup client=b payload=1\nx@5 bpbackup client=b payload=1\ny@3 bpbackup client=b\n@5 bpbackup client=c\n@6 bprestore id=b_6\n",
        [frame(0, b"b_5\n"), frame(0, b"b_6\n"), frame(0, b"b_7\n"), frame(0, b"c_5\n"), frame(0, b"y")],
        0,
    ),
    "refusals go on": (
        b"bprestore id=b_9\n@250000000000 bpbackup client=b\n@7 bpbackup client=b\nbprestore id=b_250000000000 copy=2\n@7 bpbackup client=c\n",
        [
            frame(4, b"b_9 unknown\n"),
            frame(0, b"b_250000000000\n"),
            frame(15, b"too many time: 250000000000 of 250000000000\n"),
            frame(4, b"b_250000000000/2 unknown\n"),
            frame(0, b"c_7\n"),
        ],
        0,
    ),
    "requests of the site": (
        b"client add name=a\nclient add name=a\nclient remove name=b\r\n@5 bpbackup client=a start=scheduled payload=1\nx@6 client remove name=a\n",
        [frame(0, b""), frame(3, b"a exists\n"), frame(4, b"b unknown\n"), frame(8, b"manual window closed\n"), frame(0, b"")],
        0,
    ),
    "a site file": (
        b'bpload payload=22\n[[client]]\nname = "a"\nclient add name=a\n@5 bpload\n',
        [frame(0, b"1\n"), frame(3, b"a exists\n"), frame(0, b"0\n")],
        0,
    ),
    "a payload that is no site file is dropped": (
        b"bpload payload=12\nclient add a\n@5 bpload payload=1\n=bpload payload=0 x=1\n@5 bpbackup client=b\n",
        [BAD[1], BAD[0], BAD[1], BAD[1], frame(0, b"b_5\n")],
        0,
    ),
    "an input that ends inside a site file": (b'bpload payload=23\n[[client]]\nname = "a"\n', [BAD[1]], 2),
    "a payload that looks like requests": (
        b"@5 bpbackup client=b payload=26\n@6 bpbackup client=b\n\xa5\x00\xff\n\n@6 bprestore id=b_5\n",
        [frame(0, b"b_5\n"), frame(0, b"@6 bpbackup client=b\n\xa5\x00\xff\n\n")],
        0,
    ),
}


class Rows(DeskTest):
    def compare(self, answer, replies, status):
        self.check_quiet(answer, status, b"".join(replies))

    def test_rows_in_one_piece(self):
        for name, (text, replies, status) in ROWS.items():
            with self.subTest(name):
                self.compare(self.new_desk().run("session", payload=text), replies, status)

    def test_rows_in_small_pieces(self):
        """The input comes byte by byte, and in pieces of some bytes."""
        for name, (text, replies, status) in ROWS.items():
            if len(text) > 500:
                continue
            for size in (1, 2, 7):
                with self.subTest(name, size=size):
                    process = self.new_desk().start("session")
                    for at in range(0, len(text), size):
                        try:
                            os.write(process.stdin.fileno(), text[at : at + size])
                        except BrokenPipeError:
                            # (it ended at a fault of framing, before the rest came)
                            break
                        time.sleep(0.0005)
                    self.compare(self.ending(process), replies, status)

    def test_a_payload_in_many_pieces(self):
        payload = random.Random(9).randbytes(200_000)
        text = b"@5 bpbackup client=b payload=200000\n" + payload + b"@6 bprestore id=b_5\n"
        for size in (999, 65_536):
            with self.subTest(size=size):
                process = self.new_desk().start("session")
                for at in range(0, len(text), size):
                    process.stdin.write(text[at : at + size])
                    process.stdin.flush()
                self.compare(self.ending(process), [frame(0, b"b_5\n"), frame(0, payload)], 0)

    def test_each_reply_comes_before_the_next_request(self):
        process = self.desk.start("session")
        for turn in range(1, 20):
            process.stdin.write(b"@%d bpbackup client=b payload=3\nabc" % turn)
            process.stdin.flush()
            reply = frame(0, b"b_%d\n" % turn)
            self.assertEqual(process.stdout.read(len(reply)), reply)
        self.compare(self.ending(process), [], 0)

    def test_no_image_of_a_cut_payload(self):
        self.desk.run("session", payload=b"@5 bpbackup client=b payload=4\nab")
        self.assertEqual(self.desk.bytes(), vault.EMPTY)

    def test_words_beside_session(self):
        for words, index in (("session x=1", 1), ("session session", 1), ("@5 session", 1), ("session payload=0", 1)):
            with self.subTest(words=words):
                one = self.new_desk()
                self.check(one.run(words, payload=b"@5 bpbackup client=b\n"), 2, b"bad request at %d\n" % index)
                self.assertFalse(one.exists())

    def test_the_longest_payload(self):
        most = random.Random(6).randbytes(desk.LONGEST)
        text = b"@1 bpbackup client=b payload=67108864\n" + most + b"@2 bprestore id=b_1\n"
        answer = self.desk.run("session", payload=text)
        self.assertTrue((answer.status, answer.out) == (0, frame(0, b"b_1\n") + frame(0, most)))


class Endings(DeskTest):
    """Faults in a session: one framed reply, and the session ends with its number."""

    TEXT = b"@5 bpbackup client=b payload=1\nx@6 bpbackup client=b payload=1\ny"

    def test_an_opening_that_is_refused(self):
        self.desk.put(bytes(18))
        self.check_quiet(self.desk.run("session", payload=self.TEXT), 22, frame(22, b"not a vault at 0\n"))
        self.desk.put(HELLO[0][:50])
        self.check_quiet(self.desk.run("session", payload=b""), 22, frame(22, b"not a vault at 16\n"))

    def test_a_folder_that_cannot_be_made(self):
        Path(self.top, "file").write_bytes(b"")
        self.check_told(Desk(Path(self.top, "file", "vault")).run("session", payload=self.TEXT), 18, frame(18, b"disk fault\n"))

    def test_a_vault_in_use(self):
        held = self.desk.start("session")
        self.assertTrue(waits_for(lambda: self.desk.file().exists() and len(self.desk.bytes()) == len(vault.EMPTY)))
        time.sleep(0.1)
        self.check_told(self.desk.run("session", payload=self.TEXT), 18, frame(18, b"disk fault\n"), *IN_USE)
        self.check_told(self.desk.run("@1 bpbackup client=b", payload=b"x"), 18, b"disk fault\n", *IN_USE)
        held.stdin.write(self.TEXT)
        self.check_quiet(self.ending(held), 0, frame(0, b"b_5\n") + frame(0, b"b_6\n"))

    def test_an_input_that_is_a_folder(self):
        source = os.open(self.top, os.O_RDONLY)
        try:
            self.check(self.desk.run("session", payload=None, stdin=source), 19, frame(19, b"read fault\n"))
        finally:
            os.close(source)

    def test_an_output_that_takes_nothing(self):
        with open("/dev/full", "wb", buffering=0) as full:
            self.assertEqual(self.desk.run("session", payload=self.TEXT, stdout=full).status, 20)
        # The first request was carried out, and no other.
        self.assertEqual(vault.read(self.desk.files()), [vault.Image(b"b", 5, b"x", 5)])

    def test_an_output_whose_reader_leaves(self):
        taken, given = os.pipe()
        process = self.desk.start("session", stdout=given)
        os.close(given)
        process.stdin.write(b"@5 bpbackup client=b payload=1\nx")
        process.stdin.flush()
        reply = frame(0, b"b_5\n")
        with open(taken, "rb") as reader:  # A reply may come in more than one piece.
            self.assertEqual(reader.read(len(reply)), reply)
        answer = process.communicate(b"@6 bpbackup client=b\n@7 bpbackup client=b\n", timeout=desk.PATIENCE)
        unsent = b"bpdesk: the reply could not be written: Broken pipe; the request may have been done\n"
        self.assertEqual((process.returncode, answer[1]), (20, process.made + unsent))
        self.assertEqual([image.time for image in vault.read(self.desk.files())], [5, 6])


class Many(DeskTest):
    def test_ten_thousand_backups_and_a_restore_of_each(self):
        draw = random.Random(7)
        count = 10_000
        # (a thousand that differ, each of which takes a slot of the pool and a sync more)
        payloads = draw.choices([draw.randbytes(draw.randrange(40)) for _ in range(1_000)], k=count)
        text = b"".join(b"@%d bpbackup client=c%d payload=%d\n%s" % (turn + 1, turn % 10, len(it), it) for turn, it in enumerate(payloads))
        answer = self.desk.run("session", payload=text)
        self.assertEqual(answer.status, 0)
        self.assertTrue(answer.out == b"".join(frame(0, b"c%d_%d\n" % (turn % 10, turn + 1)) for turn in range(count)))
        text = b"".join(b"bprestore id=c%d_%d\n" % (turn % 10, turn + 1) for turn in range(count))
        answer = self.desk.run("session", payload=text)
        self.assertEqual(answer.status, 0)
        self.assertTrue(answer.out == b"".join(frame(0, it) for it in payloads))

    def test_a_reader_that_is_slow(self):
        """Replies of some megabytes are taken piece by piece while the input is written."""
        payload = random.Random(8).randbytes(1_000_000)
        process = self.desk.start("session")
        text = b"@1 bpbackup client=b payload=1000000\n" + payload + b"bprestore id=b_1\n" * 20

        def write():
            process.stdin.write(text)
            process.stdin.close()

        writer = threading.Thread(target=write)
        writer.start()
        got = b""
        while piece := os.read(process.stdout.fileno(), 50_000):
            got += piece
            time.sleep(0.0001)
        writer.join()
        self.assertEqual(process.wait(desk.PATIENCE), 0)
        process.stdout.close()
        process.stderr.close()
        self.assertTrue(got == frame(0, b"b_1\n") + frame(0, payload) * 20)
