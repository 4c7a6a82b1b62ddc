"""What an opening makes of a file 0 that is new, left by earlier runs, cut, or damaged."""

import vault
from desk import DeskTest
from test_backup import HELLO

FIRST = vault.Image(b"alpha", 1000, b"hello", 1000)
SECOND = vault.Image(b"alpha", 1001, b"world!", 1000)
THIRD = vault.Image(b"beta", 5, b"", 5)
BOTH = vault.files(FIRST, SECOND)
GATE, END = vault.gates(FIRST, SECOND)[1:]
HELLO_BODY = HELLO[0][21:-1]


def changed(files, at, byte):
    """Returns the files of a vault in whose journal a byte is another."""
    return with_journal(files, files[0][:at] + bytes([byte]) + files[0][at + 1 :])


def with_journal(files, journal):
    return {**files, 0: journal}


class OpeningTest(DeskTest):
    def opens(self, files, status, out, words="@1 bpbackup client=alpha"):
        """Opens this vault by a backup and compares the answer, and that a refusal leaves the files as they were."""
        one = self.new_desk()
        one.put(files)
        before = one.files()
        self.check_quiet(one.run(words, payload=b"x"), status, out)
        if status:
            self.assertTrue(one.files() == before, "a refused opening wrote to a file")
        return one

    def is_refused(self, files, offset):
        self.opens(files, 22, b"not a vault at %d\n" % offset)


class Opening(OpeningTest):
    def is_new(self, journal):
        one = self.opens(journal, 0, b"alpha_1\n")
        self.assertEqual(one.files(), vault.files(vault.Image(b"alpha", 1, b"x", 1)))

    def test_up_to_17_bytes_are_a_new_vault(self):
        for journal in (b"", bytes(1), bytes(16), bytes(17), vault.HEADER, vault.EMPTY, b"\xa5" * 17, vault.HEADER[:9], vault.HEADER + b"\xa5"):
            with self.subTest(journal=journal):
                self.is_new(journal)

    def test_more_bytes_that_do_not_begin_with_the_header(self):
        rows = [(bytes(18), 0), (bytes(1000), 0), (b"NBDESK VAULT 002" + bytes(2), 15), (b"NBDESK vault 001" + bytes(2), 7)]
        rows += [(changed(HELLO, at, HELLO[0][at] ^ 0x20), at) for at in range(16)]
        for files, offset in rows:
            with self.subTest(offset=offset):
                self.is_refused(files, offset)

    def test_a_header_and_a_gate_that_is_not_open(self):
        for gate in (0x00, 0x01, 0xA4, 0x5A, 0xFF):
            with self.subTest(gate=gate):
                self.opens(vault.HEADER + bytes([gate]) + b"rest", 0, b"alpha_1\n")

    def test_one_record_cut_short(self):
        for length in range(18, len(HELLO[0])):
            with self.subTest(length=length):
                self.is_refused(with_journal(HELLO, HELLO[0][:length]), 16)

    def test_a_second_record_cut_short(self):
        self.assertEqual((BOTH[0][GATE], END + 1), (vault.OPEN, len(BOTH[0])))
        for length in range(GATE + 1, END + 1):
            with self.subTest(length=length):
                self.is_refused(with_journal(BOTH, BOTH[0][:length]), GATE)

    def test_a_whole_record_goes_on(self):
        self.opens(HELLO, 0, b"alpha_1001\n")
        self.opens(HELLO, 0, b"beta_1\n", "@1 bpbackup client=beta")
        self.opens(BOTH, 0, b"alpha_1002\n")
        self.opens(BOTH, 0, b"alpha_3000\n", "@3000 bpbackup client=alpha")

    def test_bytes_behind_a_closed_gate_are_no_record(self):
        for rest in (b"\x00", b"rest", BOTH[0][GATE + 1 :], bytes(500), b"\xa5" * 50):
            with self.subTest(rest=rest[:8]):
                self.opens(with_journal(HELLO, HELLO[0] + rest), 0, b"alpha_1001\n")
                self.opens(with_journal(BOTH, HELLO[0] + rest), 0, b"alpha_1001\n")

    def test_an_image_behind_a_gate_that_is_not_open_is_none(self):
        for gate in (0x00, 0x01, 0xA4, 0xFF):
            with self.subTest(gate=gate):
                self.opens(changed(HELLO, 16, gate), 0, b"alpha_1000\n", "@1000 bpbackup client=alpha")
                self.opens(changed(BOTH, GATE, gate), 0, b"alpha_1001\n", "@1000 bpbackup client=alpha")

    def test_a_new_record_takes_the_place_behind_the_closed_gate(self):
        left = b"left by a stop, and longer than the next record" * 5
        one = self.opens(with_journal(HELLO, HELLO[0] + left), 0, b"alpha_1001\n")
        self.assertEqual(vault.read(one.files()), [FIRST, vault.Image(b"alpha", 1001, b"x", 1)])

    def test_a_record_outside_the_grammar(self):
        rows = {
            "kind 9": changed(HELLO, 21, 9),
            "kind 0": changed(HELLO, 21, 0),
            "a settings record": changed(HELLO, 21, 1),
            "a copy": changed(HELLO, 21, 3),
            "a whole image": changed(HELLO, 21, 7),
            "a longer client": changed(HELLO, 23, 6),
            "a slash in the client": changed(HELLO, 24, ord("/")),
            "backup kind 3": changed(HELLO, 52, 3),
            "two new segments": changed(HELLO, 89, 2),
            "no new segment": changed(HELLO, 89, 0),
            "2^24 and one new segments": changed(HELLO, 86, 1),
            "two pieces": changed(HELLO, 133, 2),
            "no piece": changed(HELLO, 133, 0),
            "2^24 and one pieces": changed(HELLO, 130, 1),
            "a longer body": changed(HELLO, 20, 118),
            "a shorter body": changed(HELLO, 20, 116),
            "a body of no bytes": vault.HEADER + b"\xa5\0\0\0\0\0",
            "a length past the file": vault.HEADER + b"\xa5\xff\xff\xff\xff" + bytes(80),
        }
        for name, files in rows.items():
            with self.subTest(name):
                self.is_refused(files, 16)

    def test_a_record_of_settings_outside_the_grammar(self):
        none, some = vault.settings_body(vault.settings()), vault.settings_body(vault.settings(b"client add name=a"))
        for name, spelled in {
            "a byte behind the lines": none + b"x",
            "a byte behind a line": some + b"x",
            "fewer lines than their number": some[: -len(b"client add name=a") - 2],
            "a line cut short": some[:-1],
            "no number of lines": none[:4],
        }.items():
            with self.subTest(name):
                self.is_refused(vault.journal(spelled), 16)
                self.is_refused(with_journal(HELLO, vault.journal(HELLO_BODY, spelled)), GATE)

    def test_a_record_that_does_not_fit(self):
        rows = {
            "the same image twice": FIRST,
            "no such policy": SECOND._replace(policy=b"other"),
            "no such lifecycle": SECOND._replace(lifecycle=b"other"),
            "no such version": SECOND._replace(version=2),
            "version 0": SECOND._replace(version=0),
            "time 0": SECOND._replace(time=0),
            "a time that is too late": SECOND._replace(time=vault.LATEST + 1),
            "completed too late": SECOND._replace(completed=vault.LATEST + 1),
            "a base at its own time": SECOND._replace(base=1001),
        }
        for name, image in rows.items():
            with self.subTest(name):
                self.is_refused(vault.files(FIRST, image), GATE)

    def test_a_damaged_second_record_is_told_by_its_gate(self):
        self.is_refused(changed(BOTH, GATE + 5, 9), GATE)
        self.is_refused(vault.files(FIRST, SECOND, THIRD._replace(policy=b"x")), END)
        # The first that is bad is told, whatever comes behind it.
        bad = changed(vault.files(FIRST, SECOND, THIRD), GATE + 5, 9)
        self.is_refused(with_journal(bad, bad[0][:-3]), GATE)

    def test_a_time_below_an_earlier_one_of_the_client_fits(self):
        files = vault.files(vault.Image(b"a", 10, b"x", 10), vault.Image(b"a", 5, b"y", 5))
        self.opens(files, 0, b"a_11\n", "@3 bpbackup client=a")

    def test_an_opening_that_is_followed_by_a_refusal_writes_nothing(self):
        last = vault.files(vault.Image(b"alpha", vault.LATEST, b"x", 1))
        self.opens(last, 15, b"too many time: 250000000000 of 250000000000\n")

    def test_many_records(self):
        images = [vault.Image(b"c%d" % (k % 7), k, b"%d" % (k % 9) * (k % 5), k) for k in range(1, 2_001)]
        one = self.opens(vault.files(*images), 0, b"c0_1996\n", "@1 bpbackup client=c0")
        self.assertEqual(vault.read(one.files()), [*images, vault.Image(b"c0", 1996, b"x", 1)])
