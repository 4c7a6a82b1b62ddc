"""The records of the requests that set up a site: as they are written, and as an opening takes them in."""

import vault
from desk import DeskTest
from rows import RowsTest

# Words as they were given, and the line that stands for them.
LINES = [
    ("unit add name=t capacity=100", "unit add name=t capacity=100"),
    ("unit add low=40 high=80 slots=9 fragment=1 segment=16 capacity=100 name=u", "unit add name=u capacity=100 segment=16 fragment=1 slots=9 high=80 low=40"),
    ("unit add capacity=1 name=v high=81", "unit add name=v capacity=1 high=81"),
    ("@5 unit add low=97 name=w capacity=1", "unit add name=w capacity=1 low=97"),
    ("unit change low=2 slots=8 capacity=7 high=3 name=t", "unit change name=t capacity=7 slots=8 high=3 low=2"),
    ("unit change slots=5 name=t", "unit change name=t slots=5"),
    ("unit change name=t", "unit change name=t"),
    ("client add name=a", "client add name=a"),
    ("@250000000000 client add name=b", "client add name=b"),
    ("bppolicynew add lifecycle=basic policy=p type=raw", "bppolicynew add policy=p type=raw lifecycle=basic"),
    ("bppolicynew add type=files lifecycle=basic policy=q", "bppolicynew add policy=q type=files lifecycle=basic"),
    ("bpplsched add kind=diff windows=none schedule=d frequency=1 policy=q", "bpplsched add policy=q schedule=d kind=diff frequency=1 windows=none"),
    ("bpplsched change kind=cumul windows=none schedule=d calendar=mL policy=q", "bpplsched change policy=q schedule=d kind=cumul calendar=mL windows=none"),
    ("bppolicynew change lifecycle=basic active=no policy=p", "bppolicynew change policy=p active=no lifecycle=basic"),
    ("bppolicynew change active=yes policy=p", "bppolicynew change policy=p active=yes"),
    ("bppolicynew change policy=p", "bppolicynew change policy=p"),
    ("bppolicynew client-add client=a policy=p", "bppolicynew client-add policy=p client=a"),
    ("bppolicynew client-add policy=adhoc client=a", "bppolicynew client-add policy=adhoc client=a"),
    ("bppolicynew client-remove client=a policy=p", "bppolicynew client-remove policy=p client=a"),
    ("bppolicynew select path=/a%20b=%C3%A9%25 policy=p", "bppolicynew select policy=p path=/a%20b=%C3%A9%25"),
    ("bppolicynew unselect path=/a%20b=%C3%A9%25 policy=p", "bppolicynew unselect policy=p path=/a%20b=%C3%A9%25"),
    (
        "bpplsched add windows=thu/22:00:00/14400+sun/00:00:00/1 frequency=10000 kind=full schedule=s policy=p",
        "bpplsched add policy=p schedule=s kind=full frequency=10000 windows=thu/22:00:00/14400+sun/00:00:00/1",
    ),
    (
        "bpplsched change windows=none calendar=w0mon+wLfri+w1sun+m1+m31+mL+d1970-01-01+x9891-12-31 kind=full schedule=s policy=p",
        "bpplsched change policy=p schedule=s kind=full calendar=w0mon+wLfri+w1sun+m1+m31+mL+d1970-01-01+x9891-12-31 windows=none",
    ),
    ("bpplsched change windows=always frequency=1 kind=full schedule=s policy=p", "bpplsched change policy=p schedule=s kind=full frequency=1 windows=always"),
    ("bpplsched remove schedule=s policy=p", "bpplsched remove policy=p schedule=s"),
    ("bpzone set rule=CET-1CEST,M3.5.0,M10.5.0/3", "bpzone set rule=CET-1CEST,M3.5.0,M10.5.0/3"),
    ("bpzone set offset=-00:30", "bpzone set offset=-00:30"),
    ("bpzone set offset=+00:00", "bpzone set offset=+00:00"),
    ("bppolicynew remove policy=p", "bppolicynew remove policy=p"),
    ("client remove name=b", "client remove name=b"),
]

FIRST = vault.Image(b"alpha", 1000, b"hello", 1000)
SITE = [
    vault.settings(b"client add name=a", b"client add name=b", b"bppolicynew add policy=p type=raw lifecycle=basic"),
    vault.settings(b"bppolicynew client-add policy=p client=a"),
    vault.settings(b"bpplsched add policy=p schedule=s kind=full frequency=1 windows=none"),
]
UNDER_P = vault.Image(b"a", 5, b"x", 5, b"p", b"s")

# Lines that don't fit behind the records of SITE.
UNFIT = [
    "",
    "client",
    "client add",
    "frobnicate",
    # Not as a request is written.
    "client add name=c ",
    " client add name=c",
    "client  add name=c",
    "client add name=c\n",
    "@5 client add name=c",
    "client add name=c payload=0",
    "unit add capacity=1 name=t",
    "bppolicynew client-add client=b policy=p",
    "bpplsched add policy=p schedule=t kind=full windows=none frequency=1",
    "unit add name=t capacity=01",
    "bppolicynew select policy=p path=/%2F",
    # Bad words.
    "client add name=a/b",
    "client add name=c frob=1",
    "bppolicynew add policy=q type=tape lifecycle=basic",
    "bpzone set rule=UTC0 offset=+00:00",
    "bpzone set offset=-00:00",
    "unit add name=t capacity=1 high=80",
    # Requests that are refused.
    "client add name=a",
    "client add name=alpha",
    "client remove name=nobody",
    "client remove name=a",
    "client remove name=alpha",
    "unit add name=disk0 capacity=1",
    "unit change name=t capacity=1",
    "bppolicynew add policy=p type=raw lifecycle=basic",
    "bppolicynew add policy=q type=raw lifecycle=gold",
    "bppolicynew change policy=q active=no",
    "bppolicynew remove policy=adhoc",
    "bppolicynew remove policy=p",
    "bppolicynew client-add policy=p client=a",
    "bppolicynew client-remove policy=p client=b",
    "bppolicynew unselect policy=p path=/",
    "bpplsched add policy=p schedule=s kind=full frequency=1 windows=none",
    "bpplsched add policy=p schedule=t kind=diff frequency=1 windows=none",
    "bpplsched change policy=p schedule=t kind=full frequency=1 windows=none",
    "bpplsched remove policy=p schedule=t",
    # Requests that change no setting.
    "bpload",
    "bpbackup client=c",
    "bprestore id=alpha_1000",
    "bprestore client=alpha policy=adhoc",
    "session",
]


class Written(RowsTest):
    def test_one_record_with_one_line_for_each_change(self):
        records = self.run_rows([(words, 0, "") for words, _ in LINES])
        self.assertEqual(records, [vault.settings(line.encode()) for _, line in LINES])

    def test_the_first_change_leaves_these_bytes(self):
        self.check_quiet(self.desk.run("@5 client add name=alpha"), 0, b"")
        self.assertEqual(
            self.desk.bytes(),
            b"NBDESK VAULT 001"  # the header
            b"\xa5"  # the gate of the first record, open
            b"\x00\x00\x00\x1c"  # its body has 28 bytes
            b"\x01"  # settings
            b"\x00\x00\x00\x01"  # one line
            b"\x00\x15client add name=alpha"
            b"\x00",  # the gate of the next record, closed
        )

    def test_changes_and_images_in_turn(self):
        records = self.run_rows(
            [
                ("client add name=a", 0, ""),
                ("@5 bpbackup client=a", 0, "a_5", b"x"),
                ("bpload", 0, "2", b'[[client]]\nname = "b"\n[[client]]\nname = "c"\n'),
                ("bprestore id=a_5", 0, b"x"),
                ("@6 bpbackup client=b", 0, "b_6", b""),
                ("client remove name=c", 0, ""),
            ]
        )
        self.assertEqual(
            records,
            [
                vault.settings(b"client add name=a"),
                vault.Image(b"a", 5, b"x", 5),
                vault.settings(b"client add name=b", b"client add name=c"),
                vault.Image(b"b", 6, b"", 6),
                vault.settings(b"client remove name=c"),
            ],
        )

    def test_a_refusal_writes_nothing(self):
        self.desk.put(vault.files(*SITE, UNDER_P))
        before = self.desk.files()
        for words, status in (
            ("client add name=a", 3),
            ("client remove name=c", 4),
            ("client remove name=a", 5),
            ("bpplsched change policy=p schedule=s kind=diff frequency=1 windows=none", 6),
            ("@5 bpbackup client=a policy=p start=scheduled", 8),
        ):
            with self.subTest(words=words):
                self.assertEqual(self.desk.run(words).status, status)
                self.assertEqual(self.desk.files(), before)

    def test_the_reader_reads_what_the_speller_spells(self):
        entries = [*SITE, UNDER_P, vault.settings(), FIRST]
        self.assertEqual(vault.read(vault.files(*entries)), entries)


class Opening(DeskTest):
    def opens(self, entries, status=4, out=b"none unknown\n", words="client remove name=none"):
        one = self.new_desk()
        one.put(vault.files(*entries))
        self.check_quiet(one.run(words), status, out)
        self.assertEqual(one.files(), vault.files(*entries))

    def test_settings_that_fit(self):
        self.opens([])
        self.opens([vault.settings()])
        self.opens([vault.settings(b"client add name=a")], 3, b"a exists\n", "client add name=a")
        self.opens([vault.settings(b"client add name=a", b"client remove name=a")], 4, b"a unknown\n", "client remove name=a")
        self.opens([vault.settings(b"client add name=a"), FIRST, vault.settings(b"client remove name=a")], 4, b"a unknown\n", "client remove name=a")
        self.opens([*SITE, UNDER_P, FIRST], 5, b"p in use by a_5\n", "bppolicynew remove policy=p")
        self.opens([*SITE, UNDER_P], 5, b"a in use by policy p\n", "client remove name=a")
        self.opens([vault.settings(*(line.encode() for _, line in LINES))], 3, b"t exists\n", "unit add name=t capacity=1")

    def test_lines_that_do_not_fit(self):
        """The offset is that of the gate of their record, whatever stands beside them in it."""
        before = [*SITE, UNDER_P, FIRST]
        gate = vault.gates(*before)[-1]
        self.opens(before)
        for line in UNFIT:
            for lines in ([line], ["client add name=z", line], [line, "client add name=z"]):
                with self.subTest(lines=lines):
                    bad = vault.settings(*(it.encode() for it in lines))
                    self.opens([*before, bad], 22, b"not a vault at %d\n" % gate)
                    self.opens([*before, bad, vault.settings(b"client add name=y")], 22, b"not a vault at %d\n" % gate)

    def test_lines_that_are_no_text(self):
        for line in (b"client add name=\xff", b"\0", b"client add name=a\0"):
            with self.subTest(line=line):
                self.opens([vault.settings(line)], 22, b"not a vault at 16\n")

    def test_a_record_whose_policy_or_client_is_gone(self):
        rows = {
            "no such policy yet": [UNDER_P],
            "a policy that was removed": [*SITE, vault.settings(b"bppolicynew remove policy=p"), UNDER_P],
            "a client that is not there": [*SITE, UNDER_P._replace(client=b"nobody")],
        }
        for name, entries in rows.items():
            with self.subTest(name):
                self.opens(entries, 22, b"not a vault at %d\n" % vault.gates(*entries)[-2])

    def test_more_than_there_may_be(self):
        units = [b"unit add name=u%d capacity=1" % number for number in range(16)]
        self.opens([vault.settings(*units[:15])])
        self.opens([vault.settings(*units)], 22, b"not a vault at 16\n")
        clients = [b"client add name=c%d" % number for number in range(1_024)]
        full = vault.settings(*clients)
        self.opens([full, vault.Image(b"c0", 5, b"x", 5)])
        self.opens([full, FIRST], 22, b"not a vault at %d\n" % vault.gates(full)[-1])
        self.opens([FIRST, full], 22, b"not a vault at %d\n" % vault.gates(FIRST)[-1])
