"""Policies of files: what of a stream an image takes, the tree of a chain at a moment, and streams that are none."""

import random
import time

import desk
import vault
from desk import LATEST, DeskTest
from killer import Killer
from rows import RowsTest, line_of, replies_of
from streams import File, image, made, read, stream, tree
from test_trace import OPENED_EMPTY, Step, Traced, joined, recorded, whole_replies

# A policy of files with a schedule of each kind, and a client.
SITE = [
    ("client add name=alpha", 0, ""),
    ("bppolicynew add policy=p type=files lifecycle=basic", 0, ""),
    ("bppolicynew client-add policy=p client=alpha", 0, ""),
    ("bppolicynew select policy=p path=/", 0, ""),
    ("bpplsched add policy=p schedule=f kind=full frequency=1 windows=none", 0, ""),
    ("bpplsched add policy=p schedule=d kind=diff frequency=1 windows=none", 0, ""),
    ("bpplsched add policy=p schedule=c kind=cumul frequency=1 windows=none", 0, ""),
]
SITE_RECORDS = [vault.settings(words.encode()) for words, _, _ in SITE]
FULL, DIFF, CUMUL = 0, 1, 2
BACKUP = "bpbackup client=alpha policy=p"
RESTORE = "bprestore client=alpha policy=p"

A1, A2 = File(b"/a", 900, b"A1"), File(b"/a", 1500, b"A2")
B1 = File(b"/b", 900, b"B1")
C1, C2 = File(b"/c", 2500, b"C1"), File(b"/c", 3500, b"C2")
TREE = stream(A2, C2)

CHAIN = [
    *SITE,
    (f"@1000 {BACKUP} schedule=f", 0, "alpha_1000", stream(A1, B1)),
    (f"@2000 {BACKUP} schedule=d", 0, "alpha_2000", stream(A2, B1)),
    (f"@3000 {BACKUP} schedule=c", 0, "alpha_3000", stream(A2, B1, C1)),
    (f"@4000 {BACKUP} schedule=d", 0, "alpha_4000", stream(A2, C2)),
]
TREES = [
    (f"{RESTORE} before=4000", 0, TREE),
    (f"{RESTORE} before=3999", 0, stream(A2, B1, C1)),
    (f"{RESTORE} before=3000", 0, stream(A2, B1, C1)),
    (f"{RESTORE} before=2999", 0, stream(A2, B1)),
    (f"{RESTORE} before=1999", 0, stream(A1, B1)),
    (f"{RESTORE} before=1000", 0, stream(A1, B1)),
    (f"{RESTORE} before=999", 4, "p/alpha unknown"),
    (f"{RESTORE} before=0", 4, "p/alpha unknown"),
    (f"{RESTORE} before={LATEST}", 0, TREE),
    # Without a moment of its own it is the request's.
    (f"@2999 {RESTORE}", 0, stream(A2, B1)),
    (f"@999 {RESTORE}", 4, "p/alpha unknown"),
    (f"@999 {RESTORE} before=4000", 0, TREE),
    (RESTORE, 0, TREE),
    ("bprestore before=1999 policy=p client=alpha", 0, stream(A1, B1)),
]


def record(time, payload, kind, base, schedule):
    return vault.Image(b"alpha", time, payload, time, b"p", schedule, kind, base)


CHAIN_RECORDS = [
    record(1000, image(A1, B1), FULL, 0, b"f"),
    record(2000, image(A2, File(b"/b")), DIFF, 1000, b"d"),
    record(3000, image(A2, File(b"/b"), C1), CUMUL, 1000, b"c"),
    record(4000, image(File(b"/a"), C2), DIFF, 3000, b"d"),
]

ONE = b"NBC1\1\0\2/a" + bytes(8) + bytes(7)
LONG_PATH = b"/" + b"a" * 1023

# What is no stream, and the offset that is told.
BAD_STREAMS = {
    "nothing": (b"", 0),
    "half of the letters": (b"NB", 2),
    "another letter": (b"NBX", 0),
    "another letter, and more": (b"NBC2", 0),
    "other letters": (b"hello", 0),
    "small letters": (b"nbc1\0", 0),
    "the letters alone": (b"NBC1", 4),
    "an image": (image(A1), 0),
    "an image of nothing": (image(), 0),
    "a file that is named alone": (stream(A1)[:-1] + b"\2\0\2/b\0", len(stream(A1)) - 1),
    "a byte that begins no file": (b"NBC1\3", 4),
    "a byte that begins no file, behind one": (stream(A1)[:-1] + b"\xff", len(stream(A1)) - 1),
    "bytes behind the end": (stream() + b"\0", 5),
    "a file behind the end": (stream(A1) + stream(B1)[4:], len(stream(A1))),
    "an empty path": (b"NBC1\1\0\0" + bytes(16) + b"\0", 5),
    "an empty path and nothing more": (b"NBC1\1\0\0", 5),
    "half of an empty path's length": (b"NBC1\1\0", 6),
    "a path of 1,025 bytes": (stream(File(LONG_PATH + b"a", 1, b"")), 5),
    "a path of 65,535 bytes, of which few are there": (b"NBC1\1\xff\xff/a", 5),
    "a path that is cut": (b"NBC1\1\0\5/a", 9),
    "a bad path that is cut": (b"NBC1\1\0\5aa", 9),
    "a path without its slash": (stream(File(b"a", 1, b"")), 7),
    "a path with a zero byte": (stream(File(b"/a\0", 1, b"")), 7),
    "a path with a line feed": (stream(File(b"/a\nb", 1, b"")), 7),
    "a path twice": (stream(A1, A1), len(stream(A1)) + 2),
    "a path that doesn't rise": (stream(B1, A1), len(stream(B1)) + 2),
    "a path that another one begins": (stream(File(b"/a/b", 1, b""), File(b"/a", 1, b"")), len(stream(File(b"/a/b", 1, b""))) + 2),
    "a path that falls behind one that rose": (stream(A1, C1, B1), len(stream(A1, C1)) + 2),
    "a time that is cut": (b"NBC1\1\0\2/a" + bytes(7), 16),
    "a length that is cut": (ONE, 24),
    "a length of 2^63": (ONE[:17] + b"\x80" + bytes(7) + b"A1\0", 28),
    "a length of 2^64 - 1": (ONE[:17] + b"\xff" * 8 + b"A1\0", 28),
    "a length that takes the end too": (ONE + b"\1\0", 26),
    "a content that ends where the next file is wanted": (ONE + b"\1A", 26),
    "an archive": (b"./" + bytes(98) + b"0000755\0", 0),
}

# Streams, and what a full image keeps of them.
GOOD_STREAMS = {
    "no files": [],
    "an empty file": [File(b"/a", 0, b"")],
    "the last time": [File(b"/a", 2**64 - 1, b"x")],
    "a path of 1,024 bytes": [File(LONG_PATH, 1, b"x")],
    "paths that no folder has": [File(b"/", 1, b"x"), File(b"/../a", 1, b"y"), File(b"//", 1, b"z"), File(b"/a/", 1, b"")],
    "bytes of all kinds": [File(b"/" + bytes(it for it in range(1, 256) if it != 10), 1, bytes(range(256)))],
    "paths that rise by their bytes": [File(b"/a", 1, b""), File(b"/a.b", 1, b""), File(b"/a/b", 1, b""), File(b"/\xff", 1, b"")],
    "bytes that look like the end": [File(b"/a", 1, b"\0\0\0"), File(b"/b", 1, b"NBC1\0")],
}


class Rows(RowsTest):
    def test_the_tree_is_these_bytes(self):
        spelled = "4e424331 01 0002 2f61 00000000000005dc 0000000000000002 4132 01 0002 2f63 0000000000000dac 0000000000000002 4332 00"
        self.assertEqual((TREE.hex(), len(TREE)), (spelled.replace(" ", ""), 51))
        spelled = "4e424931 01 0002 2f61 00000000000005dc 0000000000000002 4132 02 0002 2f62 00"
        self.assertEqual((CHAIN_RECORDS[1].payload.hex(), len(CHAIN_RECORDS[1].payload)), (spelled.replace(" ", ""), 33))

    def test_a_chain_and_its_trees(self):
        self.assertEqual(self.run_rows([*CHAIN, *TREES]), [*SITE_RECORDS, *CHAIN_RECORDS])

    def test_each_image_of_a_chain_has_its_own_bytes(self):
        self.run_rows([*CHAIN, *((f"bprestore id=alpha_{it.time}", 0, it.payload) for it in CHAIN_RECORDS), ("bprestore id=alpha_4000 copy=1", 0, CHAIN_RECORDS[3].payload)])

    def test_trees_between_the_backups(self):
        """What came later changes no tree of an earlier moment."""
        rows, last = list(SITE), []
        for backup, tree_there in zip(CHAIN[len(SITE) :], (stream(A1, B1), stream(A2, B1), stream(A2, B1, C1), TREE)):
            last.append((f"{RESTORE} before={int(backup[0][1:5])}", 0, tree_there))
            rows += [backup, *last, (f"{RESTORE} before=999", 4, "p/alpha unknown")]
        self.run_rows(rows)

    def test_streams(self):
        self.run_rows(
            [
                *SITE,
                (f"@1000 {BACKUP}", 23, "bad stream at 0", b"NBC2"),
                (f"@1000 {BACKUP}", 23, "bad stream at 4", b"NBC1"),
                (f"@1000 {BACKUP}", 0, "alpha_1000", b"NBC1\0"),
                (RESTORE, 0, b"NBC1\0"),
            ]
        )

    def test_each_cut_of_a_stream_and_one_byte_more(self):
        texts = [TREE[:count] for count in range(len(TREE))] + [TREE + b"\0"]
        rows = [(f"@5000 {BACKUP} schedule=d", 23, f"bad stream at {min(len(text), len(TREE))}", text) for text in texts]
        self.refuses(rows)

    def test_bad_streams(self):
        self.refuses([(f"@5000 {BACKUP} schedule={schedule}", 23, f"bad stream at {offset}", text) for text, offset in BAD_STREAMS.values() for schedule in "fdc"])

    def refuses(self, rows):
        """Runs rows that are refused on a vault with a chain, as commands and as a session: nothing changes."""
        self.desk.put(vault.files(*SITE_RECORDS, *CHAIN_RECORDS))
        before = self.desk.files()
        self.run_alone(self.desk, rows)
        self.run_session(self.desk, rows)
        self.run_session(self.desk, [(f"{RESTORE} before=4000", 0, TREE)])
        self.assertTrue(self.desk.files() == before, "a refusal has written")

    def test_good_streams(self):
        for name, files in GOOD_STREAMS.items():
            with self.subTest(name):
                text = stream(*files)
                records = self.run_rows([*SITE, (f"@5 {BACKUP}", 0, "alpha_5", text), (f"@6 {BACKUP} schedule=d", 0, "alpha_6", text), (RESTORE, 0, text), (f"{RESTORE} before=5", 0, text)])
                self.assertEqual([it.payload for it in records[-2:]], [image(*files), image(*made(files, 5))])

    def test_a_file_is_taken_from_the_reference_on(self):
        """One whose time is the reference's is taken, and one of a second before is not."""
        files = [File(b"/%d" % time, time, b"new") for time in (0, 998, 999, 1000, 1001, 2**63)]
        first = [File(b"/0", 0, b"old"), File(b"/1000", 7, b"old"), File(b"/998", 998, b"old")]
        chosen = sorted(files)
        for schedule in "dc":
            records = self.run_rows(
                [
                    *SITE,
                    (f"@1000 {BACKUP} schedule=f", 0, "alpha_1000", stream(*first)),
                    (f"@1001 {BACKUP} schedule={schedule}", 0, "alpha_1001", stream(*chosen)),
                    # What was named and never taken is in no tree.
                    (RESTORE, 0, stream(*(it._replace(content=b"old") if it.time < 999 else it for it in chosen if it.time != 999))),
                ]
            )
            self.assertEqual(records[-1].payload, image(*(it if it.time >= 1000 else File(it.path) for it in chosen)))

    def test_a_content_that_changed_without_its_time(self):
        self.run_rows(
            [
                *SITE,
                (f"@1000 {BACKUP} schedule=f", 0, "alpha_1000", stream(A1, B1)),
                (f"@2000 {BACKUP} schedule=d", 0, "alpha_2000", stream(A1._replace(content=b"another"), B1)),
                (RESTORE, 0, stream(A1, B1)),
                (f"@3000 {BACKUP} schedule=f", 0, "alpha_3000", stream(A1._replace(content=b"another"), B1)),
                (RESTORE, 0, stream(A1._replace(content=b"another"), B1)),
            ]
        )

    def test_images_between_that_are_none_of_the_chain(self):
        """A cumulative one skips the differential ones before it, also where a file's older content came back with its older time."""
        self.run_rows(
            [
                *SITE,
                (f"@1000 {BACKUP} schedule=f", 0, "alpha_1000", stream(A1, B1)),
                (f"@2000 {BACKUP} schedule=d", 0, "alpha_2000", stream(A2, B1)),
                (f"@3000 {BACKUP} schedule=c", 0, "alpha_3000", stream(A1, B1, C1)),
                (RESTORE, 0, stream(A1, B1, C1)),
                # What the chain before has alone is in no tree of the next one.
                (f"@4000 {BACKUP} schedule=f", 0, "alpha_4000", stream(B1)),
                (f"@5000 {BACKUP} schedule=d", 0, "alpha_5000", stream(A2, B1)),
                (RESTORE, 0, stream(B1)),
                (f"{RESTORE} before=3999", 0, stream(A1, B1, C1)),
            ]
        )

    def test_a_file_that_went_and_came_back(self):
        """With its old time it isn't taken again: the chain has it."""
        self.run_rows(
            [
                *SITE,
                (f"@1000 {BACKUP} schedule=f", 0, "alpha_1000", stream(A1, B1)),
                (f"@2000 {BACKUP} schedule=d", 0, "alpha_2000", stream(A1)),
                (f"@3000 {BACKUP} schedule=d", 0, "alpha_3000", stream(A1, B1)),
                (f"{RESTORE} before=2999", 0, stream(A1)),
                (f"{RESTORE} before=3000", 0, stream(A1, B1)),
            ]
        )

    def test_references(self):
        """The base of each image: of a differential one the latest, of a cumulative one the latest without a base."""
        kinds = "dcdfcddfcd"
        bases = [0, 10, 20, 0, 40, 50, 60, 0, 80, 90]
        rows = [(f"@{10 * turn} {BACKUP} schedule={kind}", 0, f"alpha_{10 * turn}", stream(A1)) for turn, kind in enumerate(kinds, 1)]
        records = self.run_rows([*SITE, *rows])[len(SITE) :]
        self.assertEqual([(it.kind, it.base) for it in records], [("fdc".index(kind), base) for kind, base in zip(kinds, bases)])

    def test_a_reference_is_of_the_policy_and_the_client(self):
        others = [
            ("client add name=beta", 0, ""),
            ("bppolicynew client-add policy=p client=beta", 0, ""),
            ("bppolicynew add policy=q type=files lifecycle=basic", 0, ""),
            ("bppolicynew client-add policy=q client=alpha", 0, ""),
            ("bppolicynew select policy=q path=/", 0, ""),
            ("bpplsched add policy=q schedule=d kind=diff frequency=1 windows=none", 0, ""),
        ]
        records = self.run_rows(
            [
                *SITE,
                *others,
                (f"@10 {BACKUP} schedule=f", 0, "alpha_10", stream(A1)),
                ("@20 bpbackup client=beta policy=p schedule=d", 0, "beta_20", stream(B1)),
                ("@30 bpbackup client=alpha policy=q schedule=d", 0, "alpha_30", stream(C1)),
                ("@40 bpbackup client=alpha", 0, "alpha_40", stream()),
                (f"@50 {BACKUP} schedule=d", 0, "alpha_50", stream(A2)),
                ("@60 bpbackup client=alpha policy=q schedule=d", 0, "alpha_60", stream(C2)),
                (RESTORE, 0, stream(A2)),
                ("bprestore client=beta policy=p", 0, stream(B1)),
                ("bprestore client=alpha policy=q", 0, stream(C2)),
                ("bprestore client=beta policy=q", 4, "q/beta unknown"),
                (f"{RESTORE} before=49", 0, stream(A1)),
                ("bprestore client=alpha policy=q before=59", 0, stream(C1)),
                ("bprestore client=alpha policy=adhoc", 0, stream()),
            ]
        )
        self.assertEqual([it.base for it in records[len(SITE) + len(others) :]], [0, 0, 0, 0, 10, 30])

    def test_a_moment_that_goes_back(self):
        """An image's time is above its client's last one, and so above its base."""
        self.run_rows(
            [
                *SITE,
                (f"@1000 {BACKUP} schedule=f", 0, "alpha_1000", stream(A1)),
                (f"@5 {BACKUP} schedule=d", 0, "alpha_1001", stream(A2)),
                (f"@5 {RESTORE}", 4, "p/alpha unknown"),
                (f"{RESTORE} before=1000", 0, stream(A1)),
                (f"{RESTORE} before=1001", 0, stream(A2)),
            ]
        )

    def test_selections(self):
        """A path is selected by one that equals it, or that it begins with and goes on from with a slash."""
        paths = [b"/a", b"/a/b", b"/a b", b"/ab", b"/b", b"/b/c/d", b"/c", b"/c/", b"/%41"]
        files = [File(path, 1, path) for path in sorted(paths)]
        rows = {
            "": [],
            "/": paths,
            "/a": [b"/a", b"/a/b"],
            "/a/b": [b"/a/b"],
            "/a%20b": [b"/a b"],
            "/b/c": [b"/b/c/d"],
            "/c/": [b"/c/"],
            "/%2541": [b"/%41"],
            "//": [],
            "/b /a/b": [b"/a/b", b"/b", b"/b/c/d"],
            "/a /": paths,
        }
        for selections, chosen in rows.items():
            with self.subTest(selections=selections):
                select = [(f"bppolicynew select policy=p path={it}", 0, "") for it in selections.split()]
                wanted = [it for it in files if it.path in chosen]
                records = self.run_rows([*SITE[:3], *SITE[4:], *select, (f"@5 {BACKUP}", 0, "alpha_5", stream(*files)), (RESTORE, 0, stream(*wanted))])
                self.assertEqual(records[-1].payload, image(*wanted))

    def test_a_selection_that_changes(self):
        self.run_rows(
            [
                *SITE,
                (f"@1000 {BACKUP} schedule=f", 0, "alpha_1000", stream(A1, B1)),
                ("bppolicynew unselect policy=p path=/", 0, ""),
                ("bppolicynew select policy=p path=/b", 0, ""),
                (f"@2000 {BACKUP} schedule=d", 0, "alpha_2000", stream(A1, B1)),
                (RESTORE, 0, stream(B1)),
                (f"{RESTORE} before=1999", 0, stream(A1, B1)),
            ]
        )

    def test_schedules_of_each_kind(self):
        """A policy of files may have each, and is changed to each; without a full one there is no default."""
        self.run_rows(
            [
                *SITE[:4],
                ("bpplsched add policy=p schedule=d kind=diff frequency=1 windows=none", 0, ""),
                ("bpplsched add policy=p schedule=c kind=cumul calendar=mL windows=always", 0, ""),
                (f"@5 {BACKUP}", 4, "p/- unknown", stream()),
                (f"@5 {BACKUP} schedule=d start=scheduled", 8, "d window closed", stream()),
                (f"@5 {BACKUP} schedule=c start=scheduled", 0, "alpha_5", stream(A1)),
                ("bpplsched change policy=p schedule=d kind=full frequency=1 windows=none", 0, ""),
                (f"@6 {BACKUP}", 0, "alpha_6", stream(A1)),
                ("bpplsched change policy=p schedule=d kind=cumul frequency=1 windows=none", 0, ""),
                (f"@7 {BACKUP} schedule=d", 0, "alpha_7", stream(A1)),
                (f"@8 {BACKUP}", 4, "p/- unknown", stream(A1)),
            ]
        )

    def test_a_site_file(self):
        file = b"""[[client]]
name = "alpha"
[[policy]]
policy = "p"
type = "files"
lifecycle = "basic"
clients = ["alpha"]
selections = ["/"]
[[policy.schedule]]
schedule = "f"
kind = "full"
frequency = 1
windows = "none"
[[policy.schedule]]
schedule = "d"
kind = "diff"
frequency = 1
windows = "none"
[[policy.schedule]]
schedule = "c"
kind = "cumul"
frequency = 1
windows = "none"
"""
        records = self.run_rows([("bpload", 0, "7", file), *CHAIN[len(SITE) :], *TREES])
        self.assertEqual(records, [vault.settings(*(words.encode() for words, _, _ in SITE)), *CHAIN_RECORDS])


class Refusals(RowsTest):
    # Each row that is done takes away the refusal above it, and the next one comes to light.
    def test_a_bad_stream_among_the_refusals_of_a_backup(self):
        bad, large = b"NBC2", stream(File(b"/a", 1, bytes(100)))
        backup = "@1 bpbackup client=a policy=q"
        self.run_rows(
            [
                ("unit change name=disk0 capacity=100 high=80 low=40", 0, ""),
                ("@1 bpbackup client=z", 0, "z_1", bytes(80)),
                (backup, 4, "q unknown", bad),
                ("bppolicynew add policy=q type=files lifecycle=basic", 0, ""),
                (backup, 4, "a unknown", bad),
                ("client add name=a", 0, ""),
                (backup, 4, "q/a unknown", bad),
                ("bppolicynew client-add policy=q client=a", 0, ""),
                (backup, 4, "q/- unknown", bad),
                ("bpplsched add policy=q schedule=s kind=full frequency=1 windows=none", 0, ""),
                ("bppolicynew select policy=q path=/", 0, ""),
                ("bppolicynew change policy=q active=no", 0, ""),
                (backup, 7, "q inactive", bad),
                ("bppolicynew change policy=q active=yes", 0, ""),
                (f"{backup} start=scheduled", 8, "s window closed", bad),
                (backup, 9, "disk0 above high: 80 of 100", bad),
                ("unit change name=disk0 high=81 low=40", 0, ""),
                (f"@{LATEST} bpbackup client=a", 0, f"a_{LATEST}", b""),
                (backup, 15, f"too many time: {LATEST} of {LATEST}", bad),
                ("bppolicynew client-add policy=q client=z", 0, ""),
                ("@1 bpbackup client=z policy=q", 23, "bad stream at 0", bad),
                ("@1 bpbackup client=z policy=q", 23, f"bad stream at {len(large)}", large + b"\0"),
                ("@1 bpbackup client=z policy=q", 10, f"disk0 full: 80 + {len(large)} of 100", large),
                ("@1 bpbackup client=z policy=q", 0, "z_2", stream()),
            ]
        )

    def test_what_an_image_takes_is_what_must_fit(self):
        """The image's bytes count, and not those of the payload."""
        large = File(b"/a", 1, bytes(1000))
        whole, named = len(image(large)), len(image(File(b"/a")))
        self.run_rows(
            [
                *SITE,
                ("unit change name=disk0 capacity=1100 high=100 low=1", 0, ""),
                (f"@10 {BACKUP} schedule=f", 0, "alpha_10", stream(large)),
                (f"@20 {BACKUP} schedule=f", 10, f"disk0 full: {whole} + {whole} of 1100", stream(large)),
                (f"@20 {BACKUP} schedule=d", 0, "alpha_20", stream(large)),
                (f"@30 {BACKUP} schedule=d", 10, f"disk0 full: {whole + named} + {whole} of 1100", stream(large._replace(time=20))),
                (f"@30 {BACKUP} schedule=c", 0, "alpha_30", stream(large)),
                ("bppolicynew unselect policy=p path=/", 0, ""),
                (f"@40 {BACKUP} schedule=f", 0, "alpha_40", stream(large)),
                (f"{RESTORE} before=30", 0, stream(large)),
                (RESTORE, 0, stream()),
            ]
        )

    def test_a_payload_that_is_too_long(self):
        self.desk.put(vault.files(*SITE_RECORDS))
        before = self.desk.files()
        for payload in (bytes(desk.LONGEST + 1), stream(File(b"/a", 1, bytes(desk.LONGEST)))):
            self.check_quiet(self.desk.run(f"@5 {BACKUP}", payload=payload), 15, b"too many bytes: 67108865 of 67108864\n")
        self.assertEqual(self.desk.files(), before)

    def test_the_longest_stream(self):
        bare = len(stream(File(b"/a", 900, b"")))
        most = stream(File(b"/a", 900, random.Random(8).randbytes(desk.LONGEST - bare)))
        self.desk.put(vault.files(*SITE_RECORDS))
        self.assertEqual(len(most), desk.LONGEST)
        self.check_quiet(self.desk.run(f"@5 {BACKUP}", payload=most), 0, b"alpha_5\n")
        answer = self.desk.run(RESTORE)
        self.assertTrue((answer.status, answer.err) == (0, b"") and answer.out == most, "the tree differs")

    # Each row that is done takes away the refusal above it.
    def test_the_refusals_of_a_restore_in_their_order(self):
        self.run_rows(
            [
                (RESTORE, 4, "p unknown"),
                *SITE[1:2],
                (RESTORE, 4, "alpha unknown"),
                ("bprestore client=alpha policy=adhoc", 4, "alpha unknown"),
                *SITE[:1],
                (RESTORE, 4, "p/alpha unknown"),
                ("bprestore client=alpha policy=adhoc", 4, "adhoc/alpha unknown"),
                *SITE[2:],
                (RESTORE, 4, "p/alpha unknown"),
                (f"@10 {BACKUP}", 0, "alpha_10", stream(A1)),
                (f"@9 {RESTORE}", 4, "p/alpha unknown"),
                (RESTORE, 0, stream(A1)),
                ("bprestore client=beta policy=p", 4, "beta unknown"),
                ("bprestore client=alpha policy=q", 4, "q unknown"),
                ("bprestore client=beta policy=q", 4, "q unknown"),
                # What was backed up restores, whatever became of the policy.
                ("bppolicynew client-remove policy=p client=alpha", 0, ""),
                ("bppolicynew change policy=p active=no", 0, ""),
                ("bpplsched remove policy=p schedule=f", 0, ""),
                ("bppolicynew unselect policy=p path=/", 0, ""),
                (RESTORE, 0, stream(A1)),
            ]
        )

    def test_a_chain_goes_by_bases_and_not_by_kinds(self):
        full, diff, _, last = CHAIN_RECORDS
        # A full image with a base is none that a backup makes; what it says of its base holds all the same.
        self.restores_of([full, last._replace(kind=FULL, base=1000, payload=image(File(b"/b"), C2))], [(RESTORE, 0, stream(B1, C2))])
        self.restores_of([full, diff._replace(base=0)], [(RESTORE, 0, stream(A2))])

    def restores_of(self, images, rows):
        """Runs restores, as commands and as a session, on a vault that has such images."""
        self.desk = self.new_desk()
        self.desk.put(vault.files(*SITE_RECORDS, *images))
        before = self.desk.files()
        self.run_alone(self.desk, rows)
        self.run_session(self.desk, rows)
        self.assertTrue(self.desk.files() == before, "a restore has written")

    def test_a_chain_that_lacks_an_image(self):
        full, diff, cumul, last = CHAIN_RECORDS
        self.restores_of(
            [diff, cumul, last],
            [
                (f"{RESTORE} before=4000", 16, "chain lacks alpha_1000"),
                (f"{RESTORE} before=2000", 16, "chain lacks alpha_1000"),
                (f"{RESTORE} before=1999", 4, "p/alpha unknown"),
                ("bprestore id=alpha_4000", 0, last.payload),
            ],
        )
        # The first that is met on the way down is told.
        self.restores_of([full, diff, last], [(f"{RESTORE} before=4000", 16, "chain lacks alpha_3000"), (f"{RESTORE} before=3999", 0, stream(A2, B1))])
        lone = last._replace(base=3999)
        self.restores_of([full, lone], [(f"{RESTORE} before=4000", 16, "chain lacks alpha_3999")])

    def test_backups_behind_a_chain_that_lacks_an_image(self):
        """A differential one builds on the latest whose chain is whole, and a cumulative one on the latest without a base."""
        full, diff, _, last = CHAIN_RECORDS
        for images, bases in (([full, diff, last], [2000, 1000]), ([diff, last], [0, 0]), ([diff, last, full._replace(time=4500)], [4500, 4500])):
            for schedule, base in zip("dc", bases):
                with self.subTest(images=[it.time for it in images], schedule=schedule):
                    self.desk = self.new_desk()
                    self.desk.put(vault.files(*SITE_RECORDS, *images))
                    self.check_quiet(self.desk.run(f"@5000 {BACKUP} schedule={schedule}", payload=TREE), 0, b"alpha_5000\n")
                    self.assertEqual(vault.read(self.desk.files())[-1].base, base)

    def test_images_that_are_none_of_files(self):
        """They are read in the order of the chain, and the first that is none is told."""
        full, diff, _, _ = CHAIN_RECORDS
        bad = b"NBI1\2\0\2/b\2\0\2/a\0"
        self.restores_of([full._replace(payload=b"hello")], [(RESTORE, 23, "bad stream at 0"), ("bprestore id=alpha_1000", 0, b"hello")])
        self.restores_of([full._replace(payload=stream(A1))], [(RESTORE, 23, "bad stream at 0")])
        self.restores_of([full, diff._replace(payload=bad)], [(RESTORE, 23, "bad stream at 12"), (f"{RESTORE} before=1000", 0, stream(A1, B1))])
        self.restores_of([full._replace(payload=image(A1)[:9]), diff._replace(payload=bad)], [(RESTORE, 23, "bad stream at 9")])
        self.restores_of([full._replace(payload=image(A1) + b"\0"), diff], [(RESTORE, 23, f"bad stream at {len(image(A1))}")])

    def test_a_chain_that_is_too_long(self):
        """The sum of its images' bytes counts, the last one's among them, and it comes before what they hold."""
        full, diff, _, _ = CHAIN_RECORDS
        half = desk.LONGEST // 2
        images = [full._replace(payload=bytes(half)), diff._replace(payload=bytes(half + 1))]
        rows = [(RESTORE, 15, f"too many bytes: {desk.LONGEST + 1} of {desk.LONGEST}"), (f"{RESTORE} before=1999", 23, "bad stream at 0")]
        self.restores_of(images, rows)
        self.restores_of(images[1:], [(RESTORE, 16, "chain lacks alpha_1000")])

    def test_a_chain_of_the_most_bytes(self):
        full, diff, _, _ = CHAIN_RECORDS
        some = File(b"/b", 900, random.Random(9).randbytes(desk.LONGEST // 2))
        first, second = image(A1, some), image(A2, File(b"/b"))
        rest = desk.LONGEST - len(first) - len(second)
        more = File(b"/a", 1500, bytes(rest + 2))
        images = [full._replace(payload=first), diff._replace(payload=image(more, File(b"/b")))]
        self.assertEqual(sum(len(it.payload) for it in images), desk.LONGEST)
        self.desk.put(vault.files(*SITE_RECORDS, *images))
        answer = self.desk.run(RESTORE)
        self.assertTrue(answer.status == 0 and answer.out == stream(more, some), "the tree differs")


class RawPolicies(RowsTest):
    SITE = [
        ("client add name=alpha", 0, ""),
        ("bppolicynew add policy=p type=raw lifecycle=basic", 0, ""),
        ("bppolicynew client-add policy=p client=alpha", 0, ""),
        ("bpplsched add policy=p schedule=f kind=full frequency=1 windows=none", 0, ""),
    ]

    def test_the_latest_image_s_bytes(self):
        self.run_rows(
            [
                *self.SITE,
                (f"@10 {BACKUP}", 0, "alpha_10", b"first"),
                (f"@20 {BACKUP}", 0, "alpha_20", b"NBC2"),
                ("@30 bpbackup client=alpha", 0, "alpha_30", b"adhoc"),
                (f"@40 {BACKUP}", 0, "alpha_40", b""),
                (f"{RESTORE} before=9", 4, "p/alpha unknown"),
                (f"{RESTORE} before=19", 0, b"first"),
                (f"{RESTORE} before=39", 0, b"NBC2"),
                (f"@20 {RESTORE}", 0, b"NBC2"),
                (RESTORE, 0, b""),
                ("bprestore client=alpha policy=adhoc", 0, b"adhoc"),
                ("bprestore client=alpha policy=adhoc before=29", 4, "adhoc/alpha unknown"),
                ("bprestore client=beta policy=adhoc", 4, "beta unknown"),
            ]
        )

    def test_the_length_of_the_latest_image_alone(self):
        self.desk.put(vault.files(vault.Image(b"a", 1, b"x", 1), vault.Image(b"a", 2, bytes(desk.LONGEST + 1), 2), vault.Image(b"a", 3, b"y", 3)))
        restore = "bprestore client=a policy=adhoc"
        rows = [(f"{restore} before=1", 0, b"x"), (f"{restore} before=2", 15, f"too many bytes: {desk.LONGEST + 1} of {desk.LONGEST}"), (restore, 0, b"y")]
        self.run_alone(self.desk, rows)
        self.run_session(self.desk, rows)

    def test_a_policy_that_is_made_anew_as_another_type(self):
        """Images hold the policy's name, so it can't be removed while it has some."""
        self.run_rows([*self.SITE, (f"@10 {BACKUP}", 0, "alpha_10", b"x"), ("bppolicynew remove policy=p", 5, "p in use by alpha_10"), (RESTORE, 0, b"x")])


class Drawn(RowsTest):
    """Folders that change at random, and backups of every kind: each tree is that of its chain, by the plain program in streams.py."""

    TURNS = 60

    def test_trees_at_each_moment(self):
        draw = random.Random(17)
        names = [b"/" + b"".join(draw.choices([b"a", b"b", b"/", b".", b"\xff"], k=draw.randrange(1, 5))) for _ in range(30)]
        rows, there, images, trees = list(SITE), {}, [], []
        for turn in range(1, self.TURNS + 1):
            now = 100 * turn
            for name in draw.sample(names, 6):
                if draw.random() < 0.3:
                    there.pop(name, None)
                else:
                    # (some with an older time, or the very moment of a backup)
                    there[name] = File(name, draw.choice([now - 150, now - 100, now - 99, now - 1, now, now + 500]) if now > 150 else now, draw.randbytes(draw.randrange(0, 20)))
            kind = draw.choice([FULL, DIFF, DIFF, DIFF, CUMUL])
            whole = [at for at, it in enumerate(images) if kind == DIFF or it[1] is None]
            base = whole[-1] if kind != FULL and whole else None
            files = sorted(there.values())
            images.append((now, base, made(files, None if base is None else images[base][0])))
            chain, at = [], len(images) - 1
            while at is not None:
                chain.insert(0, images[at][2])
                at = images[at][1]
            trees.append((now, stream(*tree(chain))))
            rows.append((f"@{now} {BACKUP} schedule={'fdc'[kind]}", 0, f"alpha_{now}", stream(*files)))
        rows += [(f"{RESTORE} before={moment + more}", 0, text) for moment, text in trees for more in (0, 99)]
        self.run_session(self.desk, rows)
        found = vault.read(self.desk.files())[len(SITE) :]
        self.assertEqual([it.payload for it in found], [image(*files) for _, _, files in images])
        self.run_alone(self.desk, rows[-6:])

    def test_the_reader_reads_what_the_speller_spells(self):
        for files in GOOD_STREAMS.values():
            self.assertEqual(read(stream(*files)), files)


class Kills(DeskTest):
    ROUNDS = 60
    TURNS = 30
    FILES = 12

    def requests(self, draw, first):
        """Returns the images of a session's backups from this one on, its input, and the tree behind each. The first image of a vault is full."""
        images, trees, text = [], [], b""
        for turn in range(first, first + self.TURNS):
            kind = self.kind_of(turn)
            base = {FULL: 0, DIFF: turn - 1, CUMUL: max((it for it in range(1, turn) if self.kind_of(it) == FULL), default=0)}[kind]
            files = self.files_at(turn)
            payload = stream(*files)
            text += line_of(f"@{turn} {BACKUP} schedule={'fdc'[kind]}", payload)
            images.append(record(turn, image(*made(files, base or None)), kind, base, b"fdc"[kind : kind + 1]))
            trees.append(payload)
        return images, trees, text

    @staticmethod
    def kind_of(turn):
        return FULL if turn % 7 == 1 else CUMUL if turn % 7 == 4 else DIFF

    def files_at(self, turn):
        """Returns the files that the backup of a turn finds: in each turn one of them has changed."""
        files = []
        for number in range(self.FILES):
            # (the last turn up to this one in which it changed)
            changed = turn - (turn - number) % self.FILES
            if changed > 0:
                size = [0, 7, 300, 5_000, 60_000][changed % 5]
                files.append(File(b"/%02d" % number, changed, random.Random(changed).randbytes(size)))
        return files

    def test_kills_at_any_moment(self):
        """Each backup of whose reply a byte was seen is there, whole and with its base, and at most one more; and each restores."""
        draw = random.Random(21)
        self.desk.put(vault.files(*SITE_RECORDS))
        began = time.monotonic()
        images, trees, text = self.requests(draw, 1)
        self.check_quiet(self.desk.run("session", payload=text), 0, b"".join(desk.frame(0, it.id + b"\n") for it in images))
        self.assertEqual(vault.read(self.desk.files())[len(SITE) :], images)
        killer, known = Killer(13, time.monotonic() - began), []
        for turn in range(self.ROUNDS):
            if turn % 6 == 0:
                self.desk, known, trees = self.new_desk(), [], []
                self.desk.put(vault.files(*SITE_RECORDS))
            new, more, text = self.requests(draw, len(known) + 1)
            process = self.desk.start("session")
            out = killer.talk(process, text)
            replies = [desk.frame(0, it.id + b"\n") for it in new]
            self.assertTrue(b"".join(replies).startswith(out), "a reply differs")
            seen = next(count for count in range(len(new) + 1) if len(b"".join(replies[:count])) >= len(out))
            found = vault.read(self.desk.files())[len(SITE) :]
            wanted = [*known, *new]
            self.assertTrue(found == wanted[: len(found)], "the vault has images that were not sent, or not whole, or not in order")
            self.assertIn(len(found) - len(known), (seen, seen + 1), "an acknowledged image is gone, or more than one was under way")
            trees = [*trees, *more][: len(found)]
            known = found
            answer = self.desk.run("session", payload=b"".join(line_of(f"{RESTORE} before={it.time}") for it in known))
            self.assertEqual(answer.status, 0)
            self.assertTrue(replies_of(answer.out) == [(0, tree_there) for tree_there in trees], "a tree differs")
        self.assertGreater(killer.killed, self.ROUNDS // 4, "too few sessions were killed before their end to tell anything")


class Order(Traced):
    def test_each_record_is_synced_before_its_gate_and_its_gate_before_the_reply(self):
        self.desk.put(vault.files(*SITE_RECORDS))
        rows = CHAIN[len(SITE) :]
        answer, lines = self.trace("session", payload=b"".join(line_of(words, payload) for words, _, _, payload in rows) + line_of(f"{RESTORE} before=4000"))
        self.assertEqual(answer.status, 0)
        wanted, gates = [], vault.gates(*SITE_RECORDS, *CHAIN_RECORDS)[len(SITE) :]
        for entry, gate, end in zip(CHAIN_RECORDS, gates, gates[1:]):
            wanted += [*recorded(gate, end), Step("reply", 0, len(desk.frame(0, entry.id + b"\n")))]
        # (the restore has nothing before its reply)
        wanted = whole_replies([*wanted, Step("reply", 0, len(desk.frame(0, TREE)))])
        steps = whole_replies([step for step in joined(self.steps(lines)) if step.file == vault.JOURNAL and step.what != "sync folder"])
        self.assertEqual(steps[-len(wanted) :], wanted)

    def test_a_bad_stream_writes_nothing(self):
        self.desk.put(vault.files(*SITE_RECORDS))
        answer, lines = self.trace(f"@5 {BACKUP}", payload=TREE[:-1])
        self.check(answer, 23, b"bad stream at 50\n")
        self.assertEqual(joined(self.steps(lines))[:-1], OPENED_EMPTY)
