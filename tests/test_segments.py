"""Images in segments: which pieces a backup writes, how many there may be, pieces that are damaged, records that don't fit their pool, and stops in the middle of a backup."""

import hashlib
import random
import time

import vault
from desk import DeskTest, frame
from killer import Killer
from rows import RowsTest, line_of, replies_of
from streams import stream
from test_backup import HELLO
from test_faults import with_files_of
from test_files import A1, B1, CHAIN_RECORDS, RESTORE, SITE_RECORDS
from test_opening import GATE, OpeningTest

X, Y, Z = (letter * vault.SEGMENT for letter in (b"x", b"y", b"z"))
FIRST = vault.Image(b"alpha", 1000, b"hello", 1000)
LATER = vault.Image(b"beta", 5, b"world", 5)


def backup(client, moment, payload, id=None):
    """Returns the row of a backup that is done."""
    return f"@{moment} bpbackup client={client}", 0, id or f"{client}_{moment}", payload


def restore(id, payload):
    return f"bprestore id={id}", 0, payload


def refused(client, moment, payload, count, limit):
    """Returns the row of a backup for which there are too few slots."""
    return f"@{moment} bpbackup client={client}", 15, f"too many segments: {count} of {limit}", payload


def damaged(recorded, found):
    """Returns what is answered where a slot has other bytes than the piece that was recorded."""
    return f"damaged: {hashlib.sha256(recorded).hexdigest()} found {hashlib.sha256(found).hexdigest()}"


class Stored(RowsTest):
    def stores(self, *rows):
        """Runs rows on new vaults, and returns the bytes of the pool, which are those of the pieces in the order in which they came."""
        records = self.run_rows(rows)
        files = self.desks[-1].files()
        self.assertTrue(files == vault.files(*records), "the vault differs")
        return files.get(vault.POOL, b"")

    def new_desk(self):
        self.desks = [*getattr(self, "desks", []), super().new_desk()]
        return self.desks[-1]

    def test_equal_images_are_stored_once(self):
        again = [backup("a", 10, b"hello"), backup("b", 10, b"hello"), backup("a", 11, b"hello"), restore("a_10", b"hello"), restore("b_10", b"hello"), restore("a_11", b"hello")]
        self.assertEqual(self.stores(*again), b"hello")

    def test_equal_pieces_of_an_image_are_stored_once(self):
        self.assertTrue(self.stores(backup("a", 10, X + X + Y + X), restore("a_10", X + X + Y + X)) == X + Y)

    def test_pieces_that_images_share(self):
        payloads = [X + Y, Y + Z, Z + X + b"x", b"x", X]
        rows = [backup("a", moment, payload) for moment, payload in enumerate(payloads, 10)]
        rows += [restore(f"a_{moment}", payload) for moment, payload in enumerate(payloads, 10)]
        self.assertTrue(self.stores(*rows) == X + Y + Z + b"x")

    def test_pieces_of_which_one_begins_another(self):
        rows = [backup("a", moment, payload) for moment, payload in ((10, b"hello"), (11, b"hell"), (12, b"h"), (13, X[:-1]), (14, X), (15, X + b"h"))]
        self.assertEqual(len(self.stores(*rows)), 5 * vault.SEGMENT)

    def test_equal_bytes_at_another_place_are_another_piece(self):
        self.assertTrue(self.stores(backup("a", 10, X + Y), backup("a", 11, b"." + X + Y)) == X + Y + (b"." + X + Y)[: 2 * vault.SEGMENT] + b"y")

    def test_an_image_of_no_bytes(self):
        self.assertEqual(self.stores(backup("a", 10, b""), restore("a_10", b""), backup("a", 11, b"")), b"")
        self.assertFalse(self.desks[-1].file(vault.POOL).exists(), "a pool of nothing was made")
        self.assertEqual(self.stores(backup("a", 10, b""), backup("a", 11, b"x"), backup("a", 12, b""), restore("a_12", b""), restore("a_11", b"x")), b"x")

    def test_lengths_about_the_segment_size(self):
        some = random.Random(1).randbytes(3 * vault.SEGMENT + 1)
        lengths = [count * vault.SEGMENT + more for count in (1, 2, 3) for more in (-1, 0, 1)]
        rows = [backup("a", 10 + length, some[:length]) for length in lengths]
        rows += [restore(f"a_{10 + length}", some[:length]) for length in lengths]
        # Three whole pieces, the first bytes of each without the last, and the first byte of each behind the first, and one more.
        self.assertEqual(len(self.stores(*rows)), 8 * vault.SEGMENT + 1)

    def test_another_unit_and_its_segment_size_take_no_part(self):
        rows = [("unit add name=t capacity=100 segment=16", 0, ""), backup("a", 10, b"hello" * 10), ("unit change name=t slots=1", 0, ""), restore("a_10", b"hello" * 10)]
        self.assertEqual(self.stores(*rows), b"hello" * 10)
        self.assertFalse(self.desks[-1].file(vault.POOL + 1).exists(), "a pool of nothing was made")

    def test_images_that_are_drawn(self):
        """Images of few different pieces: each restores, from the session that made it and later, and a restore writes nothing."""
        draw = random.Random(5)
        blocks = [draw.randbytes(vault.SEGMENT) for _ in range(6)]
        payloads = [b"".join(draw.choices(blocks, k=draw.randrange(5))) + draw.choice([b"", b"end", blocks[0][:100]]) for _ in range(30)]
        restores = [restore(f"a_{moment}", payload) for moment, payload in enumerate(payloads, 1)]
        rows = []
        for moment, payload in enumerate(payloads, 1):
            rows += [backup("a", moment, payload), restores[draw.randrange(moment)]]
        self.stores(*rows)
        before = self.desks[-1].files()
        self.run_session(self.desks[-1], restores)
        self.assertTrue(self.desks[-1].files() == before, "a restore has written")


class Slots(RowsTest):
    """How many pieces a unit may hold. A backup that needs more is refused, and all is as if it never came."""

    def test_a_unit_of_one_slot(self):
        self.run_rows(
            [
                ("unit change name=disk0 slots=1", 0, ""),
                backup("a", 10, b"hello"),
                refused("b", 10, b"world", 2, 1),
                ("client remove name=b", 4, "b unknown"),
                ("bprestore id=b_10", 4, "b_10 unknown"),
                refused("a", 20, b"world", 2, 1),
                # The same bytes need no slot, and the next id is that of an image that follows the first.
                backup("b", 10, b"hello"),
                backup("a", 10, b"hello", "a_11"),
                backup("a", 5, b"", "a_12"),
                ("bprestore id=a_20", 4, "a_20 unknown"),
                restore("a_11", b"hello"),
                restore("b_10", b"hello"),
                ("unit change name=disk0 slots=2", 0, ""),
                backup("a", 20, b"world"),
                refused("a", 30, b"again", 3, 2),
                # What is held stays where there may be fewer.
                ("unit change name=disk0 slots=1", 0, ""),
                refused("a", 30, b"again", 3, 1),
                backup("a", 21, b"world"),
                restore("a_20", b"world"),
                restore("a_10", b"hello"),
            ]
        )

    def test_the_pieces_of_one_image(self):
        self.run_rows(
            [
                ("unit change name=disk0 slots=1", 0, ""),
                refused("a", 10, X + Y, 2, 1),
                refused("a", 10, Y + X + Z, 2, 1),
                # What was written of a refused one takes no slot.
                backup("a", 10, Y + Y),
                restore("a_10", Y + Y),
                refused("a", 11, Y + b"y", 2, 1),
                refused("a", 11, b"y", 2, 1),
                backup("a", 11, Y),
                restore("a_11", Y),
            ]
        )

    def test_a_refusal_in_the_middle_frees_what_it_took(self):
        self.run_rows(
            [
                ("unit change name=disk0 slots=4", 0, ""),
                backup("a", 10, X),
                refused("a", 11, X + Y + Z + b"1" + b"2" * vault.SEGMENT + b"3", 5, 4),
                backup("a", 11, Z + b"1"),
                refused("a", 12, b"2" + Y + b"3", 5, 4),
                backup("a", 12, Y),
                refused("a", 13, b"2", 5, 4),
                restore("a_10", X),
                restore("a_11", Z + b"1"),
                restore("a_12", Y),
            ]
        )

    def test_what_comes_before_it(self):
        self.run_rows(
            [
                ("unit change name=disk0 slots=1 capacity=10", 0, ""),
                backup("a", 10, b"hello"),
                ("@11 bpbackup client=a", 10, "disk0 full: 5 + 6 of 10", b"world!"),
                refused("a", 11, b"world", 2, 1),
                ("@11 bpbackup client=a schedule=none", 4, "adhoc/none unknown", b"world"),
                backup("a", 11, b"hello"),
                ("@12 bpbackup client=a", 9, "disk0 above high: 10 of 10", b"world"),
            ]
        )

    def test_it_leaves_the_journal_and_the_pieces_alone(self):
        self.desk.put(vault.files(FIRST, vault.settings(b"unit change name=disk0 slots=1")))
        before = self.desk.files()
        self.run_alone(self.desk, [refused("beta", 5, b"world", 2, 1)])
        self.assertEqual(self.desk.files(), before)


class Damage(RowsTest):
    """Pools whose bytes were changed, cut or lost from outside: what reads them is told, and nothing else is."""

    IMAGES = [vault.Image(b"a", 1, b"hello", 1), vault.Image(b"a", 2, X + Y + b"end", 2), vault.Image(b"a", 3, Y, 3), vault.Image(b"a", 4, b"", 4)]
    WHOLE = vault.files(*IMAGES)
    POOL = WHOLE[vault.POOL]

    def finds(self, pool, found):
        """Restores each image over this pool, as commands and as a session. Of those that are damaged it is said which piece is, and as what it is found."""
        self.desk = self.new_desk()
        self.desk.put(vault.files_of(self.WHOLE[vault.JOURNAL], pool))
        before = self.desk.files()
        rows = [restore(it.id.decode(), it.payload) if number not in found else (f"bprestore id={it.id.decode()}", 17, damaged(*found[number])) for number, it in enumerate(self.IMAGES)]
        self.run_alone(self.desk, rows)
        self.run_session(self.desk, rows)
        self.assertTrue(self.desk.files() == before, "a restore has written")

    def test_the_text_is_this(self):
        self.desk.put({**HELLO, vault.POOL: b"world"})
        text = "damaged: 2cf24dba5fb0a30e26e83b2ac5b9e29e1b161e5c1fa7425e73043362938b9824 found 486ea46224d1bb4fb680f34f7c9ad96a8f24ec88be73ea8e5a6c65260e9cb8a7"
        self.run_alone(self.desk, [("bprestore id=alpha_1000", 17, text), ("bprestore client=alpha policy=adhoc", 17, text)])

    def test_a_byte_that_was_changed(self):
        size = vault.SEGMENT
        for at, piece, images in ((0, b"hello", [0]), (4, b"hello", [0]), (size, X, [1]), (2 * size - 1, X, [1]), (2 * size + 9, Y, [1, 2]), (3 * size + 2, b"end", [1])):
            with self.subTest(at=at):
                changed = bytearray(self.POOL)
                changed[at] ^= 1
                start = at // size * size
                found = bytes(changed[start : start + len(piece)])
                self.finds(bytes(changed), dict.fromkeys(images, (piece, found)))

    def test_the_first_that_is_damaged_is_told(self):
        self.finds(self.POOL.replace(b"x", b"z").replace(b"y", b"w"), {1: (X, Z), 2: (Y, b"w" * vault.SEGMENT)})

    def test_bytes_beside_the_pieces_are_none(self):
        changed = bytearray(self.POOL)
        changed[5 : vault.SEGMENT] = random.Random(1).randbytes(vault.SEGMENT - 5)
        self.finds(bytes(changed) + b"more" * 10, {})

    def test_a_pool_that_is_cut(self):
        size = vault.SEGMENT
        for length, found in {
            len(self.POOL) - 1: {1: (b"end", b"en")},
            3 * size: {1: (b"end", b"")},
            3 * size - 1: {1: (Y, Y[:-1]), 2: (Y, Y[:-1])},
            2 * size: {1: (Y, b""), 2: (Y, b"")},
            size + 1: {1: (X, b"x"), 2: (Y, b"")},
            5: {1: (X, b""), 2: (Y, b"")},
            4: {0: (b"hello", b"hell"), 1: (X, b""), 2: (Y, b"")},
        }.items():
            with self.subTest(length=length):
                self.finds(self.POOL[:length], found)

    def test_a_pool_that_is_lost(self):
        self.finds(b"", {0: (b"hello", b""), 1: (X, b""), 2: (Y, b"")})
        self.assertFalse(self.desk.file(vault.POOL).exists(), "a pool was made")

    def test_a_pool_that_cannot_be_opened(self):
        self.desk.put(vault.files_of(HELLO[vault.JOURNAL]))
        self.desk.file(vault.POOL).mkdir()
        for words in ("bprestore id=alpha_1000", "@1 bpbackup client=b", "client add name=b"):
            answer = self.desk.run(words, payload=b"x")
            self.check(answer, 18, b"disk fault\n")
            self.assertEqual(answer.err, f"bpdesk: cannot open {self.desk.file(vault.POOL)}: Is a directory\n".encode())
        self.desk.file(vault.POOL).rmdir()
        self.desk.put(HELLO)
        self.run_alone(self.desk, [restore("alpha_1000", b"hello")])

    def test_backups_over_a_damaged_piece(self):
        """One that has the piece can't be compared with it. Others are done, and so is what else is asked in the same session."""
        rows = [
            ("@5 bpbackup client=b", 17, damaged(b"hello", b"world"), b"hello"),
            ("client remove name=b", 4, "b unknown"),
            ("@5 bpbackup client=b", 17, damaged(b"hello", b"world"), b"hello"),
            backup("b", 5, b"world"),
            restore("b_5", b"world"),
            ("bprestore id=alpha_1000", 17, damaged(b"hello", b"world")),
            backup("alpha", 5, b"other", "alpha_1001"),
        ]
        for run in (self.run_alone, self.run_session):
            self.desk = self.new_desk()
            self.desk.put({**HELLO, vault.POOL: b"world"})
            run(self.desk, rows)
            self.assertTrue(self.desk.bytes().startswith(HELLO[vault.JOURNAL][:-1]), "the journal's records changed")
            self.assertEqual(self.desk.files()[vault.POOL][:5], b"world", "a live slot was written")

    def test_a_damaged_piece_comes_before_one_too_many(self):
        self.desk.put({**vault.files(FIRST, vault.settings(b"unit change name=disk0 slots=1")), vault.POOL: b"world"})
        self.run_alone(self.desk, [("@5 bpbackup client=b", 17, damaged(b"hello", b"world"), b"hello"), refused("b", 5, b"world", 2, 1)])

    def test_a_chain_of_files(self):
        """Its images are read in their order, each from its own pieces."""
        full, diff = CHAIN_RECORDS[:2]
        none = diff._replace(payload=b"hello")
        for chain, number, rows in (
            ([full, diff], 1, [(f"{RESTORE} before=2000", diff), (f"{RESTORE} before=1000", None)]),
            ([full, diff], 0, [(f"{RESTORE} before=2000", full), (f"{RESTORE} before=1000", full)]),
            ([full, none], 0, [(f"{RESTORE} before=2000", full)]),
        ):
            with self.subTest(images=[it.payload for it in chain], damaged=number):
                files = vault.files(*SITE_RECORDS, *chain)
                pool = bytearray(files[vault.POOL])
                pool[number * vault.SEGMENT] ^= 1
                found = bytes(pool[number * vault.SEGMENT :][: len(chain[number].payload)])
                self.desk = self.new_desk()
                self.desk.put({**files, vault.POOL: bytes(pool)})
                self.run_alone(self.desk, [(words, 17, damaged(it.payload, found)) if it else (words, 0, stream(A1, B1)) for words, it in rows])


class Fits(OpeningTest):
    """Records that are written by hand behind that of an image: those that fit the pool, and those that don't."""

    HELLO_BODY = vault.backup_body(FIRST, vault.Segments((vault.segment(0, b"hello"),), (0,)))

    def behind(self, payload, added, pieces, pool=()):
        """Returns the files of a vault in which an image of these bytes comes behind the first, whose record says this of them."""
        body = vault.backup_body(LATER._replace(payload=payload), vault.Segments(tuple(added), tuple(pieces)))
        there = vault.Pool()
        for slot, piece in {0: b"hello", **dict(pool)}.items():
            there.hold(slot, piece)
        return vault.files_of(vault.journal(self.HELLO_BODY, body), there.file())

    def test_records_that_fit(self):
        world, whole = vault.segment(1, b"world"), vault.segment(1, X)
        rows = {
            "the next slot": (b"world", [world], [1], {1: b"world"}),
            "another slot": (b"world", [vault.segment(7, b"world")], [7], {7: b"world"}),
            "an earlier piece": (b"hello", [], [0], {}),
            "an earlier piece behind a new one": (X + b"hello", [whole], [1, 0], {1: X}),
            "a piece twice": (X + X + X, [whole], [1, 1, 1], {1: X}),
            "slots that fall": (X + Y + b"world", [vault.segment(3, X), vault.segment(2, Y), world], [3, 2, 1], {1: b"world", 2: Y, 3: X}),
            "segments in another order than the pieces": (X + b"world", [world, vault.segment(2, X)], [2, 1], {1: b"world", 2: X}),
            "a segment that no piece names": (b"world", [vault.segment(2, Z), world], [1], {1: b"world", 2: Z}),
            "no bytes": (b"", [], [], {}),
            "no bytes, and a segment": (b"", [world], [], {1: b"world"}),
        }
        for name, (payload, added, pieces, pool) in rows.items():
            with self.subTest(name):
                files = self.behind(payload, added, pieces, pool)
                one = self.new_desk()
                one.put(files)
                self.check_quiet(one.run("bprestore id=beta_5"), 0, payload)
                self.check_quiet(one.run("bprestore id=alpha_1000"), 0, b"hello")
                self.assertTrue(one.files() == files, "a restore has written")
                # The next piece takes the lowest slot that is free.
                self.check_quiet(one.run("@1 bpbackup client=c", payload=b"next"), 0, b"c_1\n")
                free = next(slot for slot in range(1, 9) if slot not in pool)
                self.assertEqual(one.files()[vault.POOL][free * vault.SEGMENT :][:4], b"next")
                self.assertEqual([it.payload for it in vault.read(one.files())], [b"hello", payload, b"next"])

    def test_a_slot_far_behind_the_others(self):
        slot = 5_000
        self.desk.put(self.behind(b"far", [vault.segment(slot, b"far")], [slot]))
        with self.desk.file(vault.POOL).open("r+b") as pool:
            pool.seek(slot * vault.SEGMENT)
            pool.write(b"far")
        self.check_quiet(self.desk.run("bprestore id=beta_5"), 0, b"far")
        self.check_quiet(self.desk.run("@1 bpbackup client=c", payload=b"near"), 0, b"c_1\n")
        with self.desk.file(vault.POOL).open("rb") as pool:
            pool.seek(vault.SEGMENT)
            self.assertEqual(pool.read(4), b"near")

    def test_a_digest_that_is_not_the_piece_s(self):
        """It fits, since no piece is read by an opening, and a restore tells of it."""
        self.desk.put(self.behind(b"world", [vault.segment(1, b"other")], [1], {1: b"world"}))
        self.check_quiet(self.desk.run("bprestore id=beta_5"), 17, damaged(b"other", b"world").encode() + b"\n")
        self.check_quiet(self.desk.run("bprestore id=alpha_1000"), 0, b"hello")

    def test_more_segments_than_the_unit_has_slots(self):
        """The number of slots bounds what is asked for, and not what was recorded."""
        few = vault.settings(b"unit change name=disk0 slots=1")
        self.opens(vault.files(FIRST, few, LATER), 15, b"too many segments: 3 of 1\n", "@6 bpbackup client=beta")

    def test_records_that_do_not_fit(self):
        world, whole = vault.segment(1, b"world"), vault.segment(1, X)
        nothing, long = vault.segment(2, b""), vault.segment(1, X + b"x")
        rows = {
            "a slot that is live": (b"world", [vault.segment(0, b"world")], [0]),
            "a slot that is live, with its own piece": (b"hello", [vault.segment(0, b"hello")], [0]),
            "a slot twice": (b"world", [world, world], [1]),
            "a slot twice, for two pieces": (X + b"world", [whole, world], [1, 1]),
            "slot 2^24": (b"world", [vault.segment(vault.SLOTS, b"world")], [vault.SLOTS]),
            "slot 2^32 - 1": (b"world", [vault.segment(2**32 - 1, b"world")], [2**32 - 1]),
            "a segment of no bytes": (b"world", [world, nothing], [1]),
            "a segment that is longer than may be": (X + b"x", [long], [1]),
            "a segment that is longer than may be, which no piece names": (b"hello", [long], [0]),
            "a segment that is far longer than may be": (b"hello", [world._replace(length=2**32 - 1)], [0]),
            "a piece in a slot that is free": (b"world", [], [1]),
            "a piece in a slot that is free, beside a new one": (b"world", [world], [2]),
            "a piece in slot 2^24": (b"world", [world], [vault.SLOTS]),
            "a piece in slot 2^32 - 1": (b"world", [world], [2**32 - 1]),
            "a piece that is too short": (b"hello!", [], [0]),
            "a piece that is too long": (b"hell", [], [0]),
            "a whole piece for the last": (X[:-1], [whole], [1]),
            "a last piece that is too long": (X + b"hell", [whole], [1, 0]),
            "a last piece that is missing": (X + b"hello", [whole], [1]),
            "a last piece in the first's place": (X + b"hello", [whole], [0, 1]),
            "a piece for the first and the last": (b"hello" * 2, [], [0, 0]),
            "one piece too many": (b"hello", [], [0, 0]),
            "one whole piece too many": (X, [whole], [1, 1]),
            "one whole piece too few": (X + X, [whole], [1]),
            "no pieces": (b"hello", [], []),
            "no pieces for a new segment": (b"world", [world], []),
            "a piece of no bytes": (b"", [], [0]),
            "pieces of another size": (b"x" * 32, [vault.segment(1, b"x" * 16)], [1, 1]),
        }
        for name, row in rows.items():
            with self.subTest(name):
                self.is_refused(self.behind(*row), GATE)

    def test_pieces_of_another_unit(self):
        """A record is that of the unit to which backups go, whatever other units there are."""
        unit = vault.settings_body(vault.settings(b"unit add name=t capacity=1000 segment=16"))
        body = vault.backup_body(LATER._replace(payload=b"x" * 32), vault.Segments((vault.segment(0, b"x" * 16),), (0, 0)))
        files = {vault.JOURNAL: vault.journal(unit, body), vault.POOL: b"x" * 16, vault.POOL + 1: b"x" * 16}
        self.is_refused(files, 16 + len(vault.record(unit)))

    def test_a_piece_that_a_later_record_brings(self):
        later = vault.backup_body(LATER, vault.Segments((), (0,)))
        self.is_refused(vault.files_of(vault.journal(later, self.HELLO_BODY), b"hello"), 16)

    def test_the_first_that_does_not_fit_is_told(self):
        bad = vault.backup_body(LATER, vault.Segments((), (1,)))
        for last in (bad, self.HELLO_BODY, b"\x09"):
            self.is_refused(vault.files_of(vault.journal(self.HELLO_BODY, bad, last), b"hello"), GATE)

    def test_copies_fit_in_no_state_yet(self):
        for segments in (vault.Segments((), (0,)), vault.Segments((vault.segment(1, b"hello"),), (1,))):
            for image in (FIRST, LATER):
                self.is_refused(vault.files_of(vault.journal(self.HELLO_BODY, vault.copy_body(image, 2, segments)), b"hello"), GATE)

    def test_whole_images_are_in_no_record(self):
        for image in (FIRST, LATER, LATER._replace(payload=b"")):
            self.is_refused(vault.journal(vault.whole_body(image)), 16)
            self.is_refused(vault.files_of(vault.journal(self.HELLO_BODY, vault.whole_body(image)), b"hello"), GATE)


class Stops(OpeningTest):
    def test_what_a_stop_left_behind_the_last_record(self):
        """A record whose gate is closed is none, wherever it was cut, nor are its pieces."""
        both = vault.files(FIRST, LATER)
        journal = both[vault.JOURNAL]
        for end in (GATE + 1, GATE + 2, GATE + 5, GATE + 50, len(journal)):
            for pool in (both[vault.POOL], b"hello", b"hello" + random.Random(1).randbytes(3 * vault.SEGMENT)):
                with self.subTest(end=end, pool=len(pool)):
                    torn = bytearray(journal[:end])
                    torn[GATE] = vault.CLOSED
                    one = self.opens(vault.files_of(bytes(torn), pool), 0, b"beta_5\n", "@5 bpbackup client=beta")
                    self.assertEqual([it.payload for it in vault.read(one.files())], [b"hello", b"x"])
                    self.assertEqual(one.bytes()[: GATE + 1], journal[: GATE + 1])
                    self.check_quiet(one.run("bprestore id=alpha_1000"), 0, b"hello")
                    self.check_quiet(one.run("bprestore id=beta_5"), 0, b"x")

    def test_a_disk_that_is_full_in_the_middle_of_a_session(self):
        """What was answered is there afterwards, and the backup that failed is not."""
        draw = random.Random(2)
        images = [vault.Image(b"a", turn, draw.randbytes(length), turn) for turn, length in enumerate([5, 200_000, 131_072, 300_000, 1_000_000, 5], 1)]
        text = b"".join(line_of(f"@{it.time} bpbackup client=a", it.payload) for it in images)
        # So many are done before the pool may not grow any more, which is in the midst of a piece, between two, or at once.
        for done, most in ((0, 4), (1, vault.SEGMENT), (1, vault.SEGMENT + 7), (1, 2 * vault.SEGMENT), (2, 3 * vault.SEGMENT), (3, 6 * vault.SEGMENT), (4, 10 * vault.SEGMENT + 9)):
            with self.subTest(done=done, most=most):
                one = self.new_desk()
                answer = one.run("session", payload=text, **with_files_of(most))
                if most < len(vault.EMPTY):
                    self.check(answer, 18, frame(18, b"disk fault\n"))
                    continue
                self.check(answer, 18, b"".join(frame(0, it.id + b"\n") for it in images[:done]) + frame(18, b"disk fault\n"))
                self.assertTrue(vault.read(one.files()) == images[:done], "the vault has other images")
                for it in images[:done]:
                    self.check_quiet(one.run(f"bprestore id={it.id.decode()}"), 0, it.payload)
                # The room that is found next is taken by the same backup anew.
                failed = images[done]
                self.check_quiet(one.run(f"@{failed.time} bpbackup client=a", payload=failed.payload), 0, failed.id + b"\n")
                self.assertTrue(one.files() == vault.files(*images[: done + 1]), "the vault differs")


class Kills(DeskTest):
    ROUNDS = 60

    def payload(self, draw):
        """Returns some mebibytes, some of whose pieces other payloads have too."""
        pieces = [random.Random(draw.randrange(40)).randbytes(vault.SEGMENT) for _ in range(draw.randrange(8, 30))]
        return b"".join(pieces) + draw.randbytes(draw.randrange(100))

    def test_kills_in_the_middle_of_long_backups(self):
        """The vault opens after each, and each image that was answered restores. One that was not is there whole, or isn't there."""
        draw = random.Random(6)
        began = time.monotonic()
        self.new_desk().run("@1 bpbackup client=a", payload=self.payload(draw))
        killer, known = Killer(8, time.monotonic() - began), []
        for turn in range(1, self.ROUNDS + 1):
            new = vault.Image(b"a", turn, self.payload(draw), turn)
            out = killer.talk(self.desk.start(f"@{turn} bpbackup client=a"), new.payload)
            answer = self.desk.run("session", payload=b"".join(line_of(f"bprestore id={it.id.decode()}") for it in [*known, new]))
            self.assertEqual(answer.status, 0)
            replies = replies_of(answer.out)
            self.assertTrue(replies[:-1] == [(0, it.payload) for it in known], "an answered image is gone")
            if out or replies[-1][0] == 0:
                self.assertTrue(replies[-1] == (0, new.payload), "an answered image is gone, or one is there that is not whole")
                known.append(new)
            else:
                self.assertEqual(replies[-1], (4, new.id + b" unknown\n"))
            # (an own vault now and then, so that its making is met too)
            if turn % 8 == 0:
                self.assertTrue(self.desk.bytes().startswith(vault.files(*known)[vault.JOURNAL][:-1]), "the journal differs")
                self.desk, known = self.new_desk(), []
        self.assertGreater(killer.killed, self.ROUNDS // 10, "too few processes were killed before their end to tell anything")
