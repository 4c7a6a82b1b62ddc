"""The files of a vault, spelled and read by a small program of its own, which shares nothing with the desk.

The files of a vault are its bytes by their numbers, as a dict without those that are empty: 0 is the journal, and 2 is the pool of
the first unit, to which all backups go.
"""

import hashlib
import struct
from typing import NamedTuple

HEADER = b"NBDESK VAULT 001"
OPEN = 0xA5
CLOSED = 0x00
EMPTY = HEADER + bytes([CLOSED])
SETTINGS = 1
BACKUP_SEALED = 2
COPY_SEALED = 3
WHOLE_IMAGE = 7
LATEST = 250_000_000_000

JOURNAL = 0
POOL = 2
# The segment size of the first unit, and what bounds the numbers of slots.
SEGMENT = 131_072
SLOTS = 16_777_216


class Image(NamedTuple):
    """An image that was sealed, with the values that a backup under the built-in policy has."""

    client: bytes
    time: int
    payload: bytes
    completed: int
    policy: bytes = b"adhoc"
    schedule: bytes = b"manual"
    kind: int = 0
    base: int = 0
    lifecycle: bytes = b"basic"
    version: int = 1

    @property
    def id(self):
        return b"%s_%d" % (self.client, self.time)


class Settings(NamedTuple):
    """The requests that changed the site at once, as their lines."""

    lines: tuple


class Segment(NamedTuple):
    """A piece that is new in a pool: its slot, its length and its digest."""

    slot: int
    length: int
    digest: bytes


class Segments(NamedTuple):
    """What a record says of an image's bytes: the pieces that are new with it, and the slots of all its pieces in their order."""

    added: tuple
    pieces: tuple


class NotAVault(Exception):
    """The journal is refused, with an offset."""


class Damaged(Exception):
    """A live slot of the pool has not the piece that was recorded, or has that of another one."""


def settings(*lines):
    """Returns the settings of these lines."""
    return Settings(lines)


def segment(slot, piece):
    """Returns what is recorded of a new piece."""
    return Segment(slot, len(piece), hashlib.sha256(piece).digest())


def pieces_of(payload, size=SEGMENT):
    """Returns the consecutive blocks of this size, of which the last may be shorter."""
    return [payload[at : at + size] for at in range(0, len(payload), size)]


# Spelling.


def string(text):
    return struct.pack(">H", len(text)) + text


def settings_body(entry):
    return bytes([SETTINGS]) + struct.pack(">I", len(entry.lines)) + b"".join(map(string, entry.lines))


def image_fields(image):
    """Returns what stands between the kind of an image's record and its segments."""
    return b"".join(
        [
            string(image.client),
            struct.pack(">Q", image.time),
            string(image.policy),
            string(image.schedule),
            bytes([image.kind]),
            struct.pack(">Q", image.base),
            string(image.lifecycle),
            struct.pack(">H", image.version),
            struct.pack(">Q", image.completed),
            struct.pack(">Q", len(image.payload)),
        ]
    )


def segments_fields(segments):
    added = [struct.pack(">II", it.slot, it.length) + it.digest for it in segments.added]
    pieces = [struct.pack(">I", slot) for slot in segments.pieces]
    return b"".join([struct.pack(">I", len(added)), *added, struct.pack(">I", len(pieces)), *pieces])


def backup_body(image, segments):
    """Returns the body of the record of a backup."""
    return bytes([BACKUP_SEALED]) + image_fields(image) + segments_fields(segments)


def copy_body(image, copy, segments):
    """Returns the body of the record of a further copy of an image."""
    fields = string(image.client) + struct.pack(">Q", image.time) + bytes([copy]) + struct.pack(">Q", image.completed)
    return bytes([COPY_SEALED]) + fields + segments_fields(segments)


def whole_body(image):
    """Returns the body of a record that vaults had before there were pools: the image's bytes stand in it."""
    return bytes([WHOLE_IMAGE]) + image_fields(image) + image.payload


def record(body):
    """Returns the record of a body: its open gate, its length and the body."""
    return bytes([OPEN]) + struct.pack(">I", len(body)) + body


def journal(*bodies):
    """Returns the journal of records with these bodies, with the closed gate at its end."""
    return HEADER + b"".join(map(record, bodies)) + bytes([CLOSED])


class Pool:
    """The distinct pieces of a unit, each in a slot. Slot k begins at k times the segment size."""

    def __init__(self, size=SEGMENT):
        self.size = size
        self.pieces, self.slots = {}, {}
        # (no slot below is free)
        self.full = 0

    def lowest_free(self):
        while self.full in self.pieces:
            self.full += 1
        return self.full

    def hold(self, slot, piece):
        self.pieces[slot], self.slots[piece] = piece, slot

    def place(self, payload):
        """Gives each piece that isn't held the lowest free slot, and returns the segments of the bytes."""
        added, pieces = [], []
        for piece in pieces_of(payload, self.size):
            if piece not in self.slots:
                slot = self.lowest_free()
                self.hold(slot, piece)
                added.append(segment(slot, piece))
            pieces.append(self.slots[piece])
        return Segments(tuple(added), tuple(pieces))

    def file(self):
        """Returns the bytes of its file, with zeros between the pieces."""
        file = bytearray(max((slot * self.size + len(piece) for slot, piece in self.pieces.items()), default=0))
        for slot, piece in self.pieces.items():
            file[slot * self.size : slot * self.size + len(piece)] = piece
        return bytes(file)


class Vault:
    """A vault that is made record by record, as the desk makes it."""

    def __init__(self, *entries):
        self.bodies, self.pool = [], Pool()
        for entry in entries:
            self.add(entry)

    def add(self, entry):
        self.bodies.append(settings_body(entry) if isinstance(entry, Settings) else backup_body(entry, self.pool.place(entry.payload)))

    def files(self):
        return files_of(journal(*self.bodies), self.pool.file())

    def gates(self):
        """Returns the offset of the gate of each record, and of the closed one at the end."""
        at = [len(HEADER)]
        for body in self.bodies:
            at.append(at[-1] + len(record(body)))
        return at


def files_of(journal, pool=b""):
    """Returns the files of a vault that has this journal and this pool."""
    return {number: file for number, file in ((JOURNAL, journal), (POOL, pool)) if file}


def files(*entries):
    """Returns the files of the vault of these images and settings."""
    return Vault(*entries).files()


def gates(*entries):
    """Returns the offset of the gate of each of their records, and of the closed one at the end."""
    return Vault(*entries).gates()


# Reading.


class Reader:
    def __init__(self, text):
        self.text, self.at = text, 0

    def take(self, count):
        if self.at + count > len(self.text):
            raise ValueError
        self.at += count
        return self.text[self.at - count : self.at]

    def number(self, size):
        return int.from_bytes(self.take(size), "big")

    def string(self):
        return self.take(self.number(2))

    def end(self):
        if self.at != len(self.text):
            raise ValueError


def read_body(text, pool, file):
    """Returns the settings or the image that a body spells, and adds its new pieces to the pool, whose file this is. It raises ValueError
    where the body spells none, or none that fits the pool."""
    it = Reader(text)
    kind = it.number(1)
    if kind == SETTINGS:
        return read_settings(it)
    if kind == BACKUP_SEALED:
        return read_backup(it, pool, file)
    raise ValueError


def read_settings(it):
    lines = tuple(it.string() for _ in range(it.number(4)))
    it.end()
    return Settings(lines)


def read_backup(it, pool, file):
    client, time = it.string(), it.number(8)
    policy, schedule, kind, base = it.string(), it.string(), it.number(1), it.number(8)
    lifecycle, version = it.string(), it.number(2)
    completed, length = it.number(8), it.number(8)
    segments = read_segments(it)
    it.end()
    if kind > 2 or not 1 <= time <= LATEST:
        raise ValueError
    payload = read_payload(segments, length, pool, file)
    return Image(client, time, payload, completed, policy, schedule, kind, base, lifecycle, version)


def read_segments(it):
    added = tuple(Segment(it.number(4), it.number(4), it.take(32)) for _ in range(it.number(4)))
    pieces = tuple(it.number(4) for _ in range(it.number(4)))
    return Segments(added, pieces)


def read_payload(segments, length, pool, file):
    """Returns the bytes of an image, whose new pieces are added to the pool."""
    for it in segments.added:
        if it.slot in pool.pieces or it.slot >= SLOTS or not 1 <= it.length <= pool.size:
            raise ValueError
        piece = file[it.slot * pool.size : it.slot * pool.size + it.length]
        if segment(it.slot, piece) != it or piece in pool.slots:
            raise Damaged(it.slot)
        pool.hold(it.slot, piece)
    pieces = [pool.pieces[slot] for slot in segments.pieces if slot in pool.pieces]
    payload = b"".join(pieces)
    if len(pieces) < len(segments.pieces) or len(payload) != length or pieces != pieces_of(payload, pool.size):
        raise ValueError
    return payload


def read(files):
    """Returns the images and settings of a vault in their order, up to the first gate that is not open."""
    text, pool = files.get(JOURNAL, b""), Pool()
    if len(text) <= len(EMPTY):
        return []
    for at, byte in enumerate(HEADER):
        if text[at] != byte:
            raise NotAVault(at)
    entries, at = [], len(HEADER)
    while text[at] == OPEN:
        end = at + 5 + int.from_bytes(text[at + 1 : at + 5], "big")
        if at + 5 > len(text) or end >= len(text):
            raise NotAVault(at)
        try:
            entries.append(read_body(text[at + 5 : end], pool, files.get(POOL, b"")))
        except ValueError:
            raise NotAVault(at) from None
        at = end
    return entries
