"""The streams of a policy of files, spelled and read by a small program of its own, and what images and trees are made of them.

A file is its path, its time and its bytes. In an image a path whose bytes were not taken stands alone, with None for both.
"""

import struct
from typing import NamedTuple

import vault

END = b"\0"


class File(NamedTuple):
    path: bytes
    time: int = None
    content: bytes = None


def field(file):
    if file.time is None:
        return b"\2" + vault.string(file.path)
    return b"\1" + vault.string(file.path) + struct.pack(">QQ", file.time, len(file.content)) + file.content


def stream(*files):
    """Returns the stream of some files, as a backup's payload and a restore's reply have it."""
    return b"NBC1" + b"".join(map(field, files)) + END


def image(*files):
    """Returns the bytes of an image, of whose files some are named alone."""
    return b"NBI1" + b"".join(map(field, files)) + END


def read(text):
    """Returns the files of a stream."""
    it = vault.Reader(text)
    found = []
    if it.take(4) != b"NBC1":
        raise ValueError
    while (tag := it.take(1)) != END:
        if tag != b"\1":
            raise ValueError
        path = it.string()
        time, length = it.number(8), it.number(8)
        found.append(File(path, time, it.take(length)))
    if it.at != len(text) or found != sorted(found) or len({file.path for file in found}) != len(found):
        raise ValueError
    return found


def made(files, reference):
    """Returns the files of an image: the bytes are taken of those whose time is not before the reference, where there is one."""
    return [file if reference is None or file.time >= reference else File(file.path) for file in files]


def tree(chain):
    """Returns the files that a restore gives of a chain of images: those that the last one names, as the last that took them has them."""
    taken = {}
    for files in chain:
        taken.update({file.path: file for file in files if file.time is not None})
    return [taken[file.path] for file in chain[-1] if file.path in taken]
