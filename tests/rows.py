"""Requests as rows of words, status, body and maybe a payload, which are run as commands and as a session."""

from itertools import zip_longest

import vault
from desk import DeskTest


def body_of(text):
    """Returns the body of a row: a text stands for a line, and for nothing where it is empty; bytes stand for themselves."""
    if isinstance(text, bytes):
        return text
    return f"{text}\n".encode() if text else b""


def line_of(words, payload=None):
    """Returns a request as a session reads it."""
    if payload is None:
        return f"{words}\n".encode()
    return b"%s payload=%d\n%s" % (words.encode(), len(payload), payload)


def replies_of(out):
    """Returns the status and the body of each framed reply."""
    replies = []
    while out:
        head, _, out = out.partition(b"\n")
        status, length = map(int, head.split(b" "))
        replies.append((status, out[:length]))
        out = out[length:]
    return replies


class RowsTest(DeskTest):
    def run_alone(self, one, rows):
        """Runs each row as a command of its own, so that the vault is opened anew for each."""
        for words, status, body, *payload in rows:
            with self.subTest(words=words):
                self.check_quiet(one.run(words, payload=b"".join(payload)), status, body_of(body))

    def run_session(self, one, rows):
        """Runs the rows as one session."""
        answer = one.run("session", payload=b"".join(line_of(words, *payload) for words, _, _, *payload in rows))
        self.assertEqual((answer.status, answer.err), (0, answer.made))
        for row, reply in zip_longest(rows, replies_of(answer.out)):
            with self.subTest(session=row and row[0]):
                self.assertEqual(reply, row and (row[1], body_of(row[2])))

    def run_rows(self, rows):
        """Runs the rows both ways on new vaults and returns the records that they leave, one for each request that was done."""
        alone, together = self.new_desk(), self.new_desk()
        self.run_alone(alone, rows)
        self.run_session(together, rows)
        self.assertTrue(alone.files() == together.files(), "the session leaves another vault than the commands")
        records = vault.read(alone.files())
        done = [words for words, status, *_ in rows if status == 0 and not is_read(words)]
        self.assertEqual(len(records), len(done), "not one record for each request that was done")
        return records


def is_read(words):
    return "bprestore" in words.split(" ")
