"""Sessions of backups that are killed at any moment, and the order of their writes, syncs and replies."""

import random
import time

import vault
from desk import DeskTest, frame
from killer import Killer
from test_trace import Step, Traced, joined, recorded, whole_replies


class Kills(DeskTest):
    ROUNDS = 60
    TURNS = 40

    def requests(self, draw, first):
        """Returns the images of a session's backups, and its input."""
        images = []
        for turn in range(first, first + self.TURNS):
            payload = draw.randbytes(draw.choice([0, 5, 300, 5_000, 200_000]))
            images.append(vault.Image(b"a", turn, payload, turn))
        text = b"".join(b"@%d bpbackup client=a payload=%d\n%s" % (it.time, len(it.payload), it.payload) for it in images)
        return images, text

    def test_kills_at_any_moment(self):
        draw = random.Random(9)
        _, text = self.requests(draw, 1)
        began = time.monotonic()
        self.new_desk().run("session", payload=text)
        killer, known = Killer(9, time.monotonic() - began), []
        for turn in range(self.ROUNDS):
            if turn % 6 == 0:
                self.desk, known = self.new_desk(), []
            new, text = self.requests(draw, known[-1].time + 1 if known else 1)
            process = self.desk.start("session")
            out = killer.talk(process, text)
            replies = [frame(0, it.id + b"\n") for it in new]
            self.assertTrue(b"".join(replies).startswith(out), "a reply differs")
            # The backups of whose reply a byte was seen.
            seen = next(count for count in range(len(new) + 1) if len(b"".join(replies[:count])) >= len(out))
            found = vault.read(self.desk.files())
            self.assertTrue(found[: len(known)] == known, "an earlier image is gone")
            more = found[len(known) :]
            self.assertTrue(more == new[: len(more)], "the vault has images that were not sent, or not in order")
            self.assertIn(len(more), (seen, seen + 1), "an acknowledged image is gone, or more than one was under way")
            known = found
        self.assertGreater(killer.killed, self.ROUNDS // 4, "too few sessions were killed before their end to tell anything")
        for image in known:
            self.check_quiet(self.desk.run(f"bprestore id={image.id.decode()}"), 0, image.payload)


class Order(Traced):
    def test_the_pieces_are_synced_before_the_record_and_it_before_its_gate_and_that_before_the_reply(self):
        images = [vault.Image(b"a", turn, b"x" * (turn * 1_000), turn) for turn in range(1, 6)]
        text = b"".join(b"@%d bpbackup client=a payload=%d\n%s" % (it.time, len(it.payload), it.payload) for it in images)
        answer, lines = self.trace("session", payload=text)
        self.assertEqual(answer.status, 0)
        wanted = []
        gates = vault.gates(*images)
        for number, (image, gate, end) in enumerate(zip(images, gates, gates[1:])):
            wanted += [Step("write", number * vault.SEGMENT, len(image.payload), vault.POOL), Step("sync", file=vault.POOL)]
            # (its folder too, once it was made)
            wanted += [Step("sync folder")] * (number == 0)
            wanted += [*recorded(gate, end), Step("reply", 0, len(frame(0, image.id + b"\n")))]
        steps = whole_replies(joined(self.steps(lines)))
        self.assertEqual(steps[-len(wanted) :], wanted)
