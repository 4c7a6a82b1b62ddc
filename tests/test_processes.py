"""Several processes on one folder, and processes that are killed at any moment."""

import os
import random
import threading
import time
from pathlib import Path

import vault
from desk import DeskTest
from killer import Killer
from test_backup import HELLO

IN_USE = (b"in use", b"another process", b"lock")


def waits_for(what):
    """Waits until something holds, and returns whether it came to."""
    for _ in range(2_000):
        if what():
            return True
        time.sleep(0.005)
    return False


class TwoAtOnce(DeskTest):
    def has_opened(self, process, length):
        """Whether the process has the journal open, and the journal has come to its length."""

        def holds():
            links = Path("/proc", str(process.pid), "fd")
            try:
                names = [os.readlink(link) for link in links.iterdir()]
            except OSError:
                return False
            journal = self.desk.file()
            return os.path.realpath(journal) in names and journal.stat().st_size >= length

        return holds

    def one_waits_while_another_runs(self, images):
        held = self.desk.start("@1 bpbackup client=first")
        # The vault is opened before the payload is read, so the first has it while its input stays open.
        length = len(vault.files(*images)[0])
        self.assertTrue(waits_for(self.has_opened(held, length)), "the vault was not opened before the payload came")
        time.sleep(0.1)
        for _ in range(2):
            self.check_told(self.desk.run("@1 bpbackup client=second", payload=b"second"), 18, b"disk fault\n", *IN_USE)
        self.assertEqual(vault.read(self.desk.files()), images, "the refused process wrote to the vault")
        held.stdin.write(b"payload of the first")
        self.check_quiet(self.ending(held), 0, b"first_1\n")
        self.assertEqual(vault.read(self.desk.files()), [*images, vault.Image(b"first", 1, b"payload of the first", 1)])
        self.check_quiet(self.desk.run("@1 bpbackup client=second", payload=b"second"), 0, b"second_1\n")

    def test_a_new_vault(self):
        self.one_waits_while_another_runs([])

    def test_a_vault_with_an_image(self):
        self.desk.put(HELLO)
        self.one_waits_while_another_runs(vault.read(HELLO))

    def test_a_killed_process_holds_nothing(self):
        held = self.desk.start("@1 bpbackup client=first")
        self.assertTrue(waits_for(self.has_opened(held, len(vault.EMPTY))))
        held.kill()
        self.ending(held)
        self.check_quiet(self.desk.run("@1 bpbackup client=second", payload=b"x"), 0, b"second_1\n")

    def test_other_folders_are_free(self):
        held = self.desk.start("@1 bpbackup client=first")
        self.assertTrue(waits_for(self.has_opened(held, len(vault.EMPTY))))
        self.check_quiet(self.new_desk().run("@1 bpbackup client=second", payload=b"x"), 0, b"second_1\n")
        self.check_quiet(self.ending(held), 0, b"first_1\n")

    def test_many_at_once(self):
        """Each of many is done or refused, and the vault has exactly the images that were answered."""
        answers = []

        def work(number):
            for turn in range(10):
                answers.append(self.desk.run(f"@{turn + 1} bpbackup client=c{number}", payload=b"%d %d" % (number, turn)))

        threads = [threading.Thread(target=work, args=(number,)) for number in range(6)]
        for thread in threads:
            thread.start()
        for thread in threads:
            thread.join()
        self.assertEqual({answer.status for answer in answers} - {0, 18}, set())
        done = sorted(answer.out.rstrip(b"\n") for answer in answers if answer.status == 0)
        self.assertTrue(done)
        self.assertEqual(sorted(image.id for image in vault.read(self.desk.files())), done)


class Kills(DeskTest):
    ROUNDS = 120

    def test_kills_at_any_moment(self):
        """Each acknowledged image is there whole and in order, and at most one more per killed process."""
        draw = random.Random(3)
        began = time.monotonic()
        self.new_desk().run("@1 bpbackup client=a", payload=bytes(200_000))
        killer, known = Killer(4, time.monotonic() - began), []
        for turn in range(1, self.ROUNDS + 1):
            # (a new vault now and then, so that its making is met too)
            if turn % 10 == 0:
                self.desk, known = self.new_desk(), []
            payload = draw.randbytes(draw.choice([0, 5, 5_000, 200_000, 1_000_000]))
            process = self.desk.start(f"@{turn} bpbackup client=a")
            out = killer.talk(process, payload)
            last = max([image.time for image in known], default=0)
            new = vault.Image(b"a", max(turn, last + 1), payload, turn)
            found = vault.read(self.desk.files())
            self.assertTrue(found in (known, [*known, new]), "the vault has other images than those that were sent to it")
            if out:
                self.assertTrue((new.id + b"\n").startswith(out))
                self.assertTrue(found == [*known, new], "an acknowledged image is gone")
            known = found
            # (and what a killed one left in the pool has not taken the slots of those behind it)
            self.assertTrue(not known or self.desk.bytes().startswith(vault.files(*known)[0][:-1]), "the journal differs")
        self.check_quiet(self.desk.run("@1 bpbackup client=a", payload=b"x"), 0, b"a_%d\n" % (max([0, *(image.time for image in known)]) + 1))
        self.assertGreater(killer.killed, self.ROUNDS // 10, "too few processes were killed before their end to tell anything")
