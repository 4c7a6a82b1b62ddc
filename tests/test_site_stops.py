"""Sessions that set up a site and are killed at any moment, and the order of their writes, syncs and replies."""

import time

import vault
from desk import DeskTest, frame
from killer import Killer
from rows import line_of
from test_trace import OPENED_EMPTY, Step, Traced, joined, recorded, whole_replies

# Policies, each with its clients, of which a load has so many.
CLIENTS = 16


def name_of(turn):
    return f"p{turn}"


def clients_of(turn):
    return [f"p{turn}.c{number}" for number in range(CLIENTS)]


def load_of(turn):
    """Returns a site file with a policy and its clients, and the lines of its requests."""
    file = "".join(f'[[client]]\nname = "{client}"\n' for client in clients_of(turn))
    names = ", ".join(f'"{client}"' for client in clients_of(turn))
    file += f'[[policy]]\npolicy = "{name_of(turn)}"\ntype = "raw"\nlifecycle = "basic"\nclients = [{names}]\n'
    lines = [f"client add name={client}" for client in clients_of(turn)]
    lines += [f"bppolicynew add policy={name_of(turn)} type=raw lifecycle=basic"]
    lines += [f"bppolicynew client-add policy={name_of(turn)} client={client}" for client in clients_of(turn)]
    return file.encode(), [line.encode() for line in lines]


def request_of(turn):
    """Returns a request, the reply and the record that it leaves: loads, single changes and images in turn."""
    if turn % 3 == 0:
        file, lines = load_of(turn)
        return line_of("bpload", file), frame(0, b"%d\n" % len(lines)), vault.settings(*lines)
    if turn % 3 == 1:
        words = f"unit change name=disk0 slots={turn + 1}"
        return line_of(words), frame(0, b""), vault.settings(words.encode())
    image = vault.Image(b"a", turn, b"x" * turn, turn)
    return line_of(f"@{turn} bpbackup client=a", image.payload), frame(0, image.id + b"\n"), image


class Kills(DeskTest):
    ROUNDS = 60
    TURNS = 30

    def test_kills_at_any_moment(self):
        """After each kill every request of whose reply a byte was seen is there, whole, and at most one more."""
        text = b"".join(request_of(turn)[0] for turn in range(1, self.TURNS + 1))
        began = time.monotonic()
        self.check_quiet(self.desk.run("session", payload=text), 0, b"".join(request_of(turn)[1] for turn in range(1, self.TURNS + 1)))
        killer, known = Killer(11, time.monotonic() - began), []
        for turn in range(self.ROUNDS):
            if turn % 6 == 0:
                self.desk, known = self.new_desk(), []
            requests = [request_of(len(known) + 1 + more) for more in range(self.TURNS)]
            process = self.desk.start("session")
            out = killer.talk(process, b"".join(request for request, _, _ in requests))
            replies = [reply for _, reply, _ in requests]
            self.assertTrue(b"".join(replies).startswith(out), "a reply differs")
            seen = next(count for count in range(len(replies) + 1) if len(b"".join(replies[:count])) >= len(out))
            found = vault.read(self.desk.files())
            wanted = [*known, *(record for _, _, record in requests)]
            self.assertTrue(found == wanted[: len(found)], "the vault has records that were not sent, or not whole, or not in order")
            self.assertIn(len(found) - len(known), (seen, seen + 1), "an answered change is gone, or more than one was under way")
            known = found
            self.opens_with(len(known))
        self.assertGreater(killer.killed, self.ROUNDS // 4, "too few sessions were killed before their end to tell anything")

    def opens_with(self, count):
        """Opens the vault: it has the first so many requests, and of the next load nothing."""
        rows = []
        for turn in range(3, count + 4, 3):
            there = turn <= count
            for client in clients_of(turn):
                name = name_of(turn)
                rows.append((f"bppolicynew client-add policy={name} client={client}", frame(3, f"{name}/{client} exists\n".encode()) if there else frame(4, f"{name} unknown\n".encode())))
                rows.append((f"client remove name={client}", frame(5, f"{client} in use by policy {name}\n".encode()) if there else frame(4, f"{client} unknown\n".encode())))
        answer = self.desk.run("session", payload=b"".join(line_of(words) for words, _ in rows))
        self.assertEqual(answer.status, 0)
        self.assertTrue(answer.out == b"".join(reply for _, reply in rows), "a load is there in part")


class Order(Traced):
    def test_each_record_is_synced_before_its_gate_and_its_gate_before_the_reply(self):
        requests = [request_of(turn) for turn in range(1, 7)]
        answer, lines = self.trace("session", payload=b"".join(request for request, _, _ in requests))
        self.assertEqual(answer.status, 0)
        wanted = []
        gates = vault.gates(*(entry for _, _, entry in requests))
        for (_, reply, _), gate, end in zip(requests, gates, gates[1:]):
            wanted += [*recorded(gate, end), Step("reply", 0, len(reply))]
        steps = whole_replies([step for step in joined(self.steps(lines)) if step.file == vault.JOURNAL and step.what != "sync folder"])
        self.assertEqual(steps[-len(wanted) :], wanted)

    def test_a_refusal_writes_nothing(self):
        self.desk.put(vault.files(vault.settings(b"client add name=a")))
        for words, payload, status in (("client add name=a", b"", 3), ("bpload", b'[[client]]\nname = "b"\n[[client]]\nname = "a"\n', 3), ("bpload", b"no site file", 2)):
            with self.subTest(words=words, status=status):
                answer, lines = self.trace(words, payload=payload)
                self.assertEqual(answer.status, status)
                self.assertEqual(joined(self.steps(lines))[:-1], OPENED_EMPTY)


class Failing(Traced):
    """A sync or a write of the vault that fails: the next opening has all of the load, or nothing."""

    FILE, LINES = load_of(3)

    def each_failing(self, calls):
        before = [vault.settings(b"client add name=a")]
        for when in range(1, 20):
            self.desk = self.new_desk()
            self.desk.put(vault.files(*before))
            answer, lines = self.trace("bpload", payload=self.FILE, more=[*self.on_the_vault(), "-e", f"inject={calls}:error=EIO:when={when}"])
            if not any("(INJECTED)" in line for line in lines):
                self.check(answer, 0, b"%d\n" % len(self.LINES))
                return when - 1
            with self.subTest(calls=calls, when=when):
                self.check(answer, 18, b"disk fault\n")
                self.check_quiet(self.desk.run("client add name=b"), 0, b"")
                last = vault.settings(b"client add name=b")
                self.assertIn(vault.read(self.desk.files()), ([*before, last], [*before, vault.settings(*self.LINES), last]))
        self.fail("there is no end to these calls")

    def test_a_sync_that_fails(self):
        # The opening's, its folder's, the record's and the gate's.
        self.assertEqual(self.each_failing("fsync,fdatasync"), 4)

    def test_a_write_that_fails(self):
        self.assertGreaterEqual(self.each_failing("pwrite64,pwritev"), 2)
