"""How many units, clients, policies, parts of a policy and images there may be: the last that is taken, and the next."""

import vault
from rows import RowsTest

POLICY = b'[[policy]]\npolicy = "p"\ntype = "raw"\nlifecycle = "basic"\n'


def tables(part, *keys):
    """Returns a part of a site file: a table for each line of keys."""
    return b"".join(b"[[%s]]\n%s\n" % (part, it) for it in keys)


def units(count):
    return tables(b"unit", *(b'name = "u%d"\ncapacity = 1' % number for number in range(count)))


def clients(count):
    return tables(b"client", *(b'name = "c%d"' % number for number in range(count)))


def policies(count):
    return tables(b"policy", *(b'policy = "p%d"\ntype = "raw"\nlifecycle = "basic"' % number for number in range(count)))


def listed(count):
    return clients(count) + POLICY + b"clients = [%s]\n" % b", ".join(b'"c%d"' % number for number in range(count))


def selections(count):
    return POLICY + b"selections = [%s]\n" % b", ".join(b'"/%d"' % number for number in range(count))


def schedules(count):
    return POLICY + tables(b"policy.schedule", *(b'schedule = "s%d"\nkind = "full"\nfrequency = 1\nwindows = "none"' % number for number in range(count)))


def load(made, count, more=0):
    """Returns the row of a load of so many, and of so many requests beside them."""
    return "bpload", 0, str(count + more), made(count)


def too_many(kind, limit):
    return f"too many {kind}: {limit} of {limit}"


# What is added first for each number, the request that fills a list, how many more it takes on a new vault, and its limit.
ONE_BY_ONE = [
    ("", "unit add name=u{} capacity=1", 15, "units", 16),
    ("", "client add name=c{}", 1_024, "clients", 1_024),
    ("", "bppolicynew add policy=p{} type=raw lifecycle=basic", 255, "policies", 256),
    ("client add name=c{}", "bppolicynew client-add policy=adhoc client=c{}", 1_024, "policy-clients", 1_024),
    ("", "bppolicynew select policy=adhoc path=/{}", 64, "selections", 64),
    ("", "bpplsched add policy=adhoc schedule=s{} kind=full frequency=1 windows=none", 31, "schedules", 32),
]


class Limits(RowsTest):
    def test_lists_that_are_filled_one_by_one(self):
        """The last that is taken is done, and the next is refused, in the session and at a new opening."""
        for first, line, more, kind, limit in ONE_BY_ONE:
            with self.subTest(kind):
                one = self.new_desk()
                rows = [(first.format(number), 0, "") for number in range(more) if first]
                rows += [(line.format(number), 0, "") for number in range(more)]
                rows += [(line.format(more), 15, too_many(kind, limit))]
                self.run_session(one, rows)
                self.run_alone(one, rows[-1:])
                self.assertEqual(len(vault.read(one.files())), len(rows) - 1)

    def is_refused_whole(self, kind, limit, file):
        """A load of one more than there may be is refused, and nothing of it is there."""
        self.run_rows([("bpload", 15, too_many(kind, limit), file)])

    def test_units(self):
        full = too_many("units", 16)
        self.run_rows(
            [
                load(units, 15),
                ("unit add name=u15 capacity=1", 15, full),
                # It comes before the test of the name.
                ("unit add name=disk0 capacity=1", 15, full),
                ("unit change name=u14 capacity=2", 0, ""),
                ("bpload", 15, full, tables(b"unit", b'name = "u0"\ncapacity = 1')),
            ]
        )
        self.run_rows([load(units, 14), ("unit add name=u14 capacity=1", 0, ""), ("unit add name=u15 capacity=1", 15, full)])
        self.is_refused_whole("units", 16, units(16))

    def test_clients(self):
        full = too_many("clients", 1_024)
        self.run_rows(
            [
                load(clients, 1_024),
                ("client add name=more", 15, full),
                ("client add name=c0", 15, full),
                ("@5 bpbackup client=more", 15, full, b"x"),
                # A client that is there is backed up, under adhoc too.
                ("@5 bpbackup client=c7", 0, "c7_5", b"x"),
                ("client remove name=c8", 0, ""),
                ("client add name=more", 0, ""),
                ("client add name=c8", 15, full),
            ]
        )
        self.is_refused_whole("clients", 1_024, clients(1_025))

    def test_clients_that_were_backed_up(self):
        full = too_many("clients", 1_024)
        backups = [(f"@5 bpbackup client=c{number}", 0, f"c{number}_5", b"") for number in range(1_022, 1_024)]
        self.run_rows(
            [
                load(clients, 1_022),
                *backups,
                ("@5 bpbackup client=more", 15, full, b"x"),
                ("client add name=more", 15, full),
                ("@5 bpbackup client=c1023", 0, "c1023_6", b"x"),
            ]
        )

    def test_a_full_house_of_backups(self):
        """All clients are there by backups alone."""
        rows = [(f"@{number + 1} bpbackup client=c{number}", 0, f"c{number}_{number + 1}", b"x") for number in range(1_024)]
        rows += [("@5 bpbackup client=more", 15, too_many("clients", 1_024), b"x"), ("client add name=more", 15, too_many("clients", 1_024))]
        self.run_session(self.desk, rows)
        self.assertEqual(len(vault.read(self.desk.files())), 1_024)
        self.run_alone(self.desk, rows[-2:])

    def test_the_order_of_a_backup_s_refusals_at_the_limit(self):
        full = too_many("clients", 1_024)
        self.run_rows(
            [
                load(clients, 1_024),
                ("bppolicynew change policy=adhoc active=no", 0, ""),
                ("@5 bpbackup client=more schedule=x", 15, full, b"x"),
                ("@5 bpbackup client=more start=scheduled", 15, full, b"x"),
                ("@5 bpbackup client=c0 schedule=x", 4, "adhoc/x unknown", b"x"),
                # Under another policy a client that isn't there is unknown.
                ("bppolicynew add policy=p type=raw lifecycle=basic", 0, ""),
                ("@5 bpbackup client=more policy=q", 4, "q unknown", b"x"),
                ("@5 bpbackup client=more policy=p", 4, "more unknown", b"x"),
            ]
        )

    def test_policies(self):
        full = too_many("policies", 256)
        self.run_rows(
            [
                load(policies, 255),
                ("bppolicynew add policy=more type=raw lifecycle=basic", 15, full),
                ("bppolicynew add policy=adhoc type=raw lifecycle=gold", 15, full),
                ("bppolicynew change policy=p254 active=no", 0, ""),
                ("bppolicynew remove policy=p9", 0, ""),
                ("bppolicynew add policy=more type=raw lifecycle=gold", 4, "gold unknown"),
                ("bppolicynew add policy=more type=raw lifecycle=basic", 0, ""),
                ("bppolicynew add policy=p9 type=raw lifecycle=basic", 15, full),
            ]
        )
        self.is_refused_whole("policies", 256, policies(256))

    def test_clients_of_a_policy(self):
        full = too_many("policy-clients", 1_024)
        self.run_rows(
            [
                load(listed, 1_024, 1_024 + 1),
                ("bppolicynew client-add policy=q client=c0", 4, "q unknown"),
                ("bppolicynew client-add policy=p client=c0", 15, full),
                ("bppolicynew client-add policy=p client=nobody", 15, full),
                ("bppolicynew client-add policy=adhoc client=c0", 0, ""),
                ("bppolicynew client-remove policy=p client=c5", 0, ""),
                ("bppolicynew client-add policy=p client=nobody", 4, "nobody unknown"),
                ("bppolicynew client-add policy=p client=c6", 3, "p/c6 exists"),
                ("bppolicynew client-add policy=p client=c5", 0, ""),
                ("bppolicynew client-add policy=p client=c5", 15, full),
            ]
        )

    def test_selections(self):
        full = too_many("selections", 64)
        self.run_rows(
            [
                load(selections, 64, 1),
                ("bppolicynew select policy=q path=/more", 4, "q unknown"),
                ("bppolicynew select policy=p path=/more", 15, full),
                ("bppolicynew select policy=p path=/0", 15, full),
                ("bppolicynew select policy=adhoc path=/0", 0, ""),
                ("bppolicynew unselect policy=p path=/9", 0, ""),
                ("bppolicynew select policy=p path=/0", 3, "/0 exists"),
                ("bppolicynew select policy=p path=/more", 0, ""),
                ("bppolicynew select policy=p path=/9", 15, full),
            ]
        )
        self.is_refused_whole("selections", 64, selections(65))

    def test_schedules(self):
        full = too_many("schedules", 32)
        self.run_rows(
            [
                load(schedules, 32, 1),
                ("bpplsched add policy=q schedule=more kind=full frequency=1 windows=none", 4, "q unknown"),
                ("bpplsched add policy=p schedule=more kind=full frequency=1 windows=none", 15, full),
                ("bpplsched add policy=p schedule=more kind=diff frequency=1 windows=none", 15, full),
                ("bpplsched add policy=p schedule=s0 kind=full frequency=1 windows=none", 15, full),
                ("bpplsched change policy=p schedule=s0 kind=full calendar=mL windows=always", 0, ""),
                ("bpplsched change policy=p schedule=more kind=full calendar=mL windows=always", 4, "p/more unknown"),
                ("bpplsched remove policy=p schedule=s9", 0, ""),
                ("bpplsched add policy=p schedule=s0 kind=full frequency=1 windows=none", 3, "p/s0 exists"),
                ("bpplsched add policy=p schedule=more kind=full frequency=1 windows=none", 0, ""),
                ("bpplsched add policy=p schedule=s9 kind=full frequency=1 windows=none", 15, full),
                ("bpplsched add policy=adhoc schedule=s0 kind=full frequency=1 windows=none", 0, ""),
            ]
        )
        self.is_refused_whole("schedules", 32, schedules(33))

    def test_images(self):
        """A vault with one image less than there may be: an image of no bytes takes 74 here, so it has some 78 MB."""
        count = 1_048_576
        full = f"too many images: {count} of {count}"
        body = vault.backup_body(vault.Image(b"a", vault.LATEST, b"", 0), vault.Segments((), ()))
        head, tail = vault.record(body).split(vault.LATEST.to_bytes(8, "big"))
        images = [head + time.to_bytes(8, "big") + tail for time in range(1, count + 2)]
        end = bytes([vault.CLOSED])
        self.desk.put(vault.HEADER + b"".join(images[: count - 1]) + end)
        self.run_session(
            self.desk,
            [
                ("@5 bpbackup client=b", 0, "b_5", b"x"),
                ("@6 bpbackup client=b", 15, full, b"x"),
                ("@6 bpbackup client=b policy=q", 15, full, b"x"),
                ("client remove name=a", 5, "a in use by a_1"),
                ("bprestore id=b_5", 0, b"x"),
            ],
        )
        self.desk.put(vault.HEADER + b"".join(images) + end)
        gate = len(vault.HEADER) + count * len(images[0])
        self.check_quiet(self.desk.run("client remove name=a"), 22, b"not a vault at %d\n" % gate)

    def test_a_large_site(self):
        """Each of many policies lists many clients, and the vault opens again."""
        names = [b'"c%d"' % number for number in range(1_024)]
        made = [b'policy = "p%d"\ntype = "raw"\nlifecycle = "basic"\nclients = [%s]' % (number, b", ".join(names[number : number + 40])) for number in range(255)]
        file = clients(1_024) + tables(b"policy", *made)
        self.run_rows(
            [
                ("bpload", 0, str(1_024 + 255 * 41), file),
                ("bppolicynew client-add policy=p0 client=c39", 3, "p0/c39 exists"),
                ("bppolicynew client-add policy=p254 client=c254", 3, "p254/c254 exists"),
                ("client remove name=c39", 5, "c39 in use by policy p0"),
                ("client remove name=c100", 5, "c100 in use by policy p100"),
            ]
        )
