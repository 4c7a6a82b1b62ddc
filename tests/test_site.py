"""The requests that set up a site, one by one: what each is answered, and the order of its refusals."""

import vault
from desk import LATEST
from rows import RowsTest

X80, X101 = b"x" * 80, b"x" * 101
END_OF_TIME = "too many time: 250000000000 of 250000000000"

# A policy with the client a, and with two schedules of which the first by name was added last.
OFFICE = [
    ("client add name=a", 0, ""),
    ("client add name=b", 0, ""),
    ("bppolicynew add policy=p type=raw lifecycle=basic", 0, ""),
    ("bppolicynew client-add policy=p client=a", 0, ""),
    ("bpplsched add policy=p schedule=s kind=full frequency=1 windows=none", 0, ""),
    ("bpplsched add policy=p schedule=S kind=full calendar=mL windows=always", 0, ""),
]

CLIENTS = {
    "a client is added once": [
        ("client add name=a", 0, ""),
        ("client add name=a", 3, "a exists"),
        ("client add name=A", 0, ""),
        ("@7 client add name=a", 3, "a exists"),
    ],
    "a client that was backed up is there": [
        ("@5 bpbackup client=a", 0, "a_5", b"x"),
        ("client add name=a", 3, "a exists"),
    ],
    "a client is removed, and may be added again": [
        ("client remove name=b", 4, "b unknown"),
        ("client add name=b", 0, ""),
        ("client remove name=b", 0, ""),
        ("client remove name=b", 4, "b unknown"),
        ("client add name=b", 0, ""),
    ],
    "a client is in use by the first policy by name that lists it, then by its earliest image": [
        *OFFICE,
        ("bppolicynew add policy=o type=raw lifecycle=basic", 0, ""),
        ("bppolicynew client-add policy=o client=a", 0, ""),
        ("@9 bpbackup client=a policy=p", 0, "a_9", b"x"),
        ("@3 bpbackup client=a", 0, "a_10", b"x"),
        ("@3 bpbackup client=b", 0, "b_3", b"x"),
        ("client remove name=a", 5, "a in use by policy o"),
        ("bppolicynew client-remove policy=o client=a", 0, ""),
        ("client remove name=a", 5, "a in use by policy p"),
        ("bppolicynew client-remove policy=p client=a", 0, ""),
        ("client remove name=a", 5, "a in use by a_9"),
        ("client remove name=b", 5, "b in use by b_3"),
    ],
    "a client on the list of adhoc is in use by it": [
        ("client add name=a", 0, ""),
        ("bppolicynew client-add policy=adhoc client=a", 0, ""),
        ("client remove name=a", 5, "a in use by policy adhoc"),
    ],
    "a client's next image is later than its last one": [
        ("client add name=a", 0, ""),
        ("@5 bpbackup client=a", 0, "a_5", b"x"),
        ("@5 bpbackup client=a policy=adhoc", 0, "a_6", b"x"),
        ("@0 bpbackup client=a schedule=manual", 0, "a_7", b"x"),
    ],
}

UNITS = {
    "a unit is added once": [
        ("unit add name=t capacity=100", 0, ""),
        ("unit add name=t capacity=100", 3, "t exists"),
        ("unit add name=disk0 capacity=1 segment=16 fragment=1 slots=1 high=2 low=1", 3, "disk0 exists"),
        ("unit add name=T capacity=1125899906842624 segment=131072 fragment=1048576 slots=16777216 high=100 low=99", 0, ""),
    ],
    "only a unit that is there is changed": [
        ("unit change name=t capacity=5", 4, "t unknown"),
        ("unit add name=t capacity=100", 0, ""),
        ("unit change name=t capacity=5", 0, ""),
        ("unit change name=t", 0, ""),
        ("unit change name=t slots=1 high=1 low=0", 0, ""),
    ],
    "no more than the capacity is stored, and nothing above the high mark": [
        ("unit change name=disk0 capacity=100 high=80 low=40", 0, ""),
        ("@10 bpbackup client=a", 10, "disk0 full: 0 + 101 of 100", X101),
        ("@10 bpbackup client=a", 0, "a_10", X80),
        ("@11 bpbackup client=a", 9, "disk0 above high: 80 of 100", b"x"),
        ("@11 bpbackup client=b", 9, "disk0 above high: 80 of 100", b""),
    ],
    "a unit may be filled whole": [
        ("unit change name=disk0 capacity=100 high=100 low=99", 0, ""),
        ("@1 bpbackup client=a", 0, "a_1", b"x" * 99),
        ("@2 bpbackup client=b", 10, "disk0 full: 99 + 2 of 100", b"xy"),
        ("@2 bpbackup client=b", 0, "b_2", b""),
        ("@3 bpbackup client=b", 0, "b_3", b"x"),
        ("@4 bpbackup client=b", 9, "disk0 above high: 100 of 100", b""),
    ],
    "equal bytes of two images count twice": [
        ("unit change name=disk0 capacity=10", 0, ""),
        ("@1 bpbackup client=a", 0, "a_1", b"hello"),
        ("@1 bpbackup client=b", 10, "disk0 full: 5 + 6 of 10", b"hello!"),
        ("@1 bpbackup client=b", 0, "b_1", b"hell"),
        ("@2 bpbackup client=b", 0, "b_2", b""),
        ("@3 bpbackup client=b", 10, "disk0 full: 9 + 2 of 10", b"he"),
    ],
    "the marks stay where they are not given: that of a new vault is 98": [
        ("unit change name=disk0 capacity=100", 0, ""),
        ("@1 bpbackup client=a", 0, "a_1", b"x" * 97),
        ("@2 bpbackup client=a", 0, "a_2", b"x"),
        ("@3 bpbackup client=a", 9, "disk0 above high: 98 of 100", b""),
        ("unit change name=disk0 capacity=101 slots=1", 0, ""),
        ("@3 bpbackup client=a", 0, "a_3", b""),
    ],
    "the capacity stays where it is not given": [
        ("unit change name=disk0 capacity=1000", 0, ""),
        ("unit change name=disk0 high=8 low=4", 0, ""),
        ("@1 bpbackup client=a", 10, "disk0 full: 0 + 1001 of 1000", b"x" * 1001),
        ("@1 bpbackup client=a", 0, "a_1", X80),
        ("@2 bpbackup client=a", 9, "disk0 above high: 80 of 1000", b"x"),
    ],
    "a mark between two bytes is reached by the next one": [
        ("unit change name=disk0 capacity=3 high=67 low=0", 0, ""),
        ("@1 bpbackup client=a", 0, "a_1", b"xy"),
        ("@2 bpbackup client=a", 0, "a_2", b""),
        ("unit change name=disk0 high=66 low=0", 0, ""),
        ("@3 bpbackup client=a", 9, "disk0 above high: 2 of 3", b""),
    ],
    "a capacity may fall below what is stored": [
        ("@1 bpbackup client=a", 0, "a_1", X80),
        ("unit change name=disk0 capacity=10", 0, ""),
        ("@2 bpbackup client=a", 9, "disk0 above high: 80 of 10", b"x"),
        ("bprestore id=a_1", 0, X80),
    ],
}

POLICIES = {
    "a policy is added once, on a lifecycle that is there": [
        ("bppolicynew add policy=p type=raw lifecycle=gold", 4, "gold unknown"),
        ("bppolicynew add policy=p type=raw lifecycle=basic", 0, ""),
        ("bppolicynew add policy=p type=raw lifecycle=basic", 3, "p exists"),
        ("bppolicynew add policy=p type=raw lifecycle=gold", 3, "p exists"),
        ("bppolicynew add policy=adhoc type=raw lifecycle=basic", 3, "adhoc exists"),
    ],
    "a policy is changed to a lifecycle that is there": [
        ("bppolicynew change policy=p active=no", 4, "p unknown"),
        ("bppolicynew change policy=p lifecycle=gold", 4, "p unknown"),
        ("bppolicynew change policy=adhoc lifecycle=basic", 0, ""),
        ("bppolicynew change policy=adhoc active=no lifecycle=gold", 4, "gold unknown"),
        ("@5 bpbackup client=a", 0, "a_5", b"x"),
        ("bppolicynew change policy=adhoc active=no lifecycle=basic", 0, ""),
        ("@6 bpbackup client=a", 7, "adhoc inactive", b"x"),
        ("bppolicynew change policy=adhoc", 0, ""),
        ("@6 bpbackup client=a", 7, "adhoc inactive", b"x"),
        ("bppolicynew change policy=adhoc active=yes", 0, ""),
        ("@6 bpbackup client=a", 0, "a_6", b"x"),
    ],
    "a policy that is not adhoc and has no image is removed": [
        ("bppolicynew remove policy=p", 4, "p unknown"),
        ("bppolicynew remove policy=adhoc", 5, "adhoc in use by desk"),
        ("@5 bpbackup client=a", 0, "a_5", b"x"),
        ("bppolicynew remove policy=adhoc", 5, "adhoc in use by desk"),
        *OFFICE[2:3],
        ("bppolicynew remove policy=p", 0, ""),
        ("bppolicynew remove policy=p", 4, "p unknown"),
    ],
    "a policy is removed with its list, its selections and its schedules": [
        *OFFICE,
        ("bppolicynew select policy=p path=/", 0, ""),
        ("bppolicynew remove policy=p", 0, ""),
        ("client remove name=a", 0, ""),
        ("bppolicynew add policy=p type=raw lifecycle=basic", 0, ""),
        ("bppolicynew client-remove policy=p client=a", 4, "p/a unknown"),
        ("bppolicynew unselect policy=p path=/", 4, "/ unknown"),
        ("bpplsched remove policy=p schedule=s", 4, "p/s unknown"),
    ],
    "a policy is in use by its first image by client and time": [
        *OFFICE,
        ("client add name=a-1", 0, ""),
        ("bppolicynew client-add policy=p client=a-1", 0, ""),
        ("@3 bpbackup client=a-1 policy=p", 0, "a-1_3", b"x"),
        ("bppolicynew remove policy=p", 5, "p in use by a-1_3"),
        ("@7 bpbackup client=a", 0, "a_7", b"x"),
        ("@9 bpbackup client=a policy=p", 0, "a_9", b"x"),
        ("@10 bpbackup client=a policy=p", 0, "a_10", b"x"),
        ("bppolicynew remove policy=p", 5, "p in use by a_9"),
    ],
    "a client is listed once, where it is there": [
        ("bppolicynew client-add policy=p client=a", 4, "p unknown"),
        ("bppolicynew add policy=p type=raw lifecycle=basic", 0, ""),
        ("bppolicynew client-add policy=p client=a", 4, "a unknown"),
        ("client add name=a", 0, ""),
        ("bppolicynew client-add policy=p client=a", 0, ""),
        ("bppolicynew client-add policy=p client=a", 3, "p/a exists"),
        ("bppolicynew client-add policy=adhoc client=a", 0, ""),
    ],
    "a client is taken off a list on which it is": [
        ("bppolicynew client-remove policy=p client=a", 4, "p unknown"),
        ("bppolicynew client-remove policy=adhoc client=a", 4, "adhoc/a unknown"),
        *OFFICE,
        ("bppolicynew client-remove policy=p client=b", 4, "p/b unknown"),
        ("bppolicynew client-remove policy=p client=a", 0, ""),
        ("bppolicynew client-remove policy=p client=a", 4, "p/a unknown"),
        ("@5 bpbackup client=a policy=p", 4, "p/a unknown", b"x"),
    ],
    "a path is selected once, and named as it was written": [
        ("bppolicynew select policy=p path=/", 4, "p unknown"),
        ("bppolicynew unselect policy=p path=/", 4, "p unknown"),
        ("bppolicynew select policy=adhoc path=/a%20b%25", 0, ""),
        ("bppolicynew select policy=adhoc path=/a%20b%25", 3, "/a%20b%25 exists"),
        ("bppolicynew select policy=adhoc path=/a%20b", 0, ""),
        ("bppolicynew select policy=adhoc path=/a=b", 0, ""),
        ("bppolicynew unselect policy=adhoc path=/%C3%A9", 4, "/%C3%A9 unknown"),
        ("bppolicynew unselect policy=adhoc path=/a%20b%25", 0, ""),
        ("bppolicynew unselect policy=adhoc path=/a%20b%25", 4, "/a%20b%25 unknown"),
        ("bppolicynew unselect policy=adhoc path=/a=b", 0, ""),
        ("bppolicynew select policy=adhoc path=/a%20b", 3, "/a%20b exists"),
    ],
}

SCHEDULES = {
    "a schedule is added once, and is full under a raw policy": [
        ("bpplsched add policy=q schedule=x kind=diff frequency=1 windows=none", 4, "q unknown"),
        ("bpplsched add policy=adhoc schedule=x kind=diff frequency=1 windows=none", 6, "rule 8 broken"),
        ("bpplsched add policy=adhoc schedule=x kind=cumul calendar=mL windows=none", 6, "rule 8 broken"),
        ("bpplsched add policy=adhoc schedule=x kind=full frequency=1 windows=none", 0, ""),
        ("bpplsched add policy=adhoc schedule=x kind=full frequency=1 windows=none", 3, "adhoc/x exists"),
        ("bpplsched add policy=adhoc schedule=manual kind=diff frequency=1 windows=none", 3, "adhoc/manual exists"),
    ],
    "a schedule that is there is changed, and stays full": [
        ("bpplsched change policy=q schedule=x kind=diff frequency=1 windows=none", 4, "q unknown"),
        ("bpplsched change policy=adhoc schedule=x kind=diff frequency=1 windows=none", 4, "adhoc/x unknown"),
        ("bpplsched change policy=adhoc schedule=manual kind=diff frequency=1 windows=none", 6, "rule 8 broken"),
        ("@5 bpbackup client=a start=scheduled", 8, "manual window closed", b"x"),
        ("bpplsched change policy=adhoc schedule=manual kind=full calendar=mL+x2024-01-31 windows=always", 0, ""),
        ("@5 bpbackup client=a start=scheduled", 0, "a_5", b"x"),
    ],
    "a schedule is removed, and none may be left": [
        ("bpplsched remove policy=q schedule=x", 4, "q unknown"),
        ("bpplsched remove policy=adhoc schedule=x", 4, "adhoc/x unknown"),
        ("bpplsched remove policy=adhoc schedule=manual", 0, ""),
        ("bpplsched remove policy=adhoc schedule=manual", 4, "adhoc/manual unknown"),
        ("@5 bpbackup client=a", 4, "adhoc/- unknown", b"x"),
        ("@5 bpbackup client=a schedule=manual", 4, "adhoc/manual unknown", b"x"),
        ("bpplsched add policy=adhoc schedule=x kind=full frequency=1 windows=none", 0, ""),
        ("@5 bpbackup client=a", 0, "a_5", b"x"),
    ],
}

BACKUPS = {
    "the first requests": [
        ("@1 bpbackup client=a policy=adhoc start=scheduled", 8, "manual window closed", b"x"),
        ("bppolicynew change policy=adhoc active=no", 0, ""),
        ("@1 bpbackup client=a policy=adhoc start=scheduled", 7, "adhoc inactive", b"x"),
        ("@1 bpbackup client=a policy=adhoc start=manual", 7, "adhoc inactive", b"x"),
    ],
    # Each row that is done takes away the refusal above it, and the next one comes to light.
    "the refusals of a backup in their order": [
        ("unit change name=disk0 capacity=100 high=80 low=40", 0, ""),
        ("@1 bpbackup client=z", 0, "z_1", X80),
        ("@1 bpbackup client=a policy=p schedule=s start=scheduled", 4, "p unknown", X101),
        ("bppolicynew add policy=p type=raw lifecycle=basic", 0, ""),
        ("bppolicynew change policy=p active=no", 0, ""),
        ("@1 bpbackup client=a policy=p schedule=s start=scheduled", 4, "a unknown", X101),
        ("unit change name=disk0 capacity=1000 high=98 low=1", 0, ""),
        (f"@{LATEST} bpbackup client=a", 0, f"a_{LATEST}", b""),
        ("unit change name=disk0 capacity=100 high=80 low=40", 0, ""),
        ("@1 bpbackup client=a policy=p schedule=s start=scheduled", 4, "p/a unknown", X101),
        ("bppolicynew client-add policy=p client=a", 0, ""),
        ("@1 bpbackup client=a policy=p start=scheduled", 4, "p/- unknown", X101),
        ("@1 bpbackup client=a policy=p schedule=s start=scheduled", 4, "p/s unknown", X101),
        ("bpplsched add policy=p schedule=s kind=full frequency=1 windows=none", 0, ""),
        ("@1 bpbackup client=a policy=p schedule=s start=scheduled", 7, "p inactive", X101),
        ("bppolicynew change policy=p active=yes", 0, ""),
        ("@1 bpbackup client=a policy=p schedule=s start=scheduled", 8, "s window closed", X101),
        ("@1 bpbackup client=a policy=p schedule=s start=manual", 9, "disk0 above high: 80 of 100", X101),
        ("bpplsched change policy=p schedule=s kind=full frequency=1 windows=always", 0, ""),
        ("@1 bpbackup client=a policy=p schedule=s start=scheduled", 9, "disk0 above high: 80 of 100", X101),
        ("unit change name=disk0 high=81 low=40", 0, ""),
        ("@1 bpbackup client=a policy=p schedule=s start=scheduled", 15, END_OF_TIME, X101),
        ("bppolicynew client-add policy=p client=z", 0, ""),
        ("@1 bpbackup client=z policy=p schedule=s start=scheduled", 10, "disk0 full: 80 + 101 of 100", X101),
        ("@1 bpbackup client=z policy=p schedule=s start=scheduled", 0, "z_2", b"x" * 20),
    ],
    "under adhoc a client need not be there, nor be listed": [
        ("@5 bpbackup client=a schedule=x", 4, "adhoc/x unknown", b"x"),
        ("client remove name=a", 4, "a unknown"),
        ("client add name=b", 0, ""),
        ("bppolicynew client-add policy=adhoc client=b", 0, ""),
        ("@5 bpbackup client=a", 0, "a_5", b"x"),
        ("@5 bpbackup client=b policy=adhoc", 0, "b_5", b"x"),
    ],
    "another policy takes the clients of its list alone": [
        *OFFICE,
        ("@5 bpbackup client=nobody policy=p", 4, "nobody unknown", b"x"),
        ("@5 bpbackup client=b policy=p", 4, "p/b unknown", b"x"),
        ("@5 bpbackup client=a policy=P", 4, "P unknown", b"x"),
        ("@5 bpbackup client=a policy=p schedule=x", 4, "p/x unknown", b"x"),
        ("@5 bpbackup client=a policy=p", 0, "a_5", b"x"),
        ("bprestore id=a_5", 0, b"x"),
    ],
    "the default schedule is the first by name": [
        *OFFICE,
        ("bpplsched change policy=p schedule=S kind=full calendar=mL windows=none", 0, ""),
        ("@5 bpbackup client=a policy=p start=scheduled", 8, "S window closed", b"x"),
        ("bpplsched add policy=p schedule=0 kind=full frequency=1 windows=none", 0, ""),
        ("@5 bpbackup client=a policy=p start=scheduled", 8, "0 window closed", b"x"),
        ("bpplsched add policy=p schedule=z kind=full frequency=1 windows=none", 0, ""),
        ("@5 bpbackup client=a policy=p start=scheduled", 8, "0 window closed", b"x"),
        ("bpplsched remove policy=p schedule=0", 0, ""),
        ("bpplsched remove policy=p schedule=S", 0, ""),
        ("@5 bpbackup client=a policy=p start=scheduled", 8, "s window closed", b"x"),
        ("bpplsched remove policy=p schedule=s", 0, ""),
        ("bpplsched remove policy=p schedule=z", 0, ""),
        ("@5 bpbackup client=a policy=p start=scheduled", 4, "p/- unknown", b"x"),
    ],
    "a manual start looks at no window": [
        *OFFICE,
        ("@5 bpbackup client=a policy=p schedule=s", 0, "a_5", b"x"),
        ("@5 bpbackup client=a policy=p schedule=s start=manual", 0, "a_6", b"x"),
        ("@5 bpbackup client=a policy=p schedule=s start=scheduled", 8, "s window closed", b"x"),
    ],
    "what is due is not looked at": [
        *OFFICE,
        ("bpplsched change policy=p schedule=s kind=full frequency=3153600000 windows=always", 0, ""),
        ("bpplsched change policy=p schedule=S kind=full calendar=d2024-02-29 windows=always", 0, ""),
        ("@5 bpbackup client=a policy=p schedule=s start=scheduled", 0, "a_5", b"x"),
        ("@5 bpbackup client=a policy=p schedule=s start=scheduled", 0, "a_6", b"x"),
        ("@5 bpbackup client=a policy=p schedule=S start=scheduled", 0, "a_7", b"x"),
    ],
}


# One vault from its first backup to a policy that has no schedule any more.
A_SITE_IN_TURN = [
    ("@1000 bpbackup client=web", 0, "web_1000", b"hello"),
    ("@1000 bpbackup client=web", 0, "web_1001", b"hello"),
    ("bprestore id=web_1001", 0, b"hello"),
    ("@1000 bpbackup client=db", 0, "db_1000", b"hello"),
    ("bprestore id=db_1000 copy=1", 0, b"hello"),
    ("@7 bprestore copy=1 id=db_1000", 0, b"hello"),
    ("bprestore id=db_1000 copy=2", 4, "db_1000/2 unknown"),
    ("bprestore id=web_1002", 4, "web_1002 unknown"),
    ("@5 bpbackup client=web", 0, "web_1002", b"hello"),
    ("@250000000000 bpbackup client=a", 0, "a_250000000000", b"hello"),
    ("@250000000000 bpbackup client=a", 15, END_OF_TIME, b"hello"),
    ("@0 bpbackup client=db", 0, "db_1001", b"hello"),
    ("@2000 bpbackup client=web", 0, "web_2000", b"hello"),
    ("client add name=web", 3, "web exists"),
    ("client add name=mail", 0, ""),
    ("unit add name=vault1 capacity=1000 high=50 low=40", 0, ""),
    ("unit change name=vault2 slots=7", 4, "vault2 unknown"),
    ("bppolicynew add policy=office type=raw lifecycle=basic", 0, ""),
    ("bppolicynew client-add policy=office client=mail", 0, ""),
    ("bppolicynew client-add policy=office client=mail", 3, "office/mail exists"),
    ("bpplsched add policy=office schedule=weekly kind=full frequency=604800 windows=thu/22:00:00/14400", 0, ""),
    ("bpplsched change policy=office schedule=weekly kind=cumul calendar=wLfri+x2027-12-31 windows=always", 6, "rule 8 broken"),
    ("@75600 bpbackup client=mail policy=office start=scheduled", 8, "weekly window closed", b"hello"),
    ("bpzone set rule=CET-1CEST,M3.5.0,M10.5.0/3", 0, ""),
    ("@79200 bpbackup client=mail policy=office start=scheduled", 0, "mail_79200", b"hello"),
    ("@75600 bpbackup client=mail policy=office start=scheduled", 0, "mail_79201", b"hello"),
    ("@75600 bpbackup client=web policy=office", 4, "office/web unknown", b"hello"),
    ("bpbackup client=mail policy=office schedule=daily", 4, "office/daily unknown", b"hello"),
    ("client remove name=mail", 5, "mail in use by policy office"),
    ("bppolicynew remove policy=office", 5, "office in use by mail_79200"),
    ("bppolicynew change policy=adhoc active=no", 0, ""),
    ("bpbackup client=new", 7, "adhoc inactive", b"hello"),
    ("bppolicynew select policy=office path=/home%20one", 0, ""),
    ("bppolicynew unselect policy=office path=/home", 4, "/home unknown"),
    ("bpplsched remove policy=office schedule=weekly", 0, ""),
    ("bpbackup client=mail policy=office", 4, "office/- unknown", b"hello"),
]


class Rows(RowsTest):
    def run_tables(self, tables):
        for name, rows in tables.items():
            with self.subTest(name):
                self.run_rows(rows)

    def test_clients(self):
        self.run_tables(CLIENTS)

    def test_units(self):
        self.run_tables(UNITS)

    def test_policies(self):
        self.run_tables(POLICIES)

    def test_schedules(self):
        self.run_tables(SCHEDULES)

    def test_backups(self):
        self.run_tables(BACKUPS)

    def test_a_site_in_turn(self):
        self.run_rows(A_SITE_IN_TURN)

    def test_an_image_keeps_its_policy_and_schedule(self):
        records = self.run_rows(
            [
                *OFFICE,
                ("@5 bpbackup client=a policy=p", 0, "a_5", b"x"),
                ("@6 bpbackup client=a policy=p schedule=s", 0, "a_6", b"y"),
                ("@7 bpbackup client=a", 0, "a_7", b"z"),
            ]
        )
        self.assertEqual(
            records[len(OFFICE) :],
            [
                vault.Image(b"a", 5, b"x", 5, b"p", b"S"),
                vault.Image(b"a", 6, b"y", 6, b"p", b"s"),
                vault.Image(b"a", 7, b"z", 7),
            ],
        )

    def test_the_earliest_image_of_a_client_is_that_of_the_lowest_time(self):
        self.desk.put(vault.files(vault.Image(b"a", 10, b"x", 10), vault.Image(b"a", 5, b"y", 5), vault.Image(b"a", 7, b"z", 7)))
        self.check_quiet(self.desk.run("client remove name=a"), 5, b"a in use by a_5\n")

    def test_no_input_is_read(self):
        """No request of the site but a load takes a payload, so what a script has on its standard input stays there."""
        path = self.desk.file().parent.parent / "input"
        path.write_bytes(b"left alone")
        for words, status in (("client add name=a", 0), ("client add name=a", 3), ("bpzone set offset=+01:00", 0), ("client remove name=b", 4)):
            with self.subTest(words=words), path.open("rb", buffering=0) as source:
                self.assertEqual(self.desk.run(words, payload=None, stdin=source).status, status)
                self.assertEqual(source.tell(), 0, "input was read")
