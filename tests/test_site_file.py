"""`bpload`: a site file's requests, all of them or none, and what is no site file."""

import os

import desk
import vault
from desk import DeskTest, frame
from rows import RowsTest, line_of

OFFICE = b"""\
[zone]
rule = "CET-1CEST,M3.5.0,M10.5.0/3"

[[unit]]
name = "vault1"
capacity = 500000000000

[[client]]
name = "mail"

[[client]]
name = "files"

[[policy]]
policy = "office"
type = "raw"
lifecycle = "basic"
clients = ["mail", "files"]
selections = ["/home", "/a b%"]

[[policy.schedule]]
schedule = "weekly"
kind = "full"
frequency = 604800
windows = "fri/20:00:00/36000"

[[policy.schedule]]
schedule = "yearly"
kind = "full"
calendar = "d2024-12-31+mL"
windows = "always"
"""
OFFICE_LINES = [
    "bpzone set rule=CET-1CEST,M3.5.0,M10.5.0/3",
    "unit add name=vault1 capacity=500000000000",
    "client add name=mail",
    "client add name=files",
    "bppolicynew add policy=office type=raw lifecycle=basic",
    "bppolicynew client-add policy=office client=mail",
    "bppolicynew client-add policy=office client=files",
    "bppolicynew select policy=office path=/home",
    "bppolicynew select policy=office path=/a%20b%25",
    "bpplsched add policy=office schedule=weekly kind=full frequency=604800 windows=fri/20:00:00/36000",
    "bpplsched add policy=office schedule=yearly kind=full calendar=d2024-12-31+mL windows=always",
]

# The head of a policy's table, and one with the head of a schedule's.
POLICY = b'[[policy]]\npolicy = "p"\ntype = "raw"\nlifecycle = "basic"\n'
SCHEDULE = POLICY + b"[[policy.schedule]]\n"

# Files, and the lines of their requests.
GOOD = {
    "an office": (OFFICE, OFFICE_LINES),
    "keys and parts in another order": (
        b'[[policy]]\nselections = ["/"]\nlifecycle = "basic"\nclients = ["a"]\ntype = "raw"\npolicy = "p"\n'
        b'[[policy.schedule]]\nwindows = "none"\nfrequency = 1\nkind = "full"\nschedule = "s"\n'
        b'[[client]]\nname = "a"\n[[unit]]\nlow = 1\nhigh = 2\nslots = 3\nfragment = 4\nsegment = 16\ncapacity = 5\nname = "t"\n[zone]\noffset = "-02:30"\n',
        [
            "bpzone set offset=-02:30",
            "unit add name=t capacity=5 segment=16 fragment=4 slots=3 high=2 low=1",
            "client add name=a",
            "bppolicynew add policy=p type=raw lifecycle=basic",
            "bppolicynew client-add policy=p client=a",
            "bppolicynew select policy=p path=/",
            "bpplsched add policy=p schedule=s kind=full frequency=1 windows=none",
        ],
    ),
    "each policy with its parts, before the next": (
        SCHEDULE + b'schedule = "s"\nkind = "full"\nfrequency = 1\nwindows = "none"\n' + POLICY.replace(b'"p"', b'"o"') + b'selections = ["/"]\n',
        [
            "bppolicynew add policy=p type=raw lifecycle=basic",
            "bpplsched add policy=p schedule=s kind=full frequency=1 windows=none",
            "bppolicynew add policy=o type=raw lifecycle=basic",
            "bppolicynew select policy=o path=/",
        ],
    ),
    "strings and integers": (
        b'[[unit]]\nname = "7"\ncapacity = "100"\nhigh = "81"\n[[client]]\nname = 5\n[[client]]\nname = \'q\'\n',
        ["unit add name=7 capacity=100 high=81", "client add name=5", "client add name=q"],
    ),
    "other spellings of TOML": (
        b'# a comment\r\nclient = [{name = "a"}, {name = "\\u0062"}]\r\nzone.offset = "+01:00"\r\n',
        ["bpzone set offset=+01:00", "client add name=a", "client add name=b"],
    ),
    "paths as they are": (
        POLICY + 'selections = ["/caf\u00e9", "/%41", "/\\t\\u0001", "/=", \'/"\\\']\n'.encode(),
        [
            "bppolicynew add policy=p type=raw lifecycle=basic",
            "bppolicynew select policy=p path=/caf%C3%A9",
            "bppolicynew select policy=p path=/%2541",
            "bppolicynew select policy=p path=/%09%01",
            "bppolicynew select policy=p path=/=",
            "bppolicynew select policy=p path=/\"\\",
        ],
    ),
    "a policy of files, with a schedule of each kind": (
        POLICY.replace(b"raw", b"files") + b"".join(b'[[policy.schedule]]\nschedule = "%s"\nkind = "%s"\nfrequency = 1\nwindows = "none"\n' % (kind, kind) for kind in (b"full", b"diff", b"cumul")),
        ["bppolicynew add policy=p type=files lifecycle=basic", *(f"bpplsched add policy=p schedule={kind} kind={kind} frequency=1 windows=none" for kind in ("full", "diff", "cumul"))],
    ),
    "empty lists": (POLICY + b"clients = []\nselections = []\nschedule = []\n", ["bppolicynew add policy=p type=raw lifecycle=basic"]),
}

# Files that are no site files.
BAD = {
    "no TOML": b"client add name=a\n",
    "half of a table": b'[[client]]\nname = "a"\n[[clie',
    "a string without its end": b'[[client]]\nname = "a\n',
    "an image": b"hello",
    "not UTF-8": b'[[client]]\nname = "a"\n# \xff\n',
    "a zero byte": b'[[client]]\nname = "a"\n\0',
    "a table twice": b'[zone]\nrule = "UTC0"\n[zone]\nrule = "UTC0"\n',
    "a key twice": b'[[client]]\nname = "a"\nname = "a"\n',
    # Keys.
    "an unknown part": b'[[client]]\nname = "a"\n[[job]]\nname = "j"\n',
    "an unknown key at the top": b'title = "site"\n[[client]]\nname = "a"\n',
    "a part in capitals": b'[[Client]]\nname = "a"\n',
    "an unknown key of a client": b'[[client]]\nname = "a"\nlast = 0\n',
    "an unknown key of a unit": b'[[unit]]\nname = "t"\ncapacity = 1\nnumber = 1\n',
    "an unknown key of the zone": b'[zone]\nrule = "UTC0"\nname = "UTC"\n',
    "an unknown key of a policy": POLICY + b'active = "no"\n',
    "an unknown key of a schedule": SCHEDULE + b'schedule = "s"\nkind = "full"\nfrequency = 1\nwindows = "none"\nstart = "manual"\n',
    "a schedule's policy": SCHEDULE + b'policy = "p"\nschedule = "s"\nkind = "full"\nfrequency = 1\nwindows = "none"\n',
    "a part of another form": b'[[unit]]\nname = "t"\ncapacity = 1\nclients = []\n',
    # Keys that are missing, and such that don't go together.
    "a client without a name": b"[[client]]\n",
    "a unit without a capacity": b'[[unit]]\nname = "t"\n',
    "an empty zone": b"[zone]\n",
    "a rule and an offset": b'[zone]\nrule = "UTC0"\noffset = "+00:00"\n',
    "a policy without a name": b'[[policy]]\ntype = "raw"\nlifecycle = "basic"\n',
    "a policy without a lifecycle": b'[[policy]]\npolicy = "p"\ntype = "raw"\n',
    "a schedule without windows": SCHEDULE + b'schedule = "s"\nkind = "full"\nfrequency = 1\n',
    "a schedule without a frequency or a calendar": SCHEDULE + b'schedule = "s"\nkind = "full"\nwindows = "none"\n',
    "a schedule with both": SCHEDULE + b'schedule = "s"\nkind = "full"\nfrequency = 1\ncalendar = "mL"\nwindows = "none"\n',
    "marks that are not one below the other": b'[[unit]]\nname = "t"\ncapacity = 1\nhigh = 80\n',
    # Shapes.
    "a client that is no array": b'[client]\nname = "a"\n',
    "a client that is a string": b'client = ["a"]\n',
    "clients that are a string": b'client = "a"\n',
    "a zone that is an array": b'[[zone]]\nrule = "UTC0"\n',
    "a zone that is a string": b'zone = "UTC0"\n',
    "a list of clients that is a string": POLICY + b'clients = "a"\n',
    "a list of clients with an array": POLICY + b'clients = [["a"]]\n',
    "selections that are a table": POLICY + b'selections = { path = "/" }\n',
    "a schedule that is no array": POLICY + b'[policy.schedule]\nschedule = "s"\nkind = "full"\nfrequency = 1\nwindows = "none"\n',
    "windows that are an array": SCHEDULE + b'schedule = "s"\nkind = "full"\nfrequency = 1\nwindows = ["always"]\n',
    "a name that is a truth value": b"[[client]]\nname = true\n",
    "a name that is an array": b'[[client]]\nname = ["a"]\n',
    "a capacity that is a float": b'[[unit]]\nname = "t"\ncapacity = 1.0\n',
    "a name that is a date": b"[[client]]\nname = 2024-01-01\n",
    # Values.
    "an empty name": b'[[client]]\nname = ""\n',
    "a name with a slash": b'[[client]]\nname = "a"\n[[client]]\nname = "a/b"\n',
    "a name with a space": b'[[client]]\nname = "a b"\n',
    "a name of two words": b'[[client]]\nname = "a\\nclient add name=b"\n',
    "a name of 65 bytes": b'[[client]]\nname = "%s"\n' % (b"n" * 65),
    "a capacity of 0": b'[[unit]]\nname = "t"\ncapacity = 0\n',
    "a capacity below 0": b'[[unit]]\nname = "t"\ncapacity = -1\n',
    "a capacity that is too great": b'[[unit]]\nname = "t"\ncapacity = 1125899906842625\n',
    "a capacity with a leading zero": b'[[unit]]\nname = "t"\ncapacity = "01"\n',
    "a segment of 15": b'[[unit]]\nname = "t"\ncapacity = 1\nsegment = 15\n',
    "an unknown type": POLICY.replace(b"raw", b"tape"),
    "an unknown kind": SCHEDULE + b'schedule = "s"\nkind = "incr"\nfrequency = 1\nwindows = "none"\n',
    "a frequency of 0": SCHEDULE + b'schedule = "s"\nkind = "full"\nfrequency = 0\nwindows = "none"\n',
    "a calendar without such a day": SCHEDULE + b'schedule = "s"\nkind = "full"\ncalendar = "d2023-02-29"\nwindows = "none"\n',
    "windows after midnight": SCHEDULE + b'schedule = "s"\nkind = "full"\nfrequency = 1\nwindows = "fri/24:00:00/1"\n',
    "a rule that is none": b'[zone]\nrule = "Europe/Zurich"\n',
    "an offset that is none": b'[zone]\noffset = "-00:00"\n',
    "a client of a list that is no name": POLICY + b'clients = ["a/b"]\n',
    "a path without its slash": POLICY + b'selections = ["home"]\n',
    "an empty path": POLICY + b'selections = [""]\n',
    "a path with a line feed": POLICY + b'selections = ["/a\\nb"]\n',
    "a path with a zero byte": POLICY + b'selections = ["/\\u0000"]\n',
    "a path of 1,025 bytes": POLICY + b'selections = ["/%s"]\n' % (b"a" * 1024),
    # The lifecycles come with a later request.
    "a lifecycle": b'[[lifecycle]]\nname = "gold"\nops = ["backup,-,disk0,infinite,always"]\n',
    "no lifecycles": b"lifecycle = []\n",
}

# Site files that are refused: the first refusal in the order of the requests, and not of the file.
REFUSED = {
    "a client twice": (b'[[client]]\nname = "a"\n[[client]]\nname = "b"\n[[client]]\nname = "a"\n', 3, "a exists"),
    "a unit of a new vault": (b'[[client]]\nname = "a"\n[[unit]]\nname = "disk0"\ncapacity = 1\n', 3, "disk0 exists"),
    "a policy twice": (POLICY + POLICY, 3, "p exists"),
    "the policy of a new vault": (b'[[client]]\nname = "a"\n' + POLICY.replace(b'"p"', b'"adhoc"'), 3, "adhoc exists"),
    "a client of a list that is not there": (b'[[client]]\nname = "a"\n' + POLICY + b'clients = ["a", "b"]\n', 4, "b unknown"),
    "a client twice on a list": (b'[[client]]\nname = "a"\n' + POLICY + b'clients = ["a", "a"]\n', 3, "p/a exists"),
    "a lifecycle that is not there": (POLICY.replace(b"basic", b"gold"), 4, "gold unknown"),
    "a path twice": (POLICY + b'selections = ["/a b", "/a b"]\n', 3, "/a%20b exists"),
    "a schedule twice": (POLICY + 2 * b'[[policy.schedule]]\nschedule = "s"\nkind = "full"\nfrequency = 1\nwindows = "none"\n', 3, "p/s exists"),
    "a schedule of a raw policy that is not full": (SCHEDULE + b'schedule = "s"\nkind = "diff"\nfrequency = 1\nwindows = "none"\n', 6, "rule 8 broken"),
    "units come before clients": (b'[[client]]\nname = "a"\n[[client]]\nname = "a"\n[[unit]]\nname = "disk0"\ncapacity = 1\n', 3, "disk0 exists"),
    "clients come before policies": (POLICY.replace(b"basic", b"gold") + b'[[client]]\nname = "a"\n[[client]]\nname = "a"\n', 3, "a exists"),
    "a policy's parts come before the next policy": (POLICY + b'clients = ["b"]\n' + POLICY, 4, "b unknown"),
    "a policy's clients come before its selections": (POLICY + b'selections = ["/", "/"]\nclients = ["b"]\n', 4, "b unknown"),
}


class Loads(RowsTest):
    def test_a_file_gives_the_number_of_its_requests(self):
        """They stand in the vault as one record, in their order."""
        for name, (file, lines) in GOOD.items():
            with self.subTest(name):
                records = self.run_rows([("bpload", 0, str(len(lines)), file)])
                self.assertEqual(records, [vault.settings(*(line.encode() for line in lines))])

    def test_a_file_of_nothing(self):
        for file in (b"", b"\n", b"# nothing yet\n", b"client = []\nunit = []\npolicy = []\n"):
            with self.subTest(file=file):
                one = self.new_desk()
                self.check_quiet(one.run("bpload", payload=file), 0, b"0\n")
                self.check_quiet(one.run("session", payload=line_of("bpload", file)), 0, frame(0, b"0\n"))
                self.check_quiet(one.run("client add name=a"), 0, b"")

    def test_what_was_loaded_is_there(self):
        backup = "bpbackup client=mail policy=office schedule=weekly start=scheduled"
        self.run_rows(
            [
                ("bpload", 0, "11", OFFICE),
                ("unit add name=vault1 capacity=1", 3, "vault1 exists"),
                ("client add name=mail", 3, "mail exists"),
                ("client remove name=files", 5, "files in use by policy office"),
                ("bppolicynew select policy=office path=/a%20b%25", 3, "/a%20b%25 exists"),
                ("bpplsched add policy=office schedule=yearly kind=full frequency=1 windows=none", 3, "office/yearly exists"),
                # Friday 2024-07-05, 20:00 in summer.
                (f"@1720202399 {backup}", 8, "weekly window closed", b"x"),
                (f"@1720202400 {backup}", 0, "mail_1720202400", b"x"),
                # A site file is loaded once.
                ("bpload", 3, "vault1 exists", OFFICE),
            ]
        )

    def test_what_is_no_site_file_is_refused_and_changes_nothing(self):
        for name, file in BAD.items():
            with self.subTest(name):
                one = self.new_desk()
                rows = [("bpload", 2, "bad request at 1", file), ("@5 bpload", 2, "bad request at 1", file), ("@5 bpload", 2, "bad request at 1", OFFICE + b"\n" + file)]
                self.run_alone(one, rows)
                self.run_session(one, rows)
                self.assertEqual(one.bytes(), vault.EMPTY)

    def test_a_refusal_changes_nothing(self):
        for name, (file, status, body) in REFUSED.items():
            with self.subTest(name):
                self.run_rows([("client add name=z", 0, ""), ("bpload", status, body, file), ("@5 bpload", status, body, file), ("client add name=z", 3, "z exists")])

    def test_neither_client_is_there_where_one_stands_twice(self):
        self.run_rows(
            [
                ("bpload", 3, "a exists", b'[[client]]\nname = "b"\n[[client]]\nname = "a"\n[[client]]\nname = "a"\n'),
                ("client remove name=a", 4, "a unknown"),
                ("client remove name=b", 4, "b unknown"),
            ]
        )

    def test_the_zone_of_a_refused_load_is_not_set(self):
        file = b'[zone]\noffset = "+01:00"\n[[unit]]\nname = "disk0"\ncapacity = 1\n'
        self.run_rows(
            [
                ("bpplsched add policy=adhoc schedule=s kind=full frequency=1 windows=thu/01:00:00/60", 0, ""),
                ("bpload", 3, "disk0 exists", file),
                ("@0 bpbackup client=a schedule=s start=scheduled", 8, "s window closed", b"x"),
                ("@3600 bpbackup client=a schedule=s start=scheduled", 0, "a_3600", b"x"),
            ]
        )

    def test_a_load_onto_what_is_there(self):
        file = b'[[client]]\nname = "b"\n' + POLICY + b'clients = ["a", "b", "c"]\n'
        self.run_rows(
            [
                ("client add name=a", 0, ""),
                ("@5 bpbackup client=c", 0, "c_5", b"x"),
                ("bpload", 0, "5", file),
                ("bppolicynew client-add policy=p client=c", 3, "p/c exists"),
                ("bpload", 3, "b exists", file),
                ("client remove name=a", 5, "a in use by policy p"),
            ]
        )


class Inputs(DeskTest):
    def test_an_input_that_is_a_folder(self):
        source = os.open(self.top, os.O_RDONLY)
        try:
            self.check(self.desk.run("bpload", payload=None, stdin=source), 19, b"read fault\n")
        finally:
            os.close(source)
        self.assertEqual(vault.read(self.desk.files()), [])

    def test_a_session_s_input_that_ends_inside_a_file(self):
        text = b"bpload payload=%d\n%s" % (len(OFFICE) + 1, OFFICE)
        self.check_quiet(self.desk.run("session", payload=text), 2, frame(2, b"bad request at 1\n"))
        self.assertEqual(self.desk.bytes(), vault.EMPTY)

    def test_a_payload_that_is_too_long(self):
        self.check_quiet(self.desk.run("bpload", payload=b"#" * (desk.LONGEST + 1)), 15, b"too many bytes: 67108865 of 67108864\n")
        self.assertEqual(vault.read(self.desk.files()), [])

    def test_words_behind_it(self):
        """They are bad before any input is read."""
        for words, index in (("bpload site.toml", 1), ("bpload file=site.toml", 1), ("@5 bpload payload=5", 2)):
            with self.subTest(words=words):
                self.check(self.desk.run(words, payload=OFFICE), 2, b"bad request at %d\n" % index)
        self.assertFalse(self.desk.exists())
