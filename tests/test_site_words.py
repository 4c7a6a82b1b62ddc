"""Words that are no request of the site, and values at the edges of their grammars."""

import vault
from desk import frame
from rows import RowsTest, line_of, replies_of

NAME_OF_64 = "n" * 64
NAMES = (["b", "0", "-", "..", "a_1", "A-z.0_9", NAME_OF_64], ["", "a/b", "a:b", "a+b", "a,b", "a=b", "a%20b", "caf\u00e9", f"{NAME_OF_64}n"])

# Words, and the index of the first bad one.
BAD = [
    # The second word is missing, or names no form.
    ("unit", 1),
    ("client", 1),
    ("bppolicynew", 1),
    ("bpplsched", 1),
    ("bpzone", 1),
    ("client ", 1),
    ("unit remove name=t", 1),
    ("unit name=t capacity=1", 1),
    ("unit Add name=t capacity=1", 1),
    ("client change name=a", 1),
    ("client name=a", 1),
    ("client  add name=a", 1),
    ("bppolicynew list policy=p", 1),
    ("bppolicynew clientadd policy=p client=a", 1),
    ("bppolicynew client add policy=p client=a", 1),
    ("bpplsched select policy=p path=/", 1),
    ("bpzone get", 1),
    ("bpzone offset=+00:00", 1),
    ("client rename name=a", 1),
    # The first names none.
    ("units add name=t capacity=1", 0),
    ("Client add name=a", 0),
    ("clientadd name=a", 0),
    ("name=a client add", 0),
    ("add client name=a", 0),
    # A word that is no key with a value.
    ("client add a", 2),
    ("client add name", 2),
    ("client add =a", 2),
    ("client add name=a ", 3),
    ("client add name=a b", 3),
    ("client add Name=a", 2),
    ("client add name:a", 2),
    ("unit add name=t capacity", 3),
    ("bpzone set offset", 2),
    # A key that the form doesn't have.
    ("client add client=a", 2),
    ("client add name=a capacity=1", 3),
    ("client remove name=a policy=p", 3),
    ("unit add name=t capacity=1 number=1", 4),
    ("unit change name=t segment=16", 3),
    ("unit change name=t fragment=1", 3),
    ("bppolicynew add policy=p type=raw lifecycle=basic active=yes", 5),
    ("bppolicynew add name=p type=raw lifecycle=basic", 2),
    ("bppolicynew change policy=p type=raw", 3),
    ("bppolicynew remove policy=p active=no", 3),
    ("bppolicynew client-add policy=p name=a", 3),
    ("bppolicynew client-remove policy=p client=a schedule=s", 4),
    ("bppolicynew select policy=p selection=/", 3),
    ("bppolicynew unselect policy=p client=a path=/", 3),
    ("bpplsched add policy=p schedule=s kind=full frequency=1 windows=none start=manual", 7),
    ("bpplsched remove policy=p schedule=s kind=full", 4),
    ("bpzone set zone=UTC0", 2),
    ("bpload file=site.toml", 1),
    ("bpload file=a", 1),
    ("bpload payload=5", 1),
    ("bpbackup client=a lifecycle=basic", 2),
    ("bpbackup client=a type=raw", 2),
    # A key twice, with the same value too.
    ("unit add name=t name=t capacity=1", 3),
    ("unit add name=t capacity=1 capacity=2", 4),
    ("unit change name=t slots=1 slots=1", 4),
    ("client add name=a name=a", 3),
    ("client remove name=a name=b", 3),
    ("bppolicynew add policy=p policy=p type=raw lifecycle=basic", 3),
    ("bppolicynew change policy=p active=no active=yes", 4),
    ("bppolicynew select policy=p path=/ path=/", 4),
    ("bpplsched add policy=p schedule=s kind=full frequency=1 frequency=1 windows=none", 6),
    ("bpplsched change policy=p schedule=s kind=full calendar=mL windows=none windows=none", 7),
    ("bpzone set rule=UTC0 rule=UTC0", 3),
    ("bpbackup client=a policy=adhoc policy=adhoc", 3),
    # A key is missing.
    ("unit add", 2),
    ("unit add name=t", 3),
    ("unit add capacity=1", 3),
    ("unit add name=t segment=16 fragment=1 slots=1 high=2 low=1", 8),
    ("unit change", 2),
    ("unit change capacity=1", 3),
    ("client add", 2),
    ("client remove", 2),
    ("bppolicynew add", 2),
    ("bppolicynew add policy=p type=raw", 4),
    ("bppolicynew add policy=p lifecycle=basic", 4),
    ("bppolicynew add type=raw lifecycle=basic", 4),
    ("bppolicynew change", 2),
    ("bppolicynew change active=no", 3),
    ("bppolicynew remove", 2),
    ("bppolicynew client-add policy=p", 3),
    ("bppolicynew client-add client=a", 3),
    ("bppolicynew client-remove policy=p", 3),
    ("bppolicynew select policy=p", 3),
    ("bppolicynew select path=/", 3),
    ("bppolicynew unselect policy=p", 3),
    ("bpplsched add schedule=s kind=full frequency=1 windows=none", 6),
    ("bpplsched add policy=p kind=full frequency=1 windows=none", 6),
    ("bpplsched add policy=p schedule=s frequency=1 windows=none", 6),
    ("bpplsched add policy=p schedule=s kind=full frequency=1", 6),
    ("bpplsched change policy=p schedule=s kind=full calendar=mL", 6),
    ("bpplsched change policy=p schedule=s", 4),
    ("bpplsched remove policy=p", 3),
    ("bpplsched remove schedule=s", 3),
    ("bpbackup policy=adhoc schedule=manual start=manual", 4),
    ("bpbackup policy=adhoc", 2),
    # Both or none of two alternatives.
    ("bpplsched add policy=p schedule=s kind=full windows=none", 6),
    ("bpplsched add policy=p schedule=s kind=full frequency=1 calendar=mL windows=none", 8),
    ("bpplsched change policy=p schedule=s kind=full windows=none", 6),
    ("bpplsched change policy=p schedule=s kind=full calendar=mL frequency=1 windows=none", 8),
    ("bpzone set", 2),
    ("bpzone set rule=UTC0 offset=+00:00", 4),
    # A restore is by an id, or by a client and a policy: the keys of the one don't go with those of the other.
    ("bprestore", 1),
    ("@5 bprestore", 2),
    ("bprestore copy=1", 2),
    ("bprestore before=5", 2),
    ("bprestore client=a", 2),
    ("bprestore policy=p", 2),
    ("bprestore client=a before=5", 3),
    ("bprestore before=5 policy=p", 3),
    ("bprestore id=a_1 client=a", 3),
    ("bprestore id=a_1 policy=p", 3),
    ("bprestore id=a_1 before=5", 3),
    ("bprestore before=5 id=a_1", 3),
    ("bprestore id=a_1 client=a policy=p", 4),
    ("bprestore client=a policy=p copy=1", 4),
    ("bprestore copy=1 client=a policy=p before=5", 5),
    ("bprestore copy=1 before=5", 3),
    ("bprestore id=a_1 copy=1 client=a", 4),
    ("bprestore id=a_1 copy=1 policy=p", 4),
    ("bprestore id=a_1 copy=1 before=5", 4),
    ("bprestore id=a_1 copy=1 client=a policy=p before=5", 6),
    ("@5 bprestore client=a policy=p id=a_1", 5),
    # One mark without the other, and marks that are not one below the other, also by their defaults.
    ("unit change name=t high=80", 4),
    ("unit change name=t low=10", 4),
    ("unit change name=t capacity=1 slots=1 low=10", 6),
    ("unit change name=t high=40 low=40", 5),
    ("unit change name=t high=40 low=41", 5),
    ("unit add name=t capacity=1 high=40 low=40", 6),
    ("unit add name=t capacity=1 high=40 low=41", 6),
    ("unit add name=t capacity=1 high=80", 5),
    ("unit add name=t capacity=1 high=1", 5),
    ("unit add name=t capacity=1 low=98", 5),
    ("unit add name=t capacity=1 low=99", 5),
    # The first bad word is told, and it comes before what is missing.
    ("client add name=a/b name=a", 2),
    ("client add name=a/b frob=1", 2),
    ("client add frob=1 frob=1", 2),
    ("client add name=a name=a frob=1", 3),
    ("client frob name=a/b", 1),
    ("unit add name=t segment=15", 3),
    ("unit add name=t capacity=0 high=1", 3),
    ("unit add high=40 low=40 name=t capacity=1 frob=1", 6),
    ("unit change name=t high=40 low=100", 4),
    ("bpplsched add policy=p schedule=s kind=full frequency=1 calendar=m0 windows=none", 6),
    ("bpzone set rule=UTC0 offset=-00:00", 3),
    ("bppolicynew add policy=p type=tape", 3),
    ("bppolicynew add policy=p type=tape lifecycle=basic", 3),
    ("bprestore id=a_1 client=a/b", 2),
    ("bprestore client=a id=a", 2),
    ("bprestore id=a_1 before=5 frob=1", 3),
    ("bprestore client=a policy=p before=01 copy=1", 3),
    ("bppolicynew select policy=p path=/a%2F", 3),
    ("unit add name=t capacity=1 segment=15", 4),
    ("bpplsched add policy=p schedule=s kind=full calendar=m32 windows=none", 5),
    ("bpplsched add policy=p schedule=s kind=full frequency=1 windows=sun/24:00:00/1", 6),
    ("bpbackup client=a start=now", 2),
]

# The marks of a unit that is added have defaults, 98 and 80, and each goes with the other's.
GOOD = [
    "unit add name=t capacity=1 high=81",
    "unit add name=u capacity=1 low=97",
    "unit add name=v capacity=1 high=100 low=99",
    "unit add name=w capacity=1 high=1 low=0",
    "unit change name=t high=1 low=0",
]

DATES = "+".join(f"d{1970 + year}-01-01" for year in range(64))
WINDOWS = "+".join(f"{day}/{hour:02}:00:00/60" for day in ("sun", "mon", "tue", "wed", "thu", "fri", "sat") for hour in range(4))
LARGE = ["18446744073709551617", "340282366920938463463374607431768211457"]

# A line whose last {} is a value and whose # is a number of its own, the values that it may have, and values that it may not.
VALUES = [
    ("client add name={}", *NAMES),
    ("client remove name={}", *NAMES),
    ("unit add name={} capacity=1", *NAMES),
    ("unit change name={}", *NAMES),
    ("bppolicynew add policy={} type=raw lifecycle=basic", *NAMES),
    ("bppolicynew add policy=p# type=raw lifecycle={}", ["basic", "gold", NAME_OF_64], NAMES[1]),
    ("bppolicynew add policy=p# type={} lifecycle=basic", ["raw", "files"], ["", "Raw", "raws", "Files", "file", "raw,files", "1"]),
    ("bppolicynew change policy={}", *NAMES),
    ("bppolicynew change policy=adhoc active={}", ["yes", "no"], ["", "Yes", "true", "1", "y", "yes,no"]),
    ("bppolicynew change policy=adhoc lifecycle={}", ["basic", NAME_OF_64], NAMES[1]),
    ("bppolicynew remove policy={}", *NAMES),
    ("bppolicynew client-add policy={} client=a", *NAMES),
    ("bppolicynew client-add policy=adhoc client={}", *NAMES),
    ("bppolicynew client-remove policy=adhoc client={}", *NAMES),
    ("bppolicynew client-remove policy={} client=a", *NAMES),
    ("bppolicynew select policy={} path=/", *NAMES),
    ("bppolicynew unselect policy={} path=/", *NAMES),
    (
        "bppolicynew select policy=adhoc path={}",
        ["/", "//", "/a/", "/..", "/a=b", "/a+b,c:d;e", "/~!@#$&*()'\"\\", "/a%20b", "/%25", "/%01", "/%09", "/%0B", "/%0D", "/%1F", "/%7F", "/%80", "/%FF", "/%C3%A9"]
        + ["/" + "a" * 1023, "/" + "%20" * 1023],
        ["", "a", "a/", "%2F", "%2Fa", "/%", "/%2", "/a%2", "/%20%", "/%2F", "/%41", "/%7E", "/%7f", "/%c3%a9", "/%00", "/%0A", "/%0a", "/%G0"]
        + ["/a\tb", "/\x7f", "/caf\u00e9", "/" + "a" * 1024, "/" + "%20" * 1024],
    ),
    ("bppolicynew unselect policy=adhoc path={}", ["/", "/%20", "/" + "a" * 1023], ["", "a", "/%", "/%41", "/%00", "/" + "a" * 1024]),
    ("bpplsched add policy=adhoc schedule={} kind=full frequency=1 windows=none", *NAMES),
    ("bpplsched add policy=adhoc schedule=s# kind={} frequency=1 windows=none", ["full", "diff", "cumul"], ["", "Full", "incr", "differential", "0", "fulldiff"]),
    ("bpplsched add policy={} schedule=s kind=full frequency=1 windows=none", *NAMES),
    ("bpplsched change policy={} schedule=s kind=full frequency=1 windows=none", *NAMES),
    ("bpplsched change policy=adhoc schedule={} kind=full frequency=1 windows=none", *NAMES),
    ("bpplsched change policy=adhoc schedule=manual kind={} frequency=1 windows=none", ["full", "diff", "cumul"], ["", "Full", "incr"]),
    ("bpplsched change policy=adhoc schedule=manual kind=full frequency={} windows=none", ["1", "3153600000"], ["", "0", "01", "3153600001", *LARGE]),
    ("bpplsched remove policy={} schedule=s", *NAMES),
    ("bpplsched remove policy=adhoc schedule={}", *NAMES),
    ("unit add name=u# capacity={}", ["1", "9", "1125899906842624"], ["", "0", "00", "01", "+1", "-1", "1.0", "1e3", "1_000", "0x10", "1k", "1125899906842625", *LARGE]),
    ("unit add name=u# capacity=1 segment={}", ["16", "131072"], ["", "0", "15", "016", "131073", *LARGE]),
    ("unit add name=u# capacity=1 fragment={}", ["1", "1048576"], ["0", "1048577", "4294967297"]),
    ("unit add name=u# capacity=1 slots={}", ["1", "16777216"], ["0", "16777217", "4294967297"]),
    ("unit add name=u# capacity=1 high={} low=0", ["1", "100"], ["0", "101", "256", "257", "050"]),
    ("unit add name=u# capacity=1 high=100 low={}", ["0", "99"], ["", "100", "-1", "00", "256"]),
    ("unit change name=disk0 capacity={}", ["1", "1125899906842624"], ["", "0", "01", "1125899906842625", *LARGE]),
    ("unit change name=disk0 slots={}", ["1", "16777216"], ["0", "16777217"]),
    ("unit change name=disk0 high={} low=0", ["1", "100"], ["0", "101", "257"]),
    ("unit change name=disk0 high=100 low={}", ["0", "99"], ["100", "256"]),
    ("bpplsched add policy=adhoc schedule=s# kind=full frequency={} windows=none", ["1", "3153600000"], ["", "0", "01", "-1", "3153600001", *LARGE]),
    (
        "bpplsched add policy=adhoc schedule=s# kind=full calendar={} windows=none",
        ["d1970-01-01", "d9891-12-31", "d2024-02-29", "d2000-02-29", "x1970-01-01", "x2024-02-29", "w0sun", "w0sat", "w1mon", "w4fri", "wLtue"]
        + ["m1", "m9", "m31", "mL", "m1+mL", "w0mon+x2024-05-20", "m1+m1", DATES],
        ["", "+", "m1+", "+m1", "m1++m2", "m1,m2", "m", "m0", "m32", "m01", "ml", "M1", "m-1", "w", "w0", "w5mon", "wmon", "w0Mon", "w0mo", "w0mond", "w0monday", "w0abc", "wlsun", "w00sun", "mL1"]
        + ["d", "d1969-12-31", "d9892-01-01", "d10000-01-01", "d2023-02-29", "d2100-02-29", "d2024-04-31", "d2024-13-01", "d2024-00-01", "d2024-01-00", "d2024-01-32"]
        + ["d2024-1-01", "d2024-01-1", "d+024-01-01", "d24-01-01", "d2024/01/01", "d2024-01-01x", "d20240101", "2024-01-01", "x", "x2023-02-29", "x2024-13-01", "xmL", "m1+w5mon", "always", "none", f"{DATES}+m1"],
    ),
    (
        "bpplsched add policy=adhoc schedule=s# kind=full frequency=1 windows={}",
        ["always", "none", "sun/00:00:00/1", "mon/01:02:03/60", "tue/19:59:59/7200", "wed/09:00:00/3600", "thu/22:00:00/14400", "fri/20:00:00/36000"]
        + ["sat/23:59:59/604800", "sun/00:00:00/1+sun/00:00:00/1", WINDOWS],
        ["", "+", "Always", "all", "always+always", "none+none", "always+sun/00:00:00/1", "sun/00:00:00/1+none", "sun/00:00:00/0", "sun/00:00:00/604801", "sun/00:00:00/01"]
        + ["sun/24:00:00/1", "sun/00:60:00/1", "sun/00:00:60/1", "sun/0:00:00/1", "sun/00:0:00/1", "sun/00:00/1", "sun/00:00:00", "sun/00:00:00/", "sun/00:00:00/1/", "sun/00:00:00/-1", "sun/00:00:00/+1", "sun/00:00:00/18446744073709551616"]
        + ["/00:00:00/1", "sun", "day/00:00:00/1", "Sun/00:00:00/1", "sunday/00:00:00/1", "su/00:00:00/1", "0/00:00:00/1", "sun-00:00:00-1", "sun/00.00.00/1", "sun/+1:00:00/1", "sun/000000/1"]
        + ["sun/00:00:00/1+", "+sun/00:00:00/1", "sun/00:00:00/1++mon/00:00:00/1", "sun/00:00:00/1,mon/00:00:00/1", f"{WINDOWS}+sun/05:00:00/60"],
    ),
    ("bpplsched change policy=adhoc schedule=manual kind=full calendar={} windows=none", ["mL", DATES], ["", "m0", f"{DATES}+m1"]),
    ("bpplsched change policy=adhoc schedule=manual kind=full frequency=1 windows={}", ["none", WINDOWS], ["", "sun/24:00:00/1", f"{WINDOWS}+sun/05:00:00/60"]),
    (
        "bpzone set offset={}",
        ["+00:00", "+00:01", "-00:01", "+02:00", "+05:45", "+23:59", "-23:59"],
        ["", "-00:00", "+24:00", "-24:00", "+00:60", "02:00", "+2:00", "+02:0", "+0200", "+02", "+02:00:00", "+02-00", "++2:00", "+-2:00", "+02:-1", "\u221202:00", "Z", "UTC0"],
    ),
    (
        "bpzone set rule={}",
        ["UTC0", "CET-1CEST,M3.5.0,M10.5.0/3", "EST5EDT,M3.2.0,M11.1.0", "NZST-12NZDT,M9.5.0,M4.1.0/3", "<+0330>-3:30", "<-02>2<-01>,M3.5.0/-1,M10.5.0/0", "IST-2IDT,M3.4.4/26,M10.5.0"]
        + ["AAA3BBB,J60,J300/4", "AAA3BBB,59,299"],
        ["", "UTC", "frob", "Europe/Zurich", ":UTC0", "UTC0x", "UTC0,", "UT0", "CET-1CEST,M3.5.0", "CET-1CEST,M13.5.0,M10.5.0", "CET-1CEST,M0.5.0,M10.5.0", "CET-1CEST,M3.6.0,M10.5.0"]
        + ["CET-1CEST,M3.5.7,M10.5.0", "CET-1CEST,M3.5.0,M10.5.0,M1.1.1", "CET-25", "+02:00", "<+02-2", "A" * 1025],
    ),
    ("@5 bpbackup client={}", *NAMES),
    ("@5 bpbackup client=c policy={}", ["adhoc", "gold", NAME_OF_64], NAMES[1]),
    ("@5 bpbackup client=c schedule={}", ["manual", "s", NAME_OF_64], NAMES[1]),
    ("@5 bpbackup client=c start={}", ["manual", "scheduled"], ["", "Manual", "auto", "now", "0", "manual+scheduled"]),
    (
        "bprestore id={}",
        ["a_1", "a_1_1", "__1", f"{NAME_OF_64}_250000000000"],
        ["", "a", "_1", "a_", "a_0", "a_01", "a_-1", "a_+1", "a_250000000001", "a_18446744073709551617", "a/b_1", "a_1_", "a_1x", f"{NAME_OF_64}n_1"],
    ),
    ("bprestore id=a_1 copy={}", ["1", "32"], ["", "0", "01", "33", "257", "x", "-1", *LARGE]),
    ("bprestore client={} policy=adhoc", *NAMES),
    ("bprestore client=a policy={}", *NAMES),
    ("bprestore client=a policy=adhoc before={}", ["0", "1", "250000000000"], ["", "00", "01", "-1", "+1", "1.0", "x", "now", "250000000001", *LARGE]),
]

# Each form: the keys that it needs, those that it may have, and two of which it needs one and not both.
FORMS = {
    "unit add": ("name capacity", "segment fragment slots high low", ""),
    "unit change": ("name", "capacity slots high low", ""),
    "client add": ("name", "", ""),
    "client remove": ("name", "", ""),
    "bppolicynew add": ("policy type lifecycle", "", ""),
    "bppolicynew change": ("policy", "active lifecycle", ""),
    "bppolicynew remove": ("policy", "", ""),
    "bppolicynew client-add": ("policy client", "", ""),
    "bppolicynew client-remove": ("policy client", "", ""),
    "bppolicynew select": ("policy path", "", ""),
    "bppolicynew unselect": ("policy path", "", ""),
    "bpplsched add": ("policy schedule kind windows", "", "frequency calendar"),
    "bpplsched change": ("policy schedule kind windows", "", "frequency calendar"),
    "bpplsched remove": ("policy schedule", "", ""),
    "bpzone set": ("", "", "rule offset"),
    "bpload": ("", "", ""),
    "bpbackup": ("client", "policy schedule start", ""),
    "bprestore": ("id", "copy", ""),
}

# The other keys with which a form may be written, in place of those above.
OTHER_WAYS = {"bprestore": ("client policy", "before", "")}

# A good value of each key.
VALUE_OF = {
    **dict.fromkeys(("name", "policy", "client", "schedule", "lifecycle"), "a"),
    **{"capacity": "1", "segment": "16", "fragment": "1", "slots": "1", "high": "2", "low": "1"},
    **{"type": "raw", "active": "no", "path": "/", "kind": "full", "frequency": "1", "calendar": "mL", "windows": "none"},
    **{"rule": "UTC0", "offset": "+00:00", "start": "manual", "id": "a_1", "copy": "1", "before": "5"},
}


def ways_of(form):
    return [FORMS[form], *([OTHER_WAYS[form]] if form in OTHER_WAYS else [])]


def keys_of(form):
    return [key for way in ways_of(form) for keys in way for key in keys.split()]


def bad_of(form):
    """Returns bad words of a form, each made of good ones by one fault, with the index that is told."""
    for way in ways_of(form):
        yield from bad_of_way(form, *way)


def bad_of_way(form, needed, others, either):
    head, whole = form.split(" "), [*needed.split(), *either.split()[:1], *others.split()]
    words = [*head, *(f"{key}={VALUE_OF[key]}" for key in whole)]
    count = len(words)
    for at in range(len(head), count):
        key, value = words[at].split("=", 1)
        # It has no equals sign, no value, no key, or another key, and it stands there twice.
        for word in (key, f"{key}=", f"={value}", f"{key.title()}={value}", f"{key}s={value}", f"{key}:{value}"):
            yield [*words[:at], word, *words[at + 1 :]], at
        yield [*words, words[at]], count
        yield [*words[: at + 1], words[at], *words[at + 1 :]], at + 1
        # It is missing.
        if key in f"{needed} {either}".split():
            yield [*words[:at], *words[at + 1 :]], count - 1
    for key in either.split()[1:]:
        yield [*words, f"{key}={VALUE_OF[key]}"], count + 1
    # A key of the other way to write the form.
    for key in keys_of(form):
        if key not in f"{needed} {others} {either}".split():
            yield [*words, f"{key}={VALUE_OF[key]}"], count + 1
            yield [*head, f"{key}={VALUE_OF[key]}", *words[len(head) :]], count + 1
    # A key that other forms have, and none that any has.
    for word in [*(f"{key}={value}" for key, value in VALUE_OF.items() if key not in keys_of(form)), "frob=1", ""]:
        yield [*words, word], count
        yield [*head, word, *words[len(head) :]], len(head)
    for at, word in enumerate(head):
        yield [*head[:at], word.title(), *words[at + 1 :]], at
        yield [*head[:at], f"{word}s", *words[at + 1 :]], at

# One of each form that takes no payload, with all its keys.
WITHOUT_PAYLOAD = [
    "unit add name=t capacity=1 segment=16 fragment=1 slots=1 high=2 low=1",
    "unit change name=disk0",
    "client add name=a",
    "client remove name=a",
    "bppolicynew add policy=p type=raw lifecycle=basic",
    "bppolicynew change policy=adhoc active=no lifecycle=basic",
    "bppolicynew remove policy=p",
    "bppolicynew client-add policy=adhoc client=a",
    "bppolicynew client-remove policy=adhoc client=a",
    "bppolicynew select policy=adhoc path=/",
    "bppolicynew unselect policy=adhoc path=/",
    "bpplsched add policy=adhoc schedule=s kind=full frequency=1 windows=none",
    "bpplsched change policy=adhoc schedule=s kind=full calendar=mL windows=none",
    "bpplsched remove policy=adhoc schedule=s",
    "bpzone set rule=UTC0",
    "bpzone set offset=+00:00",
]


def filled(line):
    """Returns the lines of a row of values, the good and the bad ones, and the index of the word that has the value."""
    template, good, bad = line
    index = next(at for at, word in enumerate(template.split(" ")) if "{}" in word)
    lines = [template.replace("#", str(number)).replace("{}", value) for number, value in enumerate([*good, *bad])]
    return lines[: len(good)], lines[len(good) :], index


class Words(RowsTest):
    def is_bad(self, words, index):
        """Runs words that are bad as commands, with a moment too: they are answered, and no vault is made."""
        for ahead in ([], ["@5"]):
            if ahead and words.startswith("@"):
                continue
            with self.subTest(words=words, ahead=ahead):
                answer = self.desk.run(*ahead, *words.split(" "))
                self.check(answer, 2, b"bad request at %d\n" % (index + len(ahead)))
                self.assertFalse(self.desk.exists(), "a folder was made")

    def bad_in_session(self, rows):
        """Runs words that are bad as one session, with a moment and with payloads too: nothing is done."""
        text, replies, said = b"", [], []
        for words, index in rows:
            ahead = "" if words.startswith("@") else "@250000000000 "
            for line, bad in ((words, index), (ahead + words, index + bool(ahead))):
                for payload in (None, b"", b"client add name=dropped\n"):
                    text += line_of(line, payload)
                    replies.append((2, b"bad request at %d\n" % bad))
                    said.append(line)
        one = self.new_desk()
        answer = one.run("session", payload=text)
        self.assertEqual(answer.status, 0)
        found = replies_of(answer.out)
        self.assertEqual([it for it in zip(said, replies, found) if it[1] != it[2]], [])
        self.assertEqual(len(found), len(replies))
        self.assertEqual(one.bytes(), vault.EMPTY)

    def test_bad_words(self):
        for words, index in BAD:
            self.is_bad(words, index)

    def test_bad_words_in_a_session(self):
        # (in a session the word payload=5 is no word of the request)
        self.bad_in_session([row for row in BAD if "payload=" not in row[0]])

    def test_each_fault_of_each_form(self):
        for form in FORMS:
            rows = [(" ".join(words), index) for words, index in bad_of(form)]
            for words, index in rows:
                self.is_bad(words, index)
            with self.subTest(form):
                self.bad_in_session(rows)

    def test_each_key_of_each_form_has_its_values(self):
        """So no form and no key is without its rows in the table of values."""
        found = set()
        for line, _, _ in VALUES:
            words = line.removeprefix("@5 ").split(" ")
            (key,) = [word.split("=")[0] for word in words if "{}" in word]
            found.add((" ".join(word for word in words if "=" not in word), key))
        self.assertEqual(found, {(form, key) for form in FORMS for key in keys_of(form)})

    def test_values_beside_their_grammar(self):
        for line in VALUES:
            _, bad, index = filled(line)
            for words in bad:
                self.is_bad(words, index)

    def test_values_beside_their_grammar_in_a_session(self):
        for line in VALUES:
            _, bad, index = filled(line)
            with self.subTest(line[0]):
                self.bad_in_session([(words, index) for words in bad])

    def test_values_of_their_grammar(self):
        """They are requests, and each that is done stands in the vault as it was written."""
        for line in VALUES:
            good, _, _ = filled(line)
            with self.subTest(line[0]):
                one = self.new_desk()
                answer = one.run("session", payload=b"".join(map(line_of, good)))
                replies = replies_of(answer.out)
                self.assertEqual((answer.status, len(replies)), (0, len(good)))
                self.assertEqual([words for words, reply in zip(good, replies) if reply[0] == 2], [])
                done = tuple(words.encode() for words, reply in zip(good, replies) if reply[0] == 0)
                if "bpbackup" not in line[0]:
                    self.assertEqual(one.files(), vault.files(*(vault.settings(words) for words in done)))
                    # (a new vault's opening takes the lines in again)
                    self.assertEqual(one.run("bpplsched remove policy=adhoc schedule=none").status, 4)

    def test_marks_that_go_together(self):
        self.run_rows([(words, 0, "") for words in GOOD])

    def test_keys_in_any_order(self):
        self.run_rows(
            [
                ("unit add low=1 high=2 slots=3 fragment=4 segment=16 capacity=5 name=t", 0, ""),
                ("unit change low=1 high=2 capacity=5 name=t slots=1", 0, ""),
                ("client add name=a", 0, ""),
                ("bppolicynew add lifecycle=basic type=raw policy=p", 0, ""),
                ("bppolicynew client-add client=a policy=p", 0, ""),
                ("bppolicynew select path=/ policy=p", 0, ""),
                ("bpplsched add windows=none frequency=1 kind=full schedule=s policy=p", 0, ""),
                ("@5 bpbackup start=manual schedule=s policy=p client=a", 0, "a_5", b"x"),
            ]
        )


class Payloads(RowsTest):
    def test_a_payload_on_a_form_that_takes_none(self):
        """In a session the word that names it is bad, and nothing is done."""
        for words in WITHOUT_PAYLOAD:
            with self.subTest(words=words):
                index = len(words.split(" "))
                one = self.new_desk()
                text = line_of(words, b"client add name=dropped\n") + line_of(f"@5 {words}", b"x")
                answer = one.run("session", payload=text)
                self.check_quiet(answer, 0, frame(2, b"bad request at %d\n" % index) + frame(2, b"bad request at %d\n" % (index + 1)))
                self.assertEqual(one.bytes(), vault.EMPTY)

    def test_a_payload_of_no_bytes_is_none(self):
        """So each form's request is carried out, one after another."""
        order = [words for words in WITHOUT_PAYLOAD if "remove" not in words and "unselect" not in words]
        order += [words for words in reversed(WITHOUT_PAYLOAD) if words not in order]
        answer = self.desk.run("session", payload=b"".join(line_of(words, b"") for words in order))
        self.check_quiet(answer, 0, frame(0, b"") * len(order))

    def test_a_command_has_no_payload_word(self):
        for words in WITHOUT_PAYLOAD:
            with self.subTest(words=words):
                self.check(self.desk.run(f"{words} payload=0"), 2, b"bad request at %d\n" % len(words.split(" ")))
        self.assertFalse(self.desk.exists())
