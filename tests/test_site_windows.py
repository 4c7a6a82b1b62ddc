"""Scheduled backups: inside and outside of windows, on the clock of the site's zone."""

from datetime import datetime, timezone

from rows import RowsTest


def at(text):
    """Returns a moment, given as UTC."""
    return int(datetime.strptime(text, "%Y-%m-%d %H:%M:%S").replace(tzinfo=timezone.utc).timestamp())


WEEK = 604_800
# The night from Thursday to Friday: 1970-01-01 is a Thursday.
NIGHT = "thu/22:00:00/14400"
EUROPE = "rule=CET-1CEST,M3.5.0,M10.5.0/3"
NEW_YORK = "rule=EST5EDT,M3.2.0,M11.1.0"
SYDNEY = "rule=AEST-10AEDT,M10.1.0,M4.1.0/3"

# The zone, the windows, moments at which one is open, and moments at which none is.
ROWS = [
    # A new vault has UTC.
    (None, NIGHT, [79_200, 86_399, 86_400, 93_599, 79_200 + WEEK, 93_599 + WEEK], [0, 79_199, 93_600, 79_199 + WEEK, 93_600 + WEEK]),
    ("rule=UTC0", NIGHT, [79_200, 93_599], [79_199, 93_600]),
    ("offset=+00:00", NIGHT, [79_200, 93_599], [79_199, 93_600]),
    # East of UTC a window opens earlier, and west of it later.
    ("offset=+02:00", NIGHT, [72_000, 86_399], [71_999, 86_400]),
    ("offset=-02:30", NIGHT, [88_200, 102_599], [88_199, 102_600]),
    ("offset=+23:59", "thu/23:59:00/60", [0, 59], [60]),
    ("offset=-23:59", "wed/00:01:00/60", [0, 59], [60]),
    ("offset=-00:01", "wed/23:59:00/60", [0, 59], [60]),
    ("rule=<-03>3", "wed/21:00:00/10800", [0, 10_799], [10_800]),
    ("rule=<+0330>-3:30", "thu/03:30:00/1", [0], [1]),
    # A window may pass the end of the week, and last the whole of it.
    (None, "sat/23:00:00/7200", [255_600, 259_199, 259_200, 262_799], [255_599, 262_800]),
    (None, "wed/00:00:00/604800", [0, 86_400, 518_399, 518_400, 518_401], []),
    (None, "wed/00:00:00/604799", [0, 518_398, 518_400], [518_399]),
    (None, "always", [0, 1, 86_399, 86_400, 250_000_000_000], []),
    (None, "none", [], [0, 79_200, 250_000_000_000]),
    # One of several is enough.
    (None, "fri/00:00:00/10+thu/00:00:00/10", [0, 9, 86_400, 86_409], [10, 86_399, 86_410]),
    (None, "thu/00:00:00/100+thu/00:00:10/10", [0, 10, 19, 20, 99], [100]),
    # At the end of March the clock goes from 02:00 to 03:00, and at the end of October from 03:00 to 02:00.
    (EUROPE, "thu/00:00:00/3600", [at("2024-01-10 23:00:00"), at("2024-07-10 22:00:00")], [at("2024-01-10 22:59:59"), at("2024-07-10 23:00:00")]),
    (EUROPE, "sun/02:00:00/3600", [at("2024-03-24 01:00:00"), at("2024-04-07 00:59:59")], [at("2024-03-31 00:59:59"), at("2024-03-31 01:00:00")]),
    (EUROPE, "sun/03:00:00/1", [at("2024-03-31 01:00:00")], [at("2024-03-31 00:59:59"), at("2024-03-31 01:00:01"), at("2024-03-31 02:00:00")]),
    (
        EUROPE,
        "sun/02:00:00/3600",
        [at("2024-10-27 00:00:00"), at("2024-10-27 00:59:59"), at("2024-10-27 01:00:00"), at("2024-10-27 01:59:59")],
        [at("2024-10-26 23:59:59"), at("2024-10-27 02:00:00")],
    ),
    (NEW_YORK, "mon/09:00:00/60", [at("2024-03-04 14:00:00"), at("2024-03-11 13:00:59"), at("2024-11-04 14:00:00")], [at("2024-03-11 14:00:00"), at("2024-11-04 13:00:00")]),
    (SYDNEY, "mon/09:00:00/60", [at("2023-12-31 22:00:00"), at("2024-06-30 23:00:00")], [at("2023-12-31 23:00:00"), at("2024-06-30 22:00:00")]),
]


def rows_of(zone, windows, opened, closed):
    """Returns the requests of a row: each moment has a client of its own, so that its image has its time."""
    yield f"bpplsched add policy=adhoc schedule=s kind=full frequency=1 windows={windows}", 0, ""
    if zone:
        yield f"bpzone set {zone}", 0, ""
    for number, moment in enumerate(sorted([*opened, *closed])):
        words = f"@{moment} bpbackup client=c{number} schedule=s start=scheduled"
        if moment in opened:
            yield words, 0, f"c{number}_{max(moment, 1)}", b"x"
        else:
            yield words, 8, "s window closed", b"x"


class Windows(RowsTest):
    def test_rows(self):
        for row in ROWS:
            with self.subTest(zone=row[0], windows=row[1]):
                self.run_rows(list(rows_of(*row)))

    def test_the_next_request_has_the_new_zone(self):
        backup = "bpbackup client=a schedule=s start=scheduled"
        self.run_rows(
            [
                (f"bpplsched add policy=adhoc schedule=s kind=full frequency=10000 windows={NIGHT}", 0, ""),
                (f"@72000 {backup}", 8, "s window closed", b"x"),
                ("bpzone set offset=+02:00", 0, ""),
                (f"@72000 {backup}", 0, "a_72000", b"x"),
                ("bpzone set rule=CET-1CEST,M3.5.0,M10.5.0/3", 0, ""),
                (f"@72001 {backup}", 8, "s window closed", b"x"),
                (f"@75600 {backup}", 0, "a_75600", b"x"),
                ("bpzone set rule=UTC0", 0, ""),
                (f"@75601 {backup}", 8, "s window closed", b"x"),
                (f"@79200 {backup}", 0, "a_79200", b"x"),
            ]
        )
