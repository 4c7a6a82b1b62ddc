#!/usr/bin/env python3
"""Prints how many microseconds `next_open` takes over 28 windows, and `due` with 64 calendar items.

It copies the crates that it needs into a new folder, adds a small program that makes the calls, and has the toolchain prove,
build and run it. The program reads the clock before and after each series of calls.
"""
import os
import pathlib
import re
import shutil
import subprocess
import sys
import tempfile

PROGRAM = r'''
//! Times the calls of `schedule_windows`.
#![tactic(auto)]

ghost use Rattle.std.specs.Prelude.{◌<◌, ◌≤◌};

use anyhow::Context;
use schedule_windows::{Zone, due, next_open};
use site_types::{CalendarItem, Kind, ListOf, Mode, Name, Schedule, Window, Windows};
use std::alloc::Global;
use std::time::Instant;

// 28 windows of a minute each, four on each weekday.
fn windows(alloc: Global) -> Result<Windows, anyhow::Error> {
    let mut list = ListOf::new(alloc);
    for weekday in 0..7u8 {
        for hour in 0..4u32 {
            let window = Window::new(weekday, hour * 3_600 + 1_800, 60).context("a window")?;
            list.push(window).ok().context("memory")?;
        }
    }
    Ok(Windows::Listed(list))
}

// 64 items of a calendar, of which the last one alone names a day: the last of each month.
fn items(alloc: Global) -> Result<ListOf<CalendarItem>, anyhow::Error> {
    let mut list = ListOf::new(alloc);
    for _ in 0..63u8 {
        list.push(CalendarItem::Weekday { week: 6, day: 4 }).ok().context("memory")?;
    }
    list.push(CalendarItem::MonthDay(0)).ok().context("memory")?;
    Ok(list)
}

fn openings(alloc: Global, windows: &Windows, zone: &Zone, from: u64) -> Result<u64, anyhow::Error>
    requires { from < 2_000_000_000 }
{
    let mut last = 0;
    for step in 0..100_000u64 {
        last = next_open(alloc, windows, zone, from + step * 613)?.unwrap_or(0);
    }
    Ok(last)
}

fn dues(alloc: Global, schedule: &Schedule, zone: &Zone, from: u64) -> Result<u64, anyhow::Error>
    requires { from < 2_000_000_000 }
{
    let mut count = 0u64;
    for step in 0..100_000u64 {
        let moment = from + step * 613;
        if due(schedule, None, moment, zone.civil(alloc, moment)?) {
            count = count.saturating_add(1);
        }
    }
    Ok(count)
}

fn main(rt: HostRuntime) -> Result<(), anyhow::Error> {
    let alloc = rt.alloc();
    let zone = Zone::rule(alloc, "CET-1CEST,M3.5.0,M10.5.0/3")?.context("a rule")?;
    let listed = windows(alloc)?;
    let start = Instant::now(&rt)?;
    let last = openings(alloc, &listed, &zone, 1_700_000_000)?;
    let spent = start.elapsed(&rt)?.as_nanos();
    println!(rt; "next_open {spent} {last}")?;
    let nightly = Schedule {
        name: Name::new(alloc, b"nightly")?.context("a name")?,
        kind: Kind::Full,
        mode: Mode::Calendar(items(alloc)?),
        windows: Windows::Always,
    };
    let start = Instant::now(&rt)?;
    let count = dues(alloc, &nightly, &zone, 1_700_000_000)?;
    let spent = start.elapsed(&rt)?.as_nanos();
    println!(rt; "due {spent} {count}")?;
    Ok(())
}
'''

CALLS = 100_000


def main() -> int:
    root = pathlib.Path(__file__).resolve().parent.parent
    with tempfile.TemporaryDirectory() as folder:
        new = pathlib.Path(folder)
        for name in ("site_types", "schedule_windows"):
            shutil.copytree(root / "crates" / name, new / "crates" / name, ignore=shutil.ignore_patterns("out", "must-fail"))
        program = new / "crates" / "schedule_bench" / "src"
        program.mkdir(parents=True)
        (program / "main.rt").write_text(PROGRAM.lstrip())
        kept = [line for line in (root / "crates.txt").read_text().splitlines() if re.match(r"(site_types|schedule_windows):", line)]
        (new / "crates.txt").write_text("\n".join(kept) + "\nschedule_bench: site_types schedule_windows anyhow\n")
        run = subprocess.run(["rt", "run"], cwd=new / "crates" / "schedule_bench", capture_output=True, text=True)
        figures = re.findall(r"^(next_open|due) (\d+) \d+$", run.stdout, re.MULTILINE)
        if not figures:
            sys.stderr.write(run.stdout[-4000:] + run.stderr[-4000:])
            return 1
        for name, spent in figures:
            print(f"{name}: {int(spent) / CALLS / 1000:.2f} microseconds a call")
    return 0


if __name__ == "__main__":
    os.environ.pop("TZ", None)
    sys.exit(main())
