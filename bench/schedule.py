#!/usr/bin/env python3
"""Times the reading of a schedule's text, since no command of the program reads one yet.

usage: bench/schedule.py

Makes a program that calls `read_schedule` on four million entries, over copies of the crates in a folder of its own, then proves
and builds it with `rt run`. That takes some minutes where nothing was proved before. It prints the time of each of five readings.
"""

import pathlib
import re
import shutil
import subprocess
import sys
import tempfile

CRATES = ("sys_base", "schedules")
PROGRAM = """\
#![tactic(auto)]

use schedules::read_schedule;
use std::time::Instant;

fn main(rt: HostRuntime) -> anyhow::Result<()> {
    let alloc = rt.alloc();
    let mut text = Vec::new(alloc);
    for _ in 0..1_000_000 {
        text.extend_from_slice(b"c0\\nb1\\nf0.1\\nc255\\n")?;
    }
    if text.len() >= 4294967296 {
        return Ok(());
    }
    for _ in 0..5 {
        let start = Instant::now(&rt)?;
        let entries = read_schedule(alloc, &text)?;
        let took = start.elapsed(&rt)?;
        println!(rt; "{} entries, {} bytes: {} ms", entries.len(), text.len(), took.as_millis())?;
    }
    Ok(())
}
"""


def main():
    top = pathlib.Path(__file__).resolve().parent.parent
    listed = [line for line in (top / "crates.txt").read_text().splitlines() if line.split(":")[0] in CRATES]
    with tempfile.TemporaryDirectory() as folder:
        room = pathlib.Path(folder)
        for crate in CRATES:
            for part in ("src", "specs", "proofs"):
                shutil.copytree(top / "crates" / crate / part, room / "crates" / crate / part)
        program = room / "crates" / "timed"
        (program / "src").mkdir(parents=True)
        (program / "src" / "main.rt").write_text(PROGRAM)
        (room / "crates.txt").write_text("\n".join(listed + ["timed: schedules anyhow", ""]))
        ran = subprocess.run(["rt", "run"], cwd=program, capture_output=True, text=True, check=False)
    times = re.findall(r"^\d+ entries, .*$", ran.stdout, re.MULTILINE)
    if ran.returncode != 0 or not times:
        sys.exit(ran.stdout + ran.stderr)
    print("\n".join(times))


if __name__ == "__main__":
    main()
