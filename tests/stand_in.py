"""A small repository with this one's launcher and build script, and a stand-in for `rt`, which builds in no time."""

import os
import re
import shutil
import subprocess
import sys
import tempfile
import unittest
from pathlib import Path

import desk

# `rt lib` makes a library of a crate's sources where the libraries below it are, as its line of crates.txt has them, and none
# is there of the same sources. It takes as many tenths of a second as the file src/slow says, and where there is a file
# src/with_NAME it goes on only once the crate NAME was begun too. `rt run` makes a program of src/main.rt and runs it. Both fail where the
# source says so, and read their input, as no builder should need to.
RT = r"""#!/bin/bash
kit=$(dirname "$0")/..
[ "$1" = version ] && cat "$kit/KIT-ID" && exit
name=$(basename "$PWD")
cat >>"$kit/taken"
if grep -q fails src/*.rt; then echo "not proved: $(cat src/*.rt)"; exit 1; fi
sources=$(cat src/*.rt)
mkdir -p out/incremental
echo "$(date +%s.%N) $name $*" >>"$kit/begun"
for low in $(sed -n "s/^$name: *//p" ../../crates.txt); do
  [ -d "../../crates/$low" ] || continue
  [ "$(cat "../$low/out/rlib/stamp" 2>/dev/null)" = "$(cat ../$low/src/*.rt)" ] || { echo "$low is not built"; exit 1; }
done
if [ "$1" = lib ]; then
  [ "$(cat out/rlib/stamp 2>/dev/null)" = "$sources" ] && exit
  for it in src/with_*; do
    for try in {1..2000}; do
      [ ! -e "$it" ] || grep -q " ${it#src/with_} " "$kit/begun" && break
      sleep 0.02
    done
    [ "$try" = 2000 ] && echo "$it waits in vain" && exit 1
  done
  for ((it = 0; it < $(cat src/slow 2>/dev/null || echo 0); it++)); do
    sleep 0.1
    touch "out/incremental/slow$it"
  done
  mkdir -p out/rlib
  printf %s "$sources" >out/rlib/stamp
  echo "logic=proved"
  echo "$(date +%s.%N) $name $*" >>"$kit/ended"
  exit
fi
cp src/main.rt out/bpdesk && chmod +x out/bpdesk
echo 'rt: running out/bpdesk'
while [ "$1" != -- ]; do shift; done
shift
out/bpdesk "$@"
"""

PROGRAM = r"""#!/bin/bash
[ "$1" != "${1%/crates.txt/none}" ] && exit 18
echo "$# words: $*"
cat
echo "told" >&2
exit 15
"""


class StandInTest(unittest.TestCase):
    # What each crate stands on.
    CRATES = {"low": "", "bpdesk": "low"}

    def setUp(self):
        self.top = Path(tempfile.mkdtemp(prefix="bpdesk-test-"))
        self.addCleanup(shutil.rmtree, self.top, ignore_errors=True)
        self.repository = self.top / "a repository"
        self.crates = self.repository / "crates"
        for name in self.CRATES:
            self.put(f"crates/{name}/src/lib.rt", f"{name}\n")
        (self.crates / "bpdesk/src/lib.rt").unlink()
        self.put("crates.txt", "# The crates.\n" + "".join(f"{name}: {low} of_the_kit\n" for name, low in self.CRATES.items()))
        self.put("HANDLES", "Handles allowed: none.\n")
        for file in ("bpdesk", "tools/build", "share/usage.txt"):
            self.put(file, "")
            shutil.copy(desk.ROOT / file, self.repository / file)
        # (what the stand-in takes, so that the tests go on where memory is short)
        script = self.repository / "tools/build"
        script.write_text(re.sub(r"(?m)^SPARE, (.*) = .*$", r"SPARE, \1 = 0, 0, 0, 0, 0, 0", script.read_text()))
        self.source = self.put("crates/bpdesk/src/main.rt", PROGRAM)
        self.program = self.crates / "bpdesk/out/bpdesk"
        self.kit = self.top / "kit"
        self.put("../kit/KIT-ID", "kit 1\n")
        self.rt = self.put("../kit/bin/rt", RT)
        self.rt.chmod(0o755)
        # (the tests' own python, whatever stands for it on the path)
        (self.kit / "bin/python3").symlink_to(sys.executable)
        self.path = f"{self.kit}/bin:/usr/bin:/bin"

    def put(self, place, text):
        """Writes a file of the repository and returns its path."""
        path = self.repository / place
        path.parent.mkdir(parents=True, exist_ok=True)
        path.write_text(text)
        return path

    def environment(self, path=None, **more):
        kept = {name: value for name, value in os.environ.items() if not name.startswith("BPDESK_")}
        return {**kept, "PATH": path or self.path, **more}

    def run_it(self, *words, launcher=None, cwd=None, path=None, text="input", **more):
        """Runs the launcher to its end, with more in its environment."""
        launcher = launcher or self.repository / "bpdesk"
        return subprocess.run([launcher, *words], input=text, capture_output=True, text=True, cwd=cwd, env=self.environment(path, **more), timeout=desk.PATIENCE)

    def noted(self, file):
        """Returns what `rt` noted of its calls: the moment, the crate and the words."""
        found = self.kit / file
        rows = [line.split(" ", 2) for line in found.read_text().splitlines()] if found.exists() else []
        return [(float(moment), name, words) for moment, name, words in rows]

    def builds(self):
        """Returns how often the program was built."""
        return sum(words.startswith("run") for _, _, words in self.noted("begun"))

    def proved(self):
        """Returns the crates whose library was made, in their order."""
        return [name for _, name, _ in self.noted("ended")]
