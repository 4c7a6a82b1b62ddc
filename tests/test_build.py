"""The build script, in a small repository with a stand-in for `rt`: which crates it proves side by side, what it says, what is kept."""

import os
import re
import signal
import subprocess
import time

import desk
from stand_in import StandInTest


def heed_signals():
    """Undoes what a shell does for a command in the background, or `nohup`: they have it ignore some signals, and so does the script."""
    for number in (signal.SIGINT, signal.SIGTERM, signal.SIGHUP):
        signal.signal(number, signal.SIG_DFL)


class Build(StandInTest):
    CRATES = {"base": "", "left": "base", "right": "base", "alone": "", "unused": "base", "top": "left right", "bpdesk": "top alone"}

    def build(self, *words):
        return subprocess.run([self.repository / "tools/build", *words], capture_output=True, text=True, env=self.environment(), timeout=desk.PATIENCE)

    def start(self, *words):
        process = subprocess.Popen(
            [self.repository / "tools/build", *words],
            stderr=subprocess.PIPE,
            text=True,
            env=self.environment(),
            start_new_session=True,
            preexec_fn=heed_signals,
        )
        self.addCleanup(process.stderr.close)
        return process

    def slow(self, name, tenths):
        self.put(f"crates/{name}/src/slow", str(tenths))

    def beside(self, one, other):
        """Has each of the two go on only once the other was begun too."""
        self.put(f"crates/{one}/src/with_{other}", "")
        self.put(f"crates/{other}/src/with_{one}", "")

    def await_work(self, name):
        """Waits until the crate, which is slow, has something proved in its lane."""
        until = time.monotonic() + desk.PATIENCE
        while not list((self.program.parent / f"lanes/{name}/crates/{name}/out/incremental").glob("slow*")):
            self.assertLess(time.monotonic(), until)
            time.sleep(0.01)

    def await_call(self, name):
        """Waits until `rt` has begun with the crate."""
        until = time.monotonic() + desk.PATIENCE
        while name not in [it for _, it, _ in self.noted("begun")]:
            self.assertLess(time.monotonic(), until)
            time.sleep(0.01)

    def whole(self, it):
        """Checks that a build has ended well, and left no lane."""
        self.assertEqual(it.returncode, 0, it.stderr)
        self.assertTrue(os.access(self.program, os.X_OK))
        self.assertFalse((self.program.parent / "lanes").exists())

    def test_crates_are_proved_side_by_side_and_only_once_those_below_are(self):
        self.beside("left", "right")
        self.beside("alone", "left")
        self.whole(self.build("--jobs", "4"))
        begun = {name: moment for moment, name, _ in self.noted("begun")}
        ended = {name: moment for moment, name, _ in self.noted("ended")}
        self.assertEqual(sorted(ended), ["alone", "base", "left", "right", "top"])
        for low, high in (("base", "left"), ("base", "right"), ("left", "top"), ("right", "top"), ("top", "bpdesk"), ("alone", "bpdesk")):
            self.assertGreater(begun[high], ended[low])

    def test_one_processor_takes_one_crate_at_a_time(self):
        self.whole(self.build("--jobs", "1"))
        both = sorted([(*it[:2], "begun") for it in self.noted("begun")] + [(*it[:2], "ended") for it in self.noted("ended")])
        pairs = list(zip(both[::2], both[1::2]))
        self.assertEqual([(one[1], one[2], other[2]) for one, other in pairs], [(one[1], "begun", "ended") for one, _ in pairs])
        self.assertTrue(all(" --jobs 1" in words for _, _, words in self.noted("begun")))

    def test_the_processors_are_shared_out(self):
        """The crate that holds the others up gets them all, and those beside it half of them each."""
        self.beside("base", "alone")
        self.whole(self.build("--jobs", "4"))
        jobs = {name: words for _, name, words in self.noted("begun")}
        self.assertEqual((jobs["base"], jobs["alone"]), ("lib --jobs 4", "lib --jobs 2"))

    def test_it_says_how_far_it_is(self):
        it = self.build("--jobs", "2")
        first, *lines, last = it.stderr.splitlines()
        self.assertRegex(first, r"\Abpdesk: proving 6 crates .*/crates/bpdesk/out/log/\Z")
        self.assertRegex(last, r"\Abpdesk: built in \d+ s\Z")
        for name in ("base", "left", "right", "alone", "top"):
            begins = next(at for at, line in enumerate(lines) if re.match(rf"bpdesk: \[\d of 6\] {name} begins", line))
            ends = next(at for at, line in enumerate(lines) if re.match(rf"bpdesk: \[\d of 6\] {name} proved in \d+ s", line))
            self.assertLess(begins, ends)
            self.assertIn("logic=proved", (self.program.parent / f"log/{name}.log").read_text())
        self.assertEqual(lines[-1], "bpdesk: [5 of 6] bpdesk begins")
        # Where nothing has changed there is nothing to say.
        again = self.build()
        self.assertEqual((again.returncode, again.stderr, again.stdout), (0, "", ""))

    def test_a_crate_that_changed_is_proved_again(self):
        self.whole(self.build())
        time.sleep(0.02)
        self.put("crates/right/src/lib.rt", "right, changed\n")
        before = len(self.proved())
        it = self.build()
        self.whole(it)
        self.assertEqual(self.proved()[before:], ["right"])
        self.assertIn("left is proved already", it.stderr)
        for name in ("left", "right"):
            self.assertIn("logic=proved", (self.program.parent / f"log/{name}.log").read_text())

    def test_a_crate_that_fails_stops_the_build(self):
        for other in ("alone", "right"):
            self.slow(other, 1000)
        self.put("crates/left/src/lib.rt", "left fails\n")
        it = self.build("--jobs", "4")
        self.assertEqual(it.returncode, 126)
        self.assertRegex(it.stderr, r"left could not be proved, after \d+ s; what rt said stands in .*/log/left.log\n\Z")
        self.assertNotIn("top", [name for _, name, _ in self.noted("begun")])
        self.put("crates/left/src/lib.rt", "left\n")
        for other in ("alone", "right"):
            self.slow(other, 0)
        self.whole(self.build("--jobs", "4"))
        self.assertEqual(self.proved().count("base"), 1)

    def test_a_build_that_is_stopped_goes_on_where_it_was(self):
        for number in (signal.SIGINT, signal.SIGTERM, signal.SIGHUP, signal.SIGKILL):
            with self.subTest(signal=number):
                self.put("crates/base/src/lib.rt", f"base {number}\n")
                self.slow("left", 1000)
                process = self.start("--jobs", "2")
                self.await_work("left")
                os.killpg(process.pid, number) if number in (signal.SIGINT, signal.SIGKILL) else process.send_signal(number)
                said = process.stderr.read()
                status = process.wait(desk.PATIENCE)
                if number == signal.SIGKILL:
                    self.assertEqual(status, -number)
                else:
                    self.assertEqual((status, said.splitlines()[-1]), (130, "bpdesk: stopped: what is proved is kept, and the next run goes on from there"))
                    self.assertFalse((self.program.parent / "lanes").exists())
                    self.assertTrue(list((self.crates / "left/out/incremental").glob("slow*")), "what was proved of the crate is lost")
                self.slow("left", 0)
                before = self.proved()
                self.whole(self.build("--jobs", "2"))
                self.assertNotIn("base", self.proved()[len(before) :])
                self.assertTrue(list((self.crates / "left/out/incremental").glob("slow*")), "what was proved of the crate is lost")
                self.program.unlink()

    def test_an_orphan_of_a_build_that_was_killed_does_no_harm(self):
        self.slow("left", 8)
        process = self.start("--jobs", "2")
        self.await_call("left")
        process.kill()
        process.wait(desk.PATIENCE)
        self.whole(self.build("--jobs", "2"))

    def test_it_takes_no_other_words(self):
        for words in (("--help",), ("--jobs",), ("--jobs", "0"), ("--jobs", "x"), ("low",)):
            it = self.build(*words)
            self.assertEqual((it.returncode, it.stdout), (2, ""))
            self.assertIn("usage: tools/build", it.stderr)
        self.assertEqual(self.noted("begun"), [])
