"""The launcher `bpdesk`, in a small repository with a stand-in for `rt`: it runs what is built, and builds where nothing is."""

import re
import shutil
import subprocess
import time
from pathlib import Path

import desk
from stand_in import RT, StandInTest

BUILT = "crates/low/src/lib.rt", "crates/low/specs/Lib.antt", "crates/low/proofs/f/Proof.antt"


class Launcher(StandInTest):
    def setUp(self):
        super().setUp()
        for file in BUILT:
            self.put(file, "low\n")

    def ran(self, it, words="2 words: a b"):
        self.assertEqual((it.returncode, it.stdout), (15, f"{words}\ninput"))
        self.assertTrue(it.stderr.endswith("told\n"))

    def test_it_builds_once_and_passes_everything_on(self):
        first = self.run_it("a", "bpload")
        self.ran(first, "2 words: a bpload")
        self.assertIn("building", first.stderr)
        self.assertEqual((self.kit / "taken").read_text(), "", "the build took the program's input")
        second = self.run_it("a", "b")
        self.ran(second)
        self.assertEqual(second.stderr, "told\n")
        self.assertEqual(self.builds(), 1)
        self.ran(self.run_it("", "* $HOME 'x'", ""), "3 words:  * $HOME 'x' ")
        self.ran(self.run_it(), "0 words: ")

    def build(self, **how):
        """Has the launcher build what is missing or older, and run nothing."""
        it = self.run_it("a", "b", BPDESK_BUILD_ONLY="yes", **how)
        self.assertEqual(it.stdout, "")
        return it

    def test_what_is_built_runs_though_it_is_older_and_a_line_says_so(self):
        self.build()
        time.sleep(0.02)
        self.put("crates/low/src/lib.rt", "low, changed\n")
        without = self.path.removeprefix(f"{self.kit}/bin:")
        for path in (None, without):
            it = self.run_it("a", "b", path=path)
            self.ran(it)
            self.assertRegex(it.stderr, r"\Abpdesk: the program is older than its sources, as crates/low/src[^\n]*: make [^\n]*\ntold\n\Z")
        self.assertEqual(self.builds(), 1)
        self.assertEqual(self.build().returncode, 0)
        self.assertEqual(self.run_it("a", "b").stderr, "told\n")
        self.assertEqual(self.builds(), 2)

    def test_each_change_of_a_file_is_built(self):
        self.build()
        places = ["crates.txt", "HANDLES", *BUILT, "crates/bpdesk/src/main.rt", "crates/low/src/new.rt"]
        for number, place in enumerate(places, 2):
            with self.subTest(place=place):
                time.sleep(0.02)
                with (self.repository / place).open("a") as file:
                    file.write("\n")
                self.assertEqual(self.build().returncode, 0)
                self.assertEqual(self.builds(), number)
                self.assertEqual(self.run_it("a", "b").stderr, "told\n")
        time.sleep(0.02)
        (self.crates / "low/src/new.rt").unlink()
        self.build()
        self.assertEqual(self.builds(), len(places) + 2)

    def test_another_kit_builds_anew(self):
        self.build()
        (self.kit / "KIT-ID").write_text("kit 2\n")
        self.ran(self.run_it("a", "b"))
        self.assertEqual(self.builds(), 1)
        for _ in range(2):
            self.assertEqual(self.build().returncode, 0)
        self.assertEqual(self.builds(), 2)

    def test_what_rt_built_after_the_last_change_is_taken(self):
        time.sleep(0.02)
        self.program.parent.mkdir()
        shutil.copyfile(self.source, self.program)
        self.program.chmod(0o755)
        self.ran(self.run_it("a", "b"))
        self.build()
        self.assertEqual(self.builds(), 0)

    def test_a_build_that_fails(self):
        for place in ("crates/bpdesk/src/main.rt", "crates/low/src/lib.rt"):
            right = (self.repository / place).read_text()
            self.put(place, "fails")
            it = self.run_it("a", "bpload")
            self.assertEqual((it.returncode, it.stdout), (126, ""))
            log = it.stderr.splitlines()[-1].partition(" stands in ")[2]
            self.assertIn("not proved", Path(log).read_text())
            self.put(place, right)
        time.sleep(0.02)
        self.assertEqual(self.build().returncode, 0)
        # A build that fails after a good one leaves the program as it is.
        time.sleep(0.02)
        self.source.write_text("fails")
        for _ in range(2):
            self.assertEqual(self.build().returncode, 126)
            it = self.run_it("a", "b")
            self.ran(it)
            self.assertIn("older", it.stderr)

    def test_without_rt(self):
        path = self.top / "without"
        path.mkdir()
        for name in ("bash", "env", "readlink", "find", "sed", "cat"):
            (path / name).symlink_to(shutil.which(name))
        (path / "python3").symlink_to(self.kit / "bin/python3")
        it = self.run_it("a", "bpload", path=str(path))
        self.assertEqual((it.returncode, it.stdout, len(it.stderr.splitlines())), (127, "", 1), it.stderr)
        self.assertIn("rt", it.stderr)
        # What is built runs without it.
        self.build()
        self.ran(self.run_it("a", "b", path=str(path)))

    def test_words_that_can_be_no_request_build_nothing(self):
        usage = (desk.ROOT / "share/usage.txt").read_text()
        self.assertRegex(usage, r"\Ausage: bpdesk FOLDER ")
        rows = [
            ((), ""),
            (("--help",), "bad request at 0\n"),
            (("./vault",), "bad request at 0\n"),
            (("./vault", "--version"), "bad request at 0\n"),
            (("./vault", ""), "bad request at 0\n"),
            (("./vault", "frobnicate", "name=a"), "bad request at 0\n"),
            (("./vault", "bpdesk"), "bad request at 0\n"),
            (("./vault", "@05", "client", "add"), "bad request at 0\n"),
            (("./vault", "@250000000001", "bpload"), "bad request at 0\n"),
            (("./vault", "@5"), "bad request at 1\n"),
            (("./vault", "@5", "session"), "bad request at 1\n"),
            (("./vault", "session", "more"), "bad request at 1\n"),
            (("./vault", "client"), "bad request at 1\n"),
            (("./vault", "client", "grow"), "bad request at 1\n"),
            (("./vault", "client", "name=a"), "bad request at 1\n"),
            (("./vault", "@5", "client"), "bad request at 2\n"),
        ]
        for words, out in rows:
            with self.subTest(words=words):
                it = self.run_it(*words)
                self.assertEqual((it.returncode, it.stdout, it.stderr), (2, out, usage))
                # The built program answers so too.
                if desk.is_built():
                    own = subprocess.run([desk.PROGRAM, *words], cwd=self.top, input="", stdout=subprocess.PIPE, stderr=subprocess.DEVNULL, text=True, timeout=desk.PATIENCE)
                    self.assertEqual((own.returncode, own.stdout), (2, out))
        self.assertEqual(self.builds(), 0)
        self.assertEqual(sorted(it.name for it in self.top.iterdir()), ["a repository", "kit"])

    def test_words_of_each_form_build(self):
        forms = re.findall(r"(?m)^  ([a-z-]+(?: [a-z-]+)?)(?: .*[=<].*)?$", (desk.ROOT / "share/usage.txt").read_text())
        self.assertGreaterEqual(len(forms), 18)
        # (in place of the build script, one that says that it was called)
        self.put("tools/build", "#!/bin/sh\nexit 99\n")
        for words in [*map(str.split, forms), ["session"], ["@5", "bpload"]]:
            with self.subTest(words=words):
                self.assertEqual(self.run_it("./vault", *words).returncode, 99)

    def test_two_at_once_build_once(self):
        self.rt.write_text(RT.replace("sources=", "sleep 0.3; sources="))
        both = [subprocess.Popen([self.repository / "bpdesk", "a", "bpload"], stdin=subprocess.PIPE, stdout=subprocess.PIPE, stderr=subprocess.PIPE, text=True, env=self.environment()) for _ in range(2)]
        told = []
        for process in both:
            out, err = process.communicate("input", timeout=desk.PATIENCE)
            self.assertEqual((process.returncode, out), (15, "2 words: a bpload\ninput"), err)
            told.append("another process is building" in err)
        self.assertEqual(sorted(told), [False, True])
        self.assertEqual(self.builds(), 1)

    def test_a_program_that_was_removed_is_built_again(self):
        self.build()
        self.program.unlink()
        self.ran(self.run_it("a", "bpload"), "2 words: a bpload")
        self.assertEqual(self.builds(), 2)

    def test_from_anywhere(self):
        (self.top / "elsewhere").mkdir()
        link = self.top / "elsewhere/desk"
        link.symlink_to("../a repository/bpdesk")
        again = self.top / "again"
        again.symlink_to(link)
        for launcher, cwd in ((link, "/"), (again, self.top), ("./desk", self.top / "elsewhere"), ("../a repository/bpdesk", self.top / "elsewhere")):
            with self.subTest(launcher=str(launcher)):
                self.ran(self.run_it("a", "bpload", launcher=launcher, cwd=cwd), "2 words: a bpload")
        self.assertEqual(self.builds(), 1)
        # A folder named by the words is below where the program is called.
        self.source.write_text("#!/bin/bash\n[ \"$1\" != \"${1%/crates.txt/none}\" ] && exit 18\npwd\n")
        self.build()
        self.assertEqual(self.run_it("a", "b", launcher=link, cwd=self.top / "elsewhere").stdout, f"{self.top / 'elsewhere'}\n")

    def test_it_is_fast_once_built(self):
        self.build()
        took = []
        for _ in range(20):
            began = time.monotonic()
            self.run_it("a")
            took.append(time.monotonic() - began)
        self.assertLess(min(took), 0.1)
