"""The Debian package, and the folder of the container's image: what they hold, and that what is in them runs alone."""

import os
import shutil
import subprocess
import tempfile
import unittest
from pathlib import Path

import desk

PACKAGING = desk.ROOT / "packaging"


class Packaging(unittest.TestCase):
    def setUp(self):
        self.top = Path(tempfile.mkdtemp(prefix="bpdesk-test-"))
        self.addCleanup(shutil.rmtree, self.top, ignore_errors=True)
        # (any program serves where none is built)
        self.program = desk.PROGRAM if desk.is_built() else Path("/bin/true").resolve()

    def run_it(self, *words, **more):
        ran = subprocess.run(words, cwd=self.top, capture_output=True, text=True, env={**os.environ, "BPDESK_PROGRAM": str(self.program), "VERSION": "1.0", **more}, timeout=desk.PATIENCE)
        self.assertEqual(ran.returncode, 0, ran.stderr)
        return ran.stdout

    def runs(self, program):
        if desk.is_built():
            ran = subprocess.run([program, "vault", "@1", "bpbackup", "client=a"], input=b"", cwd=self.top, capture_output=True, timeout=desk.PATIENCE)
            self.assertEqual((ran.returncode, ran.stdout), (0, b"a_1\n"))

    @unittest.skipUnless(shutil.which("dpkg-deb") and shutil.which("make"), "there is no dpkg-deb, or no make")
    def test_the_debian_package(self):
        made = [Path(self.run_it(PACKAGING / "deb", self.top / name, SOURCE_DATE_EPOCH="1000000000").strip()) for name in ("one", "two")]
        self.assertEqual([it.name for it in made], ["bpdesk_1.0_amd64.deb"] * 2)
        self.assertEqual(made[0].read_bytes(), made[1].read_bytes())
        fields = self.run_it("dpkg-deb", "--info", made[0])
        self.assertRegex(fields, r"Depends: libc6 \(>= \d[\d.]*\)")
        self.assertRegex(fields, r"Version: 1\.0")
        self.run_it("dpkg-deb", "--extract", made[0], self.top / "to")
        files = {str(it.relative_to(self.top / "to/usr")) for it in (self.top / "to").rglob("*") if it.is_file()}
        pages = {f"share/doc/bpdesk/{name}" for name in ("README.md", "operators.md", "vault.md")}
        self.assertEqual(files, {"bin/bpdesk", "share/man/man1/bpdesk.1.gz", "share/bash-completion/completions/bpdesk", "share/zsh/vendor-completions/_bpdesk", *pages})
        self.assertEqual((self.top / "to/usr/bin/bpdesk").read_bytes(), self.program.read_bytes())
        self.runs(self.top / "to/usr/bin/bpdesk")

    @unittest.skipUnless(shutil.which("ldd"), "there is no ldd")
    def test_the_root_of_an_image(self):
        """It holds the program and the C library, and the program runs with it as its root."""
        root = self.top / "image"
        (root / "usr/bin").mkdir(parents=True)
        shutil.copy(self.program, root / "usr/bin/bpdesk")
        self.run_it(PACKAGING / "with-libc", root)
        for file in (it for it in root.rglob("*") if it.is_file() and it.name != "bpdesk"):
            self.assertRegex(file.name, r"\A(libc|libm|ld-linux-x86-64)\.so\.")
        if os.geteuid() == 0 and desk.is_built():
            (root / "vault").mkdir(mode=0o700)
            os.chown(root / "vault", 65534, 65534)
            ran = subprocess.run(["chroot", "--userspec=65534:65534", root, "/usr/bin/bpdesk", "/vault", "@1", "bpbackup", "client=a"], input=b"", capture_output=True, timeout=desk.PATIENCE)
            self.assertEqual((ran.returncode, ran.stdout), (0, b"a_1\n"))

    @unittest.skipUnless(shutil.which("ldd"), "there is no ldd")
    def test_a_program_that_needs_more_makes_no_image(self):
        needed = subprocess.run(["ldd", Path("/bin/bash").resolve()], capture_output=True, text=True, timeout=desk.PATIENCE).stdout
        if "libtinfo" not in needed:
            self.skipTest("there is no program at hand that needs more than the C library")
        root = self.top / "image"
        (root / "usr/bin").mkdir(parents=True)
        shutil.copy(Path("/bin/bash").resolve(), root / "usr/bin/bpdesk")
        ran = subprocess.run([PACKAGING / "with-libc", root], capture_output=True, text=True, timeout=desk.PATIENCE)
        self.assertEqual(ran.returncode, 1)
        self.assertIn("not of the C library", ran.stderr)
