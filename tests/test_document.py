"""The documents: their worked commands print what they say and leave nothing behind, and the site files load."""

import os
import re
import shutil
import subprocess
from pathlib import Path

import desk
import streams
import vault
from desk import DeskTest

DOCUMENT = desk.ROOT / "docs/operators.md"
README = desk.ROOT / "README.md"
VAULT = desk.ROOT / "docs/vault.md"

# What some commands leave for those behind them.
KEPT = ("site.toml",)


def parts(document):
    """Returns the text before each fenced block, with the block."""
    return re.findall(r"(.*?)^```[^\n]*\n(.*?)^```$", document, re.DOTALL | re.MULTILINE)


def worked(document):
    """Returns each block of commands, with the block that says what they print."""
    found = parts(document)
    return [(before[1], after[1]) for before, after in zip(found, found[1:]) if re.fullmatch(r"\s*It prints:?\s*", after[0])]


def site_files(document):
    """Returns the site files, which are blocks or stand in blocks as the input of a command."""
    blocks = [block for _, block in parts(document)]
    blocks += [text for block in blocks for _, text in re.findall(r"<<'?(\w+)'?\n(.*?)^\1$", block, re.DOTALL | re.MULTILINE)]
    return [block for block in blocks if re.match(r"(#[^\n]*\n|\s)*\[", block) and re.search(r"^\[\[\w+\]\]$", block, re.MULTILINE)]


def tables(document):
    """Returns the bytes of each table that gives them with their offsets, which are those of its rows, one behind another."""
    found = []
    for offset, spelled in re.findall(r"^\| (\d+) \| `([0-9a-f ]+)` \|", document, re.MULTILINE):
        if offset == "0":
            found.append(b"")
        if int(offset) != len(found[-1]):
            raise ValueError(f"the bytes before {offset} are {len(found[-1])}")
        found[-1] += bytes.fromhex(spelled)
    return found


class Document(DeskTest):
    def test_worked_commands_print_what_it_says(self):
        """They are pasted one after another, at the top of a folder in which the program has the launcher's name, with the tools."""
        os.symlink(desk.PROGRAM, Path(self.top, "bpdesk"))
        Path(self.top, "tools").mkdir()
        shutil.copy(desk.ROOT / "tools/bpfolder", Path(self.top, "tools"))
        environment = {name: value for name, value in os.environ.items() if name != "BPDESK"}
        for document in (README, DOCUMENT):
            found = worked(document.read_text())
            self.assertTrue(found, f"no worked commands in {document}")
            for commands, printed in found:
                with self.subTest(commands=commands):
                    ran = subprocess.run(["bash"], input=commands, stdout=subprocess.PIPE, cwd=self.top, env=environment, text=True, timeout=desk.PATIENCE)
                    self.assertEqual(ran.stdout.rstrip("\n"), printed.rstrip("\n"))
                    left = {*os.listdir(self.top)} - {"bpdesk", "tools", *KEPT}
                    if "rm -r ./example " in f"{commands} ".replace("\n", " "):
                        self.assertEqual(left, set(), "the commands leave files behind")

    def test_each_status_has_what_a_script_does(self):
        def statuses(heading):
            part = DOCUMENT.read_text().split(f"\n## {heading}\n", 1)[1].split("\n## ", 1)[0]
            return {number for cell in re.findall(r"^\| ([\d, ]+) \|", part, re.MULTILINE) for number in cell.split(", ")}

        self.assertGreater(len(statuses("Statuses")), 15)
        self.assertEqual(statuses("Statuses") - statuses("What a script does with a status"), set())

    def test_readme_begins_with_its_two_commands(self):
        text = README.read_text()
        self.assertLess(len(text.split()), 1000)
        self.assertRegex(text, r"\A# [^\n]*\n\n[^\n]*\n\n    printf hello \| ./bpdesk ./vault bpbackup client=alpha\n    .ci/run\n\n")

    def test_each_site_file_loads(self):
        found = site_files(DOCUMENT.read_text())
        self.assertTrue(found, "no site file")
        for file in found:
            with self.subTest(file=file):
                one = self.new_desk()
                answer = one.run("bpload", payload=file.encode())
                self.assertEqual((answer.status, answer.err), (0, answer.made), answer.out)
                (record,) = vault.read(one.files())
                self.check(answer, 0, b"%d\n" % len(record.lines))
                self.assertGreater(len(record.lines), 1)

    def test_the_tables_of_the_vault_s_bytes(self):
        """Two are those of a journal, each after the first request on a new vault, and one is that of an image of files."""
        site, backup = self.new_desk(), self.new_desk()
        self.check_quiet(site.run("client add name=alpha"), 0, b"")
        self.check_quiet(backup.run("@1000 bpbackup client=alpha", payload=b"hello"), 0, b"alpha_1000\n")
        image = streams.image(streams.File(b"/a", 1500, b"A2"), streams.File(b"/b"))
        self.assertEqual(tables(VAULT.read_text()), [site.bytes(), backup.bytes(), image])

    def test_the_blocks_of_a_document_are_found(self):
        document = "Paste this:\n\n```sh\ncat >site <<'END'\n[[client]]\nname = 1\nEND\ncat site\n```\n\nIt prints\n\n```\n[[client]]\n```\n\nElse\n\n```\n[x]\n```\n"
        self.assertEqual(worked(document), [("cat >site <<'END'\n[[client]]\nname = 1\nEND\ncat site\n", "[[client]]\n")])
        self.assertEqual(site_files(document), ["[[client]]\n", "[[client]]\nname = 1\n"])
