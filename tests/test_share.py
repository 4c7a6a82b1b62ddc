"""What is installed beside the program: the manual page and the completions, which follow the table of forms, and `make install`."""

import os
import pty
import re
import shutil
import subprocess
import sys
import tempfile
import time
import unittest
from importlib.machinery import SourceFileLoader
from importlib.util import module_from_spec, spec_from_loader
from pathlib import Path

import desk

SHARE = desk.ROOT / "share"
BASH = SHARE / "bash-completion/completions/bpdesk"
ZSH = SHARE / "zsh/site-functions"

# The program is never called: this is what the completed words are given to.
NOTE = 'bpdesk() { printf "%s\\n" "$*" >>"$NOTED"; }\n'

# Reads lines, and prints the words with which bash would complete each. Bash splits the words of a line as here.
LISTED = r"""
COMP_WORDBREAKS=$' \t\n"\'><=;|&(:@'
source "$1"
while IFS= read -r COMP_LINE; do
  COMP_POINT=${#COMP_LINE}
  mapfile -t COMP_WORDS < <(grep -oE '[=@:]+|[^ =@:]+' <<<"$COMP_LINE")
  [[ $COMP_LINE == *' ' ]] && COMP_WORDS+=('')
  COMP_CWORD=$((${#COMP_WORDS[@]} - 1))
  _bpdesk
  echo "${COMPREPLY[*]}"
done
"""


def loaded():
    """Returns the script that writes the files."""
    sys.dont_write_bytecode = True
    loader = SourceFileLoader("forms", str(desk.ROOT / "tools/forms"))
    module = module_from_spec(spec_from_loader("forms", loader))
    sys.modules["forms"] = module
    loader.exec_module(module)
    return module


FORMS = loaded()
TABLE, KEYS = FORMS.read_table(FORMS.TABLE.read_text())


def usage_lines():
    """Returns the lines of the usage that have a form each."""
    return re.findall(r"(?m)^  (\S.*)$", (SHARE / "usage.txt").read_text())


def ways():
    """Returns the words and the keys of each line of the usage."""
    return [(tuple(re.match(r"[a-z-]+( [a-z-]+(?!\S))?", line)[0].split()), re.findall(r"([a-z0-9-]+)=", line)) for line in usage_lines()]


def begun(word, others):
    """Returns how to type the word so that it is completed: its beginning that no other word has and a tab, or else all of it and a blank."""
    start = word[:-1]
    is_alone = start and not any(it.startswith(start) for it in others if it != word)
    return f"{start}\t" if is_alone else word + ("" if word.endswith("=") else " ")


class Terminal:
    """A shell at a terminal of its own."""

    def __init__(self, words, folder, noted, **more):
        self.noted = noted
        pid, self.end = pty.fork()
        if pid == 0:
            os.chdir(folder)
            os.execvpe(words[0], words, {"PATH": os.environ["PATH"], "HOME": folder, "TERM": "dumb", "NOTED": str(noted), **more})
        self.pid = pid

    def type(self, line):
        """Types a line and returns what its words were completed to."""
        before = self.lines()
        os.write(self.end, f"{line}\n".encode())
        until = time.monotonic() + desk.PATIENCE
        while len(self.lines()) == len(before):
            if time.monotonic() > until:
                raise AssertionError(f"the shell does nothing with {line!r}")
            os.set_blocking(self.end, False)
            try:
                os.read(self.end, 65536)
            except BlockingIOError:
                time.sleep(0.002)
        return self.lines()[-1]

    def lines(self):
        return self.noted.read_text().splitlines()

    def close(self):
        os.close(self.end)
        os.waitpid(self.pid, 0)


class Share(unittest.TestCase):
    def setUp(self):
        self.top = tempfile.mkdtemp(prefix="bpdesk-test-")
        self.addCleanup(shutil.rmtree, self.top, ignore_errors=True)
        self.noted = Path(self.top, "noted")
        self.noted.touch()

    def test_the_files_follow_the_table_of_forms(self):
        ran = subprocess.run([sys.executable, "-B", desk.ROOT / "tools/forms", "--check"], capture_output=True, text=True, timeout=desk.PATIENCE)
        self.assertEqual((ran.returncode, ran.stdout, ran.stderr), (0, "", ""), "run tools/forms")
        lines = usage_lines()
        for words, keys, takes_payload in TABLE:
            # (a form may be written in two ways, whose keys don't go together)
            own = [line for line in lines if line.split()[: len(words)] == list(words)]
            self.assertEqual(lines[: len(own)], own or [" ".join(words)])
            self.assertEqual(tuple(re.findall(r"([a-z0-9-]+)=", " ".join(own))), keys)
            self.assertEqual({line.endswith(" <FILE") for line in own}, {takes_payload})
            lines = lines[len(own) :]
        self.assertEqual(lines, [])

    def test_a_difference_is_told(self):
        table, document = FORMS.TABLE.read_text(), FORMS.DOCUMENT.read_text()
        for right, wrong in (("`client remove name=`", "`client remove policy=`"), ("`client remove name=`", "`client rename name=`"), ("| `copy` |", "| `copies` |"), ("`bprestore client= policy= [before=]`", "`bprestore policy= client= [before=]`"), ("`bprestore client= policy= [before=]`", "`bprestore policy= [before=]`"), ("[segment=] [fragment=]", "[fragment=] [segment=]")):
            with self.subTest(wrong=wrong), self.assertRaises(SystemExit):
                self.assertIn(right, document)
                changed = document.replace(right, wrong)
                FORMS.read_forms(table, changed)
                FORMS.read_keys(table, changed)

    def test_the_manual_page_renders(self):
        page = SHARE / "man/man1/bpdesk.1"
        environment = {"PATH": os.environ["PATH"], "LC_ALL": "C.UTF-8", "MANWIDTH": "200", "MANPAGER": "cat"}
        if shutil.which("man"):
            words = ["man", "--warnings=w", "-l", page]
        elif shutil.which("groff"):
            words = ["groff", "-man", "-ww", "-Tutf8", page]
        else:
            self.skipTest("there is no man and no groff")
        ran = subprocess.run(words, capture_output=True, text=True, env=environment, timeout=desk.PATIENCE)
        self.assertEqual((ran.returncode, ran.stderr), (0, ""))
        text = re.sub(r"\s+", " ", re.sub(r".\x08|\x1b\[[\d;]*m", "", ran.stdout))
        for line in usage_lines():
            self.assertIn(line, text)
        for key in KEYS:
            self.assertIn(f" {key}= ", text)
        for part in ("SYNOPSIS", "EXIT STATUS", "EXAMPLES", "not a vault at OFFSET", "0.nbv"):
            self.assertIn(part, text)
        self.assertNotIn("`", text)

    def completes_all(self, shell):
        """Types each form with each of its keys by their beginnings, and compares what the shell makes of them."""
        firsts = [*dict.fromkeys(words[0] for words, _, _ in TABLE)]
        for words, keys in ways():
            given = [key for key in keys if key not in ("calendar", "offset")]
            for moment in ("", "@5 "):
                seconds = [it[1] for it, _, _ in TABLE if it[0] == words[0] and len(it) == 2]
                typed = begun(words[0], [*firsts, *([] if moment else ["session"])])
                typed += "".join(begun(it, seconds) for it in words[1:])
                left = [f"{key}=" for it, all_keys, _ in TABLE if it == words for key in all_keys]
                for key in given:
                    typed += f"{begun(f'{key}=', left)}x "
                    left.remove(f"{key}=")
                with self.subTest(typed=typed):
                    self.assertEqual(shell.type(f"bpdesk ./v {moment}{typed}").rstrip(), f"./v {moment}{' '.join([*words, *(f'{key}=x' for key in given)])}")
        for other in ("calendar", "offset"):
            form = next(words for words, keys, _ in TABLE if other in keys)
            self.assertEqual(shell.type(f"bpdesk ./v {' '.join(form)} {other[:3]}\tx"), f"./v {' '.join(form)} {other}=x")
        self.assertEqual(shell.type("bpdesk ./v bpplsched add kin\tcu\twin\tnone"), "./v bpplsched add kind=cumul windows=none")
        self.assertEqual(shell.type("bpdesk ./v bppolicynew change act\tye\t"), "./v bppolicynew change active=yes")
        Path(self.top, "my vault").mkdir()
        self.assertEqual(shell.type("bpdesk my\t ses\t").rstrip().replace("/ ", " "), "my vault session")
        self.assertEqual(sorted(os.listdir(self.top)), ["my vault", "noted", *(["rc"] if Path(self.top, "rc").exists() else [])])

    def test_bash_completes_each_form_and_key(self):
        Path(self.top, "rc").write_text(f"PS1=\nbind 'set enable-bracketed-paste off'\nsource '{BASH}'\n{NOTE}")
        shell = Terminal(["bash", "--noprofile", "--rcfile", "rc", "-i"], self.top, self.noted, INPUTRC="/dev/null", HISTFILE="/dev/null")
        self.addCleanup(shell.close)
        self.completes_all(shell)

    @unittest.skipUnless(shutil.which("zsh"), "there is no zsh")
    def test_zsh_completes_each_form_and_key(self):
        Path(self.top, ".zshrc").write_text(f"PS1=; unset HISTFILE zle_bracketed_paste\nfpath=('{ZSH}' $fpath)\nautoload -Uz compinit && compinit -D -u\n{NOTE}")
        shell = Terminal(["zsh", "-d", "-i"], self.top, self.noted, ZDOTDIR=self.top)
        self.addCleanup(shell.close)
        rc = Path(self.top, ".zshrc")
        self.assertEqual(shell.type("bpdesk begins"), "begins")
        rc.unlink()
        self.completes_all(shell)

    def test_what_bash_lists(self):
        firsts = " ".join(dict.fromkeys(words[0] for words, _, _ in TABLE))
        rows = [
            ("bpdesk ./v ", f"{firsts} session"),
            ("bpdesk ./v @5 ", firsts),
            ("bpdesk ./v unit ", "add change"),
            ("bpdesk ./v @5 unit ", "add change"),
            ("bpdesk ./v bpplsched add ", "policy= schedule= kind= frequency= calendar= windows="),
            ("bpdesk ./v bpplsched add policy=p frequency=5 kind=full ", "schedule= windows="),
            ("bpdesk ./v bpzone set rule=UTC0 ", ""),
            ("bpdesk ./v bprestore ", "id= copy= client= policy= before="),
            ("bpdesk ./v bprestore copy=1 ", "id="),
            ("bpdesk ./v bprestore before=5 ", "client= policy="),
            ("bpdesk ./v bpbackup client=a ", "policy= schedule= start="),
            ("bpdesk ./v bpplsched add kind=", "full diff cumul"),
            ("bpdesk ./v bpplsched add kind=d", "diff"),
            ("bpdesk ./v bpbackup client=a start=", "manual scheduled"),
            ("bpdesk ./v bpbackup client=", ""),
            ("bpdesk ./v frobnicate ", ""),
            ("bpdesk ./v session ", ""),
            ("bpdesk ./v bpload ", ""),
            ("bpdesk ./v client grow ", ""),
        ]
        ran = subprocess.run(["bash", "-c", LISTED, "bash", BASH], input="".join(f"{line}\n" for line, _ in rows), capture_output=True, text=True, timeout=desk.PATIENCE)
        self.assertEqual(ran.stderr, "")
        self.assertEqual(list(zip([line for line, _ in rows], ran.stdout.split("\n"))), rows)

    @unittest.skipUnless(shutil.which("make"), "there is no make")
    def test_make_install_and_uninstall(self):
        for file in ("Makefile", *(it.relative_to(desk.ROOT) for it in SHARE.rglob("*") if it.is_file())):
            Path(self.top, file).parent.mkdir(parents=True, exist_ok=True)
            shutil.copy(desk.ROOT / file, Path(self.top, file))

        def make(*words):
            kept = {name: value for name, value in os.environ.items() if name not in ("MAKEFLAGS", "MFLAGS", "MAKELEVEL", "PREFIX", "DESTDIR")}
            return subprocess.run(["make", "-s", *words, f"PREFIX={self.top}/to"], cwd=self.top, capture_output=True, text=True, env=kept, timeout=desk.PATIENCE)

        without = make("install")
        self.assertNotEqual(without.returncode, 0)
        self.assertIn("run make first", without.stderr)
        built = Path(self.top, "crates/bpdesk/out/bpdesk")
        built.parent.mkdir(parents=True)
        shutil.copy(desk.PROGRAM if desk.is_built() else "/bin/true", built)
        self.assertEqual(make("install").stderr, "")
        to = Path(self.top, "to")
        placed = {str(it.relative_to(to)) for it in to.rglob("*") if it.is_file()}
        self.assertEqual(placed, {"bin/bpdesk", "share/man/man1/bpdesk.1", "share/bash-completion/completions/bpdesk", "share/zsh/site-functions/_bpdesk"})
        self.assertTrue(os.access(to / "bin/bpdesk", os.X_OK))
        if desk.is_built():
            # It is a copy that stands alone.
            shutil.rmtree(built.parent)
            ran = subprocess.run([to / "bin/bpdesk", "v", "@1", "bpbackup", "client=a"], input=b"", cwd=self.top, capture_output=True, timeout=desk.PATIENCE)
            self.assertEqual((ran.returncode, ran.stdout), (0, b"a_1\n"))
            if shutil.which("ldd"):
                needed = subprocess.run(["ldd", to / "bin/bpdesk"], capture_output=True, text=True, timeout=desk.PATIENCE).stdout
                self.assertEqual(re.sub(r"\S*(linux-vdso|libc\.so|libm\.so|ld-linux-x86-64\.so)\S*", "", re.sub(r" =>.*| \(0x\w+\)", "", needed)).split(), [], needed)
        self.assertEqual(make("uninstall").returncode, 0)
        self.assertEqual([it for it in to.rglob("*") if it.is_file()], [])
