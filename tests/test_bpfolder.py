"""tools/bpfolder: folders that are backed up and come back as they were, and what is said of all that doesn't."""

import contextlib
import io
import os
import random
import re
import shutil
import socket
import subprocess
import sys
import time
from importlib.machinery import SourceFileLoader
from importlib.util import module_from_spec, spec_from_loader
from pathlib import Path

import desk
import vault
from desk import DeskTest
from streams import File, image, stream

TOOL = desk.ROOT / "tools/bpfolder"
HOME = "client=alpha policy=p"
SITE = [
    b"client add name=alpha",
    b"bppolicynew add policy=p type=files lifecycle=basic",
    b"bppolicynew client-add policy=p client=alpha",
    b"bppolicynew select policy=p path=/",
    b"bpplsched add policy=p schedule=f kind=full frequency=1 windows=none",
    b"bpplsched add policy=p schedule=d kind=diff frequency=1 windows=none",
    b"bpplsched add policy=p schedule=c kind=cumul frequency=1 windows=none",
]
START, DAY = 1_000_000_000, 86_400

# Stands for the program: once it is sent more than a pipe holds it does something, and then it is the program.
WAITS = """#!{python}
import os, select, sys
select.select([0], [], [])
{commands}
os.execv({program!r}, [{program!r}, *sys.argv[1:]])
"""


def loaded():
    """Returns the tool as a module."""
    sys.dont_write_bytecode = True
    loader = SourceFileLoader("bpfolder", str(TOOL))
    module = module_from_spec(spec_from_loader("bpfolder", loader))
    sys.modules["bpfolder"] = module
    loader.exec_module(module)
    return module


BPFOLDER = loaded()


def put(path, content, seconds=START):
    """Writes a file, with the folders above it that are missing, and gives it a time."""
    os.makedirs(os.path.dirname(path), exist_ok=True)
    with open(path, "wb") as file:
        file.write(content)
    os.utime(path, (seconds, seconds))


def contents(top):
    """Returns the path below a folder, the time and the bytes of each regular file, in the order of their paths."""
    found = []
    for folder, _, names in os.walk(os.fsencode(top)):
        for name in names:
            path = os.path.join(folder, name)
            if os.path.isfile(path) and not os.path.islink(path):
                with open(path, "rb") as file:
                    found.append(File(path[len(os.fsencode(top)) :], int(os.stat(path).st_mtime), file.read()))
    return sorted(found)


class FolderTest(DeskTest):
    def setUp(self):
        super().setUp()
        self.home = Path(self.top, "home")
        self.home.mkdir()
        self.desk.put(vault.files(vault.settings(*SITE)))

    def run_it(self, *words, program=desk.PROGRAM, **how):
        """Runs the tool with the program in the launcher's place."""
        environment = {name: value for name, value in os.environ.items() if name != "BPDESK"}
        if program:
            environment["BPDESK"] = str(program)
        ran = subprocess.run([sys.executable, "-B", TOOL, *words], input=b"", capture_output=True, env=environment, timeout=desk.PATIENCE, **how)
        return desk.Answer(ran.returncode, ran.stdout, ran.stderr)

    def back_up(self, words=f"@{START} {HOME}", folder=None, **how):
        return self.run_it("backup", self.desk.folder, *words.split(), str(folder or self.home), **how)

    def restore(self, words=HOME, folder=None, **how):
        """Restores into a new folder, or the one that is given, which is kept as `self.back`."""
        self.made += 1
        self.back = Path(folder or Path(self.top, f"back{self.made}"))
        return self.run_it("restore", self.desk.folder, *words.split(), str(self.back), **how)

    def says(self, answer, status, out, *lines):
        """Compares the status, the standard output and the whole of standard error, a line each."""
        told = answer.err.decode().splitlines()
        self.assertEqual((answer.status, desk.shown(answer.out), told), (status, desk.shown(out), [f"bpfolder: {it}" for it in lines]))

    def images(self):
        return [it for it in vault.read(self.desk.files()) if isinstance(it, vault.Image)]

    def comes_back(self, words=HOME, wanted=None, status=0, lines=()):
        self.says(self.restore(words), status, b"", *lines)
        self.assertTrue(contents(self.back) == (contents(self.home) if wanted is None else wanted), "another tree came back")


class Days(FolderTest):
    FILES = 2_000
    KINDS = "fddcdddcfdd"

    def paths(self, draw, count, tag):
        """Returns so many new paths, in folders that lie in one another."""
        for number in range(count):
            depth = draw.randrange(4)
            folders = [f"d{draw.randrange(6)}" for _ in range(depth)]
            yield Path(self.home, *folders, f"{tag}{number}{draw.choice(['', '.txt', ' b', chr(233)])}")

    def changes(self, draw, day):
        """Changes the folder as a day does, between the backup before and that of the day."""
        there = sorted(it for it in self.home.rglob("*") if it.is_file())
        draw.shuffle(there)
        at = (START + (day - 1) * DAY + it for it in draw.sample(range(DAY), 200))
        for path in there[:30]:
            put(path, draw.randbytes(draw.randrange(40)), next(at))
        for path in there[30:45]:
            os.utime(path, (now := next(at), now))
        for path in there[45:60]:
            path.unlink()
        for path, new in zip(there[60:75], self.paths(draw, 15, f"renamed{day}.")):
            new.parent.mkdir(parents=True, exist_ok=True)
            path.rename(new)
            # (with its old time no incremental image would take it)
            os.utime(new, (now := next(at), now))
        for path in self.paths(draw, 15, f"new{day}."):
            put(path, draw.randbytes(draw.randrange(100)), next(at))
        # A file becomes a folder, a folder goes with all that is in it, and a time falls on the very second of the backup before.
        there[75].unlink()
        put(there[75] / "in a folder", b"x", next(at))
        shutil.rmtree(min((it for it in self.home.rglob("*") if it.is_dir()), key=lambda it: (len(list(it.rglob("*"))), it)))
        put(there[76], b"at once", START + (day - 1) * DAY)

    def test_ten_days_of_two_thousand_files(self):
        draw = random.Random(7)
        for path in self.paths(draw, self.FILES, "f"):
            put(path, draw.randbytes(draw.randrange(60)), START - draw.randrange(1, 10**8))
        self.assertEqual(len(contents(self.home)), self.FILES)
        days = []
        for day, kind in enumerate(self.KINDS):
            if day:
                self.changes(draw, day)
            now = START + day * DAY
            self.says(self.back_up(f"@{now} {HOME} schedule={kind}"), 0, b"alpha_%d\n" % now)
            days.append(contents(self.home))
        kept = self.images()
        self.assertEqual([it.kind for it in kept], ["fdc".index(kind) for kind in self.KINDS])
        self.assertEqual(kept[0].payload, image(*days[0]))
        # An incremental image has what changed, and of the rest the paths.
        self.assertLess(max(it.payload.count(b"\1\0") for it, kind in zip(kept, self.KINDS) if kind == "d"), 300)
        for day, wanted in enumerate(days):
            with self.subTest(day=day):
                self.comes_back(f"{HOME} before={START + day * DAY + draw.randrange(DAY)}", wanted)
        self.comes_back(f"@{START + 2 * DAY} {HOME}", days[2])
        self.says(self.restore(f"{HOME} before={START - 1}"), 4, b"p/alpha unknown\n")
        self.assertFalse(self.back.exists())


class Kept(FolderTest):
    def test_the_stream_is_these_files(self):
        paths = [b"a", b"a.b", b"a-b", b"B", b"d/a", b"d.a", b"d-a", b"d/e/f", b"d/e.f", b" ", b"..a", b"\xff\xfe", "\u00e9".encode(), b"'\"\\$(x)", b"\x01\t", b"z" * 255]
        for number, path in enumerate(paths):
            put(os.path.join(os.fsencode(self.home), path), b"%d" % number, START + number)
        self.says(self.back_up(), 0, b"alpha_%d\n" % START)
        wanted = sorted(File(b"/" + path, START + number, b"%d" % number) for number, path in enumerate(paths))
        self.assertEqual(self.images()[0].payload, image(*wanted))
        self.comes_back(wanted=wanted)

    def test_a_folder_without_files(self):
        (self.home / "d/e").mkdir(parents=True)
        self.says(self.back_up(), 0, b"alpha_%d\n" % START, "there is no regular file in the folder")
        self.comes_back()
        self.assertEqual(os.listdir(self.back), [])

    def test_times_are_whole_seconds(self):
        put(self.home / "a", b"x")
        os.utime(self.home / "a", ns=(0, 5_999_999_999))
        self.says(self.back_up(), 0, b"alpha_%d\n" % START)
        self.assertEqual(self.images()[0].payload, image(File(b"/a", 5, b"x")))
        self.says(self.restore(), 0, b"")
        self.assertEqual((self.back / "a").stat().st_mtime_ns, 5_000_000_000)

    def test_what_comes_back_is_open_to_its_owner_alone(self):
        put(self.home / "d/a", b"x")
        os.chmod(self.home / "d/a", 0o666)
        self.back_up()
        self.says(self.restore(umask=0), 0, b"")
        self.assertEqual([it.stat().st_mode & 0o777 for it in (self.back, self.back / "d", self.back / "d/a")], [0o700, 0o700, 0o600])

    def test_files_that_are_one(self):
        """A second name of a file is a file of its own."""
        put(self.home / "a", b"x")
        os.link(self.home / "a", self.home / "b")
        self.says(self.back_up(), 0, b"alpha_%d\n" % START)
        self.comes_back()
        self.assertEqual((self.back / "a").stat().st_nlink, 1)

    def test_a_name_that_changed_alone(self):
        """With its old time no incremental image takes the file under its new name. The next full one does."""
        put(self.home / "a", b"x", START - 5)
        put(self.home / "b", b"y", START - 5)
        self.back_up()
        (self.home / "a").rename(self.home / "c")
        (self.home / "b").write_bytes(b"z")
        os.utime(self.home / "b", (START - 5, START - 5))
        self.says(self.back_up(f"@{START + 10} {HOME} schedule=d"), 0, b"alpha_%d\n" % (START + 10))
        self.comes_back(wanted=[File(b"/b", START - 5, b"y")])
        self.back_up(f"@{START + 20} {HOME} schedule=f")
        self.comes_back()

    def test_deep_folders(self):
        """A path of 1,024 bytes is the longest, and 512 folders in one another are the most that it has."""
        deep = b"/".join([b"d"] * 511) + b"/a"
        self.assertEqual(len(b"/" + deep), 1_024)
        put(os.path.join(os.fsencode(self.home), deep), b"x")
        self.says(self.back_up(), 0, b"alpha_%d\n" % START)
        self.comes_back()

    def test_the_schedule_and_the_selections(self):
        put(self.home / "a/b", b"x")
        put(self.home / "b/a", b"y")
        for words in ("bppolicynew unselect policy=p path=/", "bppolicynew select policy=p path=/a"):
            self.assertEqual(self.desk.run(words).status, 0)
        self.says(self.back_up(f"@{START} {HOME} schedule=c"), 0, b"alpha_%d\n" % START)
        self.assertEqual((self.images()[0].schedule, self.images()[0].kind), (b"c", 2))
        self.comes_back(wanted=[File(b"/a/b", START, b"x")])

    def test_an_empty_folder_that_is_there(self):
        put(self.home / "a", b"x")
        self.back_up()
        there = Path(self.top, "there")
        there.mkdir()
        self.says(self.restore(folder=there), 0, b"")
        self.assertEqual(contents(there), contents(self.home))

    def test_a_policy_of_another_type(self):
        """A raw policy keeps the stream as it is, and gives the latest one back."""
        put(self.home / "a", b"x")
        self.says(self.back_up(f"@{START} client=beta policy=adhoc"), 0, b"beta_%d\n" % START)
        self.assertEqual(self.images()[0].payload, stream(*contents(self.home)))
        self.comes_back("client=beta policy=adhoc")


class Moments(FolderTest):
    def test_what_changes_behind_a_backup_is_taken_by_the_next(self):
        """The image's time lies before its files were read, so a change in the same second is not before it."""
        # Three may be made in one second: the first two seconds before it, and each next one second later.
        for turn in range(3):
            put(self.home / "a", b"%d" % turn, time.time())
            before = int(time.time())
            answer = self.back_up(f"{HOME} schedule={'f' if turn == 0 else 'd'}")
            after = int(time.time())
            self.assertEqual((answer.status, answer.err), (0, b""))
            self.assertIn(self.images()[-1].time, range(before - 2, after + 1))
            self.comes_back()

    def test_images_that_are_ahead_of_the_clock(self):
        put(self.home / "a", b"x", time.time())
        ahead = 200_000_000_000
        self.says(self.back_up(f"@{ahead} {HOME}"), 0, b"alpha_%d\n" % ahead)
        answer = self.back_up(f"{HOME} schedule=d")
        line = f"the images of this client are ahead of the clock: what changed before {ahead + 1} is not taken by the next incremental image, so make a full one"
        self.says(answer, 90, b"alpha_%d\n" % (ahead + 1), f"{self.home}: {line}")


class LeftOut(FolderTest):
    def test_what_is_no_regular_file(self):
        """It is told, and the status is that of a backup that is whole: none of it is ever kept."""
        put(self.home / "a", b"x")
        put(self.home / "d/b", b"y")
        os.symlink("a", self.home / "to a file")
        os.symlink("d", self.home / "to a folder")
        os.symlink("nothing", self.home / "d/to nothing")
        os.mkfifo(self.home / "pipe")
        with socket.socket(socket.AF_UNIX) as one:
            one.bind(str(self.home / "socket"))
        self.says(
            self.back_up(),
            0,
            b"alpha_%d\n" % START,
            "/d/to nothing: it is a symbolic link, and is left out",
            "/pipe: it is a pipe, and is left out",
            "/socket: it is a socket, and is left out",
            "/to a file: it is a symbolic link, and is left out",
            "/to a folder: it is a symbolic link, and is left out",
        )
        self.comes_back(wanted=[File(b"/a", START, b"x"), File(b"/d/b", START, b"y")])

    def test_paths_that_the_format_cannot_hold(self):
        long, folder = "n" * 255, Path(self.home, *["n" * 255] * 3)
        put(folder / ("a" * 255), b"the longest")
        # (of one that is longer a folder already is told, as nothing can be in it)
        put(folder / ("b" * 254) / "c", b"too long")
        put(folder / ("b" * 255) / "c", b"far too long")
        put(self.home / "a\nb", b"x")
        put(self.home / "c\nd/e", b"x")
        put(self.home / "z", b"x")
        above = f"/{long}/{long}/{long}"
        self.says(
            self.back_up(),
            90,
            b"alpha_%d\n" % START,
            "/a\\nb: it is left out: a path has no line feed",
            "/c\\nd: the folder is left out with all that is in it: a path has no line feed",
            f"{above}/{'b' * 254}: the folder is left out with all that is in it: a path has at most 1024 bytes",
            f"{above}/{'b' * 255}: the folder is left out with all that is in it: a path has at most 1024 bytes",
        )
        self.comes_back(wanted=[File(f"{above}/{'a' * 255}".encode(), START, b"the longest"), File(b"/z", START, b"x")])

    def test_a_path_of_one_byte_more(self):
        put(self.home / "d" / ("n" * 255) / ("n" * 255) / ("n" * 255) / ("n" * 253), b"x")
        put(self.home / "d" / ("n" * 255) / ("n" * 255) / ("n" * 255) / ("m" * 254), b"x")
        path = f"/d/{'n' * 255}/{'n' * 255}/{'n' * 255}"
        self.assertEqual(len(path) + 1 + 254, 1_025)
        self.says(self.back_up(), 90, b"alpha_%d\n" % START, f"{path}/{'m' * 254}: it is left out: a path has at most 1024 bytes")
        self.comes_back(wanted=[File(f"{path}/{'n' * 253}".encode(), START, b"x")])

    def test_a_time_before_1970(self):
        put(self.home / "a", b"x", -1)
        put(self.home / "b", b"y", 0)
        self.says(self.back_up(), 90, b"alpha_%d\n" % START, "/a: its time is before 1970, and is sent as 0")
        self.comes_back(wanted=[File(b"/a", 0, b"x"), File(b"/b", 0, b"y")])

    def test_files_that_vanish_and_change_their_kind(self):
        """They were there when the folder was listed, and no more when they are opened. What is left is saved."""
        put(self.home / "a", bytes(1_000_000))
        for name in ("gone", "linked", "piped", "z"):
            put(self.home / name, b"x")
        put(self.home / "d/b", b"x")
        put(self.home / "e/b", b"x")
        put(self.home / "foldered", b"x")
        commands = ["os.chdir(sys.argv[1] + '/../home')", "os.remove('gone')", "os.remove('linked'); os.symlink('a', 'linked')", "os.remove('piped'); os.mkfifo('piped')"]
        commands += ["os.remove('d/b'); os.rmdir('d')", "os.rename('e', 'f'); os.symlink('f', 'e')", "os.remove('foldered'); os.mkdir('foldered')"]
        program = Path(self.top, "waits")
        program.write_text(WAITS.format(python=sys.executable, commands="\n".join(commands), program=str(desk.PROGRAM)))
        program.chmod(0o755)
        self.says(
            self.back_up(program=program),
            90,
            b"alpha_%d\n" % START,
            "/d: the folder is left out: No such file or directory",
            "/e: the folder is left out: Not a directory",
            "/foldered: it is left out: Is a directory",
            "/gone: it is left out: No such file or directory",
            "/linked: it is a symbolic link, and is left out",
            "/piped: it is a pipe, and is left out",
        )
        self.comes_back(wanted=[File(b"/a", START, bytes(1_000_000)), File(b"/z", START, b"x")])

    def test_files_that_change_while_they_are_read(self):
        """They are sent with the bytes that were read, and told."""

        class Changing(io.FileIO):
            def read(self, count):
                change(self.name)
                return super().read(count)

        def appended(path):
            with open(path, "ab") as file:
                file.write(b"more")

        rows = {
            "shrinks": (lambda path: os.truncate(path, 2), b"he"),
            "grows": (appended, b"hello"),
            "goes empty": (lambda path: os.truncate(path, 0), b""),
            "is written": (lambda path: put(path, b"jumbo", START + 1), b"jumbo"),
            "is not changed": (lambda path: None, b"hello"),
        }
        for name, (change, content) in rows.items():
            with self.subTest(name), contextlib.redirect_stderr(io.StringIO()) as told:
                path = self.home / "a"
                put(path, b"hello")
                sender = BPFOLDER.Sender(io.BytesIO(), self.desk.folder)
                with Changing(path) as file:
                    sender.send_file(file, b"/a")
                self.assertEqual(sender.out.getvalue(), stream(File(b"/a", START, content))[4:-1])
                self.assertEqual(sender.length, len(sender.out.getvalue()))
                self.assertEqual((sender.is_whole, told.getvalue()), (True, "") if name == "is not changed" else (False, "bpfolder: /a: it changed while it was read, and is sent as it was read\n"))

    def test_files_that_may_not_be_read(self):
        for name in ("a", "b", "d/c"):
            put(self.home / name, b"x")
        how, python = {}, sys.executable
        if os.geteuid() == 0:
            # (as another user, by a python that every user may run)
            how, python = {"user": 65534, "group": 65534, "extra_groups": []}, "/usr/bin/python3"
            for path in (self.top, self.desk.folder, self.home, self.home / "a", self.home / "b"):
                os.chmod(path, 0o755)
            for path in (self.desk.folder, self.desk.file()):
                os.chown(path, 65534, 65534)
        tool, program = shutil.copy(TOOL, Path(self.top, "tool")), shutil.copy(desk.PROGRAM, Path(self.top, "bpdesk"))
        os.chmod(self.home / "b", 0)
        os.chmod(self.home / "d", 0)
        self.addCleanup(os.chmod, self.home / "d", 0o700)
        command = [python, "-B", tool, "backup", self.desk.folder, f"@{START}", *HOME.split(), self.home]
        try:
            self.assertEqual(subprocess.run([program], capture_output=True, **how).returncode, 2)
            ran = subprocess.run(command, input=b"", capture_output=True, env={"PATH": os.environ["PATH"], "BPDESK": str(program)}, timeout=desk.PATIENCE, **how)
        except OSError as it:
            self.skipTest(f"nothing can be run as another user here: {it}")
        self.says(desk.Answer(ran.returncode, ran.stdout, ran.stderr), 90, b"alpha_%d\n" % START, "/b: it is left out: Permission denied", "/d: the folder is left out: Permission denied")
        self.assertEqual(self.images()[0].payload, image(File(b"/a", START, b"x")))

    def test_the_vault_itself(self):
        put(self.home / "a", b"x")
        self.desk.folder = str(shutil.move(self.desk.folder, self.home / "vault"))
        self.says(self.back_up(), 0, b"alpha_%d\n" % START, "/vault: it is the vault, and is left out")
        self.comes_back(wanted=[File(b"/a", START, b"x")])


class TooLarge(FolderTest):
    ENTRY = len(stream(File(b"/a", 0, b""))) - len(stream())

    def is_refused(self, words, file, files, length, size):
        before = self.desk.files()
        line = f"the folder is too large for one backup, whose stream has at most 67108864 bytes: {files} files make {length}, and {file} has {size} more. Nothing was backed up. Back up parts of the folder, each with a client or a policy of its own"
        self.says(self.back_up(words), 15, b"", line)
        self.assertTrue(self.desk.files() == before, "something was stored")

    def sparse(self, name, size):
        put(self.home / name, b"")
        os.truncate(self.home / name, size)

    def test_a_file(self):
        self.sparse("a", desk.LONGEST)
        # (of a raw policy each payload is taken, so one that is cut must not get there)
        for words in (f"@{START} {HOME}", f"@{START} client=beta policy=adhoc"):
            self.is_refused(words, "/a", 0, 4, desk.LONGEST)

    def test_one_byte(self):
        most = desk.LONGEST - len(stream()) - self.ENTRY
        self.sparse("a", most + 1)
        self.is_refused(f"@{START} {HOME}", "/a", 0, 4, most + 1)
        self.sparse("a", most)
        self.says(self.back_up(), 0, b"alpha_%d\n" % START)
        self.assertEqual(len(self.images()[0].payload), desk.LONGEST)
        self.says(self.restore(), 0, b"")
        self.assertEqual((self.back / "a").stat().st_size, most)

    def test_two_files(self):
        for name in "ab":
            self.sparse(name, 40_000_000)
        for words in (f"@{START} {HOME}", f"@{START} client=beta policy=adhoc"):
            self.is_refused(words, "/b", 1, 4 + self.ENTRY + 40_000_000, 40_000_000)


class Refused(FolderTest):
    """The program's status is handed on, with its reply on standard output and what it says on standard error."""

    def test_a_backup(self):
        put(self.home / "a", b"x")
        self.assertEqual(self.desk.run("bppolicynew change policy=p active=no").status, 0)
        before = self.desk.files()
        for words, status, out in (
            ("client=alpha policy=q", 4, b"q unknown\n"),
            ("client=beta policy=p", 4, b"beta unknown\n"),
            (f"{HOME} schedule=x", 4, b"p/x unknown\n"),
            (HOME, 7, b"p inactive\n"),
        ):
            with self.subTest(words=words):
                self.says(self.back_up(words), status, out)
        self.assertEqual(self.desk.files(), before)

    def test_a_refusal_before_all_was_sent(self):
        """A vault that is in use is refused at once, and the rest of the stream is not waited for."""
        put(self.home / "a", bytes(30_000_000))
        held = self.desk.start("session")
        held.stdin.write(b"frobnicate\n")
        held.stdin.flush()
        held.stdout.read(len(desk.frame(2, b"bad request at 0\n")))
        in_use = b"bpdesk: the vault %s is in use by another process\n" % os.fsencode(self.desk.folder)
        answer = self.back_up()
        self.assertEqual((answer.status, answer.out, answer.err), (18, b"disk fault\n", in_use))
        answer = self.restore()
        self.assertEqual((answer.status, answer.out, answer.err), (18, b"disk fault\n", in_use))
        self.assertFalse(self.back.exists())
        self.ending(held)

    def test_a_file_that_is_no_vault(self):
        self.desk.put(bytes(100))
        put(self.home / "a", b"x")
        for answer in (self.back_up(), self.restore()):
            self.assertEqual((answer.status, answer.out), (22, b"not a vault at 0\n"))
        self.assertEqual(self.desk.bytes(), bytes(100))

    def test_a_restore(self):
        for words, status, out in (
            ("client=alpha policy=q", 4, b"q unknown\n"),
            ("client=beta policy=p", 4, b"beta unknown\n"),
            (HOME, 4, b"p/alpha unknown\n"),
        ):
            with self.subTest(words=words):
                self.says(self.restore(words), status, out)
                self.assertFalse(self.back.exists())

    def test_a_chain_that_lacks_an_image(self):
        self.desk.put(vault.files(vault.settings(*SITE), vault.Image(b"alpha", 9, image(), 9, b"p", b"d", 1, 8)))
        self.says(self.restore(), 16, b"chain lacks alpha_8\n")

    def test_an_image_that_is_none(self):
        self.desk.put(vault.files(vault.settings(*SITE), vault.Image(b"alpha", 9, b"hello", 9, b"p", b"f")))
        self.says(self.restore(), 23, b"bad stream at 0\n")

    def stand_in(self, script):
        program = Path(self.top, "stand-in")
        program.write_text(f"#!/bin/sh\n{script}\n")
        program.chmod(0o755)
        return program

    def test_a_program_that_is_killed(self):
        put(self.home / "a", bytes(1_000_000))
        self.says(self.back_up(program=self.stand_in("kill -9 $$")), 137, b"")
        self.says(self.restore(program=self.stand_in("kill -9 $$")), 137, b"", "there was no answer")

    def test_no_program(self):
        self.says(self.back_up(program="/none"), 127, b"", "there is no program /none: the variable BPDESK may name it")
        self.assertEqual(self.images(), [])

    def test_an_answer_that_is_cut(self):
        whole = stream(File(b"/a", 5, b"hello"), File(b"/b", 5, b"hello"))
        for count in (0, 3, 4, 5, 20, 30, 45, len(whole) - 1):
            with self.subTest(count=count):
                Path(self.top, "cut").write_bytes(b"0 %d\n%s" % (len(whole), whole[:count]))
                answer = self.restore(program=self.stand_in(f"cat '{self.top}/cut'"))
                self.assertEqual((answer.status, answer.out), (92, b""))
                self.assertRegex(answer.err, rb"\Abpfolder: the answer is cut at \d+: what was restored isn't whole\n\Z")
        answer = self.restore(program=self.stand_in("cat; exit 21"))
        self.assertEqual((answer.status, answer.out), (21, b""))

    def test_bytes_that_are_no_stream(self):
        rows = [b"", b"NB", b"hello", image(), stream()[:-1], stream() + b"x", b"NBC1\2", b"NBC1\1\0\0", b"NBC1\1\xff\xff/", stream(File(b"a", 1, b"")), stream(File(b"/a\n", 1, b"")), stream(File(b"/a", 1, b""), File(b"/a", 1, b"")), b"NBC1\1\0\2/a" + b"\xff" * 16]
        for payload in rows:
            with self.subTest(payload=payload):
                self.desk.put(vault.files(vault.Image(b"beta", 9, payload, 9)))
                answer = self.restore("client=beta policy=adhoc")
                self.assertEqual((answer.status, answer.out), (92, b""))
                self.assertRegex(answer.err, rb"\Abpfolder: the answer is no stream of files at \d+: is the policy of type files\?\n\Z")


class Outside(FolderTest):
    """A restore writes below its folder and nowhere else."""

    def test_paths_that_lead_out_of_the_folder(self):
        names = [b"/..", b"/../out", b"/./a", b"/.", b"/", b"//a", b"/a/../../out", b"/d/", b"/d//e"]
        files = sorted([File(path, START, b"x") for path in [*names, b"/..a", b"/a/b", b"/z"]])
        self.desk.put(vault.files(vault.settings(*SITE), vault.Image(b"alpha", 9, image(*files), 9, b"p", b"f")))
        before = sorted(os.listdir(self.top))
        lines = [f"{path.decode()}: it is left out: its path has a part that is empty, . or .." for path in sorted(names)]
        self.comes_back(wanted=[File(path, START, b"x") for path in (b"/..a", b"/a/b", b"/z")], status=90, lines=lines)
        self.assertEqual(sorted(os.listdir(self.top)), sorted([*before, self.back.name]))

    def test_a_path_that_is_a_file_and_a_folder(self):
        files = [File(b"/a", START, b"x"), File(b"/a/b", START, b"y"), File(b"/a/b/c", START, b"z"), File(b"/d/e", START, b"x"), File(b"/d/e/f", START, b"y"), File(b"/d/g", START, b"z")]
        self.desk.put(vault.files(vault.settings(*SITE), vault.Image(b"alpha", 9, image(*files), 9, b"p", b"f")))
        lines = [f"{path}: it is left out: what would be a folder above it is a file" for path in ("/a/b", "/a/b/c", "/d/e/f")]
        self.comes_back(wanted=[files[0], files[3], files[5]], status=90, lines=lines)

    def test_names_that_no_folder_takes(self):
        files = [File(b"/" + b"n" * 256, START, b"x"), File(b"/" + b"n" * 300 + b"/a", START, b"x"), File(b"/z", 2**64 - 1, b"x")]
        self.desk.put(vault.files(vault.settings(*SITE), vault.Image(b"alpha", 9, image(*files), 9, b"p", b"f")))
        lines = [*(f"{it.path.decode()}: it is left out: File name too long" for it in files[:2]), f"/z: it can't have the time {2**64 - 1}"]
        self.says(self.restore(), 90, b"", *lines)
        self.assertEqual((self.back / "z").read_bytes(), b"x")

    def test_links_that_come_while_it_restores(self):
        """No link is followed, neither in place of a file nor of a folder."""
        put(self.home / "kept", b"as it was")
        (self.home / "d").mkdir()
        back = Path(self.top, "back")
        back.mkdir()
        os.symlink("../home/kept", back / "a")
        os.symlink("../home/d", back / "d")
        os.symlink("../home/new", back / "n")
        text = stream(File(b"/a", 5, b"x"), File(b"/b", 5, b"x"), File(b"/d/c", 5, b"x"), File(b"/n", 5, b"x"))
        with contextlib.redirect_stderr(io.StringIO()) as told:
            receiver = BPFOLDER.Receiver(os.open(back, os.O_RDONLY))
            receiver.receive(BPFOLDER.Answer(io.BytesIO(text), len(text)))
        self.assertEqual(re.findall(r"bpfolder: (\S+): it is left out", told.getvalue()), ["/a", "/d/c", "/n"])
        self.assertFalse(receiver.is_whole)
        self.assertEqual(sorted(os.listdir(self.home)), ["d", "kept"])
        self.assertEqual((os.listdir(self.home / "d"), (self.home / "kept").read_bytes(), (back / "b").read_bytes()), ([], b"as it was", b"x"))

    def test_folders_that_cannot_be_used(self):
        put(self.home / "a", b"x")
        self.back_up()
        full = Path(self.top, "full")
        put(full / ".hidden", b"x")
        self.says(self.restore(folder=full), 91, b"", f"{full} isn't empty")
        self.assertEqual(os.listdir(full), [".hidden"])
        self.says(self.restore(folder=full / ".hidden"), 91, b"", f"{full}/.hidden can't be read: Not a directory")
        self.says(self.restore(folder=full / "none/back"), 91, b"", f"{full}/none/back can't be made: No such file or directory")
        self.says(self.back_up(folder=full / "none"), 91, b"", f"{full}/none can't be read: No such file or directory")
        self.says(self.back_up(folder=full / ".hidden"), 91, b"", f"{full}/.hidden can't be read: Not a directory")
        self.assertEqual(len(self.images()), 1)


class Called(FolderTest):
    NAME = "a name, 1 to 64 of A-Z a-z 0-9 . _ -"
    # Words, and the line.
    BAD = [
        ("", "it is called with backup or restore, a vault, client=, policy= and a folder"),
        ("backup", "it is called with backup or restore, a vault, client=, policy= and a folder"),
        ("frobnicate v client=a policy=p f", "it is called with backup or restore, a vault, client=, policy= and a folder"),
        ("backup v f", "backup lacks client="),
        ("backup v client=a f", "backup lacks policy="),
        ("restore v policy=p f", "restore lacks client="),
        ("backup v client=a policy=p before=5 f", "before=5: between the vault and the folder stand client=, policy=, schedule=, each once"),
        ("restore v client=a policy=p schedule=s f", "schedule=s: between the vault and the folder stand client=, policy=, before=, each once"),
        ("restore v id=a_1 f", "id=a_1: between the vault and the folder stand client=, policy=, before=, each once"),
        ("backup v client=a client=a policy=p f", "client=a: between the vault and the folder stand client=, policy=, schedule=, each once"),
        ("backup v client=a policy=p f g", "f: between the vault and the folder stand client=, policy=, schedule=, each once"),
        ("backup v client=a/b policy=p f", f"client=a/b: client takes {NAME}"),
        ("backup v client= policy=p f", f"client=: client takes {NAME}"),
        (f"backup v client=a policy={'p' * 65} f", f"policy={'p' * 65}: policy takes {NAME}"),
        ("restore v client=a policy=p before=now f", "before=now: before takes a number from 0 to 250000000000"),
        ("restore v client=a policy=p before=250000000001 f", "before=250000000001: before takes a number from 0 to 250000000000"),
        ("restore v client=a policy=p before=05 f", "before=05: before takes a number from 0 to 250000000000"),
        ("backup v @x client=a policy=p f", "@x: a moment is @ and a number from 0 to 250000000000"),
        ("backup v client=a @5 policy=p f", "@5: between the vault and the folder stand client=, policy=, schedule=, each once"),
    ]

    def test_bad_words(self):
        usage = [f"{'usage:' if action == 'backup' else '      '} bpfolder {action} VAULT [@N] client=NAME policy=NAME [{key}] FOLDER" for action, key in (("backup", "schedule=NAME"), ("restore", "before=N"))]
        for words, line in self.BAD:
            with self.subTest(words=words):
                answer = self.run_it(*words.split(), cwd=self.top)
                self.assertEqual((answer.status, answer.out, answer.err.decode().splitlines()), (2, b"", [*usage, f"bpfolder: {line}"]))
        self.assertFalse(Path(self.top, "v").exists())

    def test_help(self):
        answer = self.run_it("--help")
        self.assertEqual((answer.status, answer.err), (0, b""))
        for status in (0, 2, 15, 90, 91, 92, 127):
            self.assertRegex(answer.out, rb"(?m)^  %d +\S" % status)

    def test_the_program_beside_it_or_on_the_path(self):
        put(self.home / "a", b"x")
        beside = Path(self.top, "repository/tools/bpfolder")
        beside.parent.mkdir(parents=True)
        shutil.copy(TOOL, beside)
        launcher = Path(self.top, "repository/bpdesk")
        launcher.symlink_to(desk.PROGRAM)
        words = ["backup", self.desk.folder, f"@{START}", *HOME.split(), str(self.home)]
        environment = {"PATH": os.environ["PATH"]}
        for turn in range(2):
            ran = subprocess.run([sys.executable, "-B", beside, *words], input=b"", capture_output=True, env=environment, timeout=desk.PATIENCE)
            self.says(desk.Answer(ran.returncode, ran.stdout, ran.stderr), 0, b"alpha_%d\n" % (START + turn))
            # The second time it is the one on the path.
            launcher.rename(Path(self.top, "bpdesk"))
            launcher = Path(self.top, "bpdesk")
            environment = {"PATH": f"{self.top}:{os.environ['PATH']}"}
