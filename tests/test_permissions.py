"""Whom the folders and files that the program makes are open to: their owner alone, whatever the caller's mask."""

import os
import stat
from pathlib import Path

from desk import Desk, DeskTest


def mode(path):
    return stat.S_IMODE(os.stat(path).st_mode)


class Permissions(DeskTest):
    def test_what_is_made_is_for_its_owner_alone(self):
        for mask in (0, 0o022, 0o077):
            for words, payload, files in (("@1 bpbackup client=a", b"x", ["0.nbv", "2.nbv"]), ("bprestore id=a_1", b"", ["0.nbv"]), ("session", b"", ["0.nbv"])):
                with self.subTest(mask=oct(mask), words=words):
                    one = self.new_desk()
                    one.run(words, payload=payload, umask=mask)
                    self.assertEqual(mode(one.folder), 0o700)
                    self.assertEqual({name: mode(os.path.join(one.folder, name)) for name in os.listdir(one.folder)}, dict.fromkeys(files, 0o600))

    def test_the_folders_above_are_made_so_too(self):
        for path in ("one/two/vault", "one/three/vault/"):
            Desk(f"{self.top}/{path}").run("@1 bpbackup client=a", umask=0o022)
            self.assertEqual((mode(f"{self.top}/one"), mode(f"{self.top}/{path}/.."), mode(f"{self.top}/{path}")), (0o700,) * 3)

    def test_what_is_there_keeps_its_mode(self):
        Path(self.desk.folder).mkdir()
        os.chmod(self.desk.folder, 0o750)
        self.desk.file().touch()
        os.chmod(self.desk.file(), 0o640)
        self.check_quiet(self.desk.run("@1 bpbackup client=a", payload=b"x"), 0, b"a_1\n")
        self.assertEqual((mode(self.desk.folder), mode(self.desk.file())), (0o750, 0o640))
