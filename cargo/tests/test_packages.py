"""Packages that are put where an earlier run's are."""

import pickle
import tempfile
import unittest
from pathlib import Path

from convert import SETTINGS_FILE, put_in_place
from rt_to_rust.tokens import Refusal


def write(folder, texts):
    for name, text in texts.items():
        file = folder / name
        file.parent.mkdir(parents=True, exist_ok=True)
        file.write_text(text)


class Packages(unittest.TestCase):
    def setUp(self):
        folder = tempfile.TemporaryDirectory()
        self.addCleanup(folder.cleanup)
        self.new, self.out = Path(folder.name, "new"), Path(folder.name, "out")

    def test_what_is_the_same_stays(self):
        write(self.out, {"binlog/src/lib.rs": "same", "binlog/src/a.rs": "old"})
        before = (self.out / "binlog/src/lib.rs").stat().st_ino, (self.out / "binlog/src/lib.rs").stat().st_mtime_ns
        write(self.new, {"binlog/src/lib.rs": "same", "binlog/src/a.rs": "new", "binlog/src/b/mod.rs": "more"})
        put_in_place(self.new, self.out)
        after = (self.out / "binlog/src/lib.rs").stat().st_ino, (self.out / "binlog/src/lib.rs").stat().st_mtime_ns
        self.assertEqual(before, after)
        self.assertEqual((self.out / "binlog/src/a.rs").read_text(), "new")
        self.assertEqual((self.out / "binlog/src/b/mod.rs").read_text(), "more")

    def test_what_is_no_longer_made_goes(self):
        write(self.out, {"binlog/src/gone.rs": "", "binlog-tools/examples/gone.rs": "", str(SETTINGS_FILE): ""})
        write(self.out, {"target/kept": "", "Cargo.lock": ""})
        write(self.new, {"Cargo.toml": ""})
        put_in_place(self.new, self.out)
        left = {path.relative_to(self.out).as_posix() for path in self.out.rglob("*") if path.is_file()}
        self.assertEqual(left, {"Cargo.toml", "Cargo.lock", "target/kept"})

    def test_a_refusal_comes_from_another_process(self):
        refused = pickle.loads(pickle.dumps(Refusal("a.rt", 3, "a form")))
        self.assertEqual(str(refused), "a.rt:3: a form")


if __name__ == "__main__":
    unittest.main()
