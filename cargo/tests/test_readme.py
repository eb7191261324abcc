"""What the README of the packages says of them."""

import re
import unittest

from convert import TEMPLATES


class Readme(unittest.TestCase):
    def test_what_is_written_by_hand_is_named(self):
        text = (TEMPLATES / "README.md").read_text()
        named = set(re.findall(r"`([\w/-]+)`|`([\w/-]+\.rs)`", text.partition("Written by hand:")[2].partition("\n\n")[0]))
        named = {first or last for first, last in named}
        for package in ("binlog", "binlog-tools"):
            root = TEMPLATES / package / "src"
            for path in root.rglob("*.rs"):
                place = path.relative_to(root).parts
                name = place[0] if len(place) > 1 or path.name != "lib.rs" else f"{package}/src/lib.rs"
                self.assertIn(name, named)


if __name__ == "__main__":
    unittest.main()
