"""The address of the repository in the manifests."""

import unittest

from convert import public_address


class Repository(unittest.TestCase):
    def test_addresses(self):
        for remote in ("https://host/a/b.git", "git@host:a/b.git", "ssh://git@host/a/b", "https://host/a/b"):
            self.assertEqual(public_address(remote), "https://host/a/b")
        for remote in ("", "/srv/git/b.git", "http://host/a/b", "host:a/b"):
            self.assertIsNone(public_address(remote))

    def test_no_password_is_published(self):
        for own in ("token@", "name:secret@", "name:s@cret@", ":@"):
            self.assertEqual(public_address(f"https://{own}host:8443/a/b@c.git"), "https://host:8443/a/b@c")


if __name__ == "__main__":
    unittest.main()
