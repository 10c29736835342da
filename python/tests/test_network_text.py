"""Tests of the writer of networks: what it writes is read as the same network, by Python and by the program."""

import unittest
from dataclasses import replace

from kolvunh import network_text, read_network, run, write_network

from .test_mistakes import program
from .worked import EXAMPLES, NETWORK, FilesTest


class NetworkTextTest(FilesTest):
    def test_the_same_network(self):
        worked = self.file(NETWORK, "worked.toml")
        for place in (worked, *(path for path in EXAMPLES.glob("*.toml") if not path.name.startswith("refused"))):
            network = read_network(place)
            write_network(network, self.folder / "again.toml")
            self.assertEqual(read_network(self.folder / "again.toml"), network, place)
            if program():
                self.assertEqual(run(["upgrade", self.folder / "again.toml"], [program()]).status, 0, place)

    def test_a_version_asks_for_each_mark_and_weight(self):
        for version in (2, 3):
            text = network_text(replace(read_network(self.file(NETWORK, "worked.toml")), version=version))
            self.assertEqual((text.count("skip = false"), text.count("weight = 1")), (4, 5))

    def test_texts_are_quoted(self):
        network = read_network(self.file(NETWORK.replace('name = "a"', 'name = "a\\"\\n]"'), "odd.toml"))
        self.assertEqual(read_network(self.file(network_text(network), "again.toml")), network)


if __name__ == "__main__":
    unittest.main()
