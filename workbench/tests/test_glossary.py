"""The meanings of names: at the head, in a name's line, and of a file of signals."""
import unittest

from glossary import glossary
from joined import heading_of
from support import WithFolder

TEXT = """// REQ-7: A request is granted within 3 instants.
// request: the client asks
// grant: the server answers: now
// other: no name of this file
var request, grant,
    power, // mains are on
    a, b; // no single name is in this line
prop idle as !request; // nobody asks
const far = 3; // instants
define first(p) as <p> || [!p] ^ <p>;
// power: this is not the head
infer [[idle]]; // and this is a comment
"""


class Glossary(WithFolder):
    def test_conventions(self):
        self.assertEqual(glossary(TEXT), {"request": "the client asks", "grant": "the server answers: now", "power": "mains are on",
                                          "idle": "nobody asks", "far": "instants"})
        self.assertEqual(heading_of(TEXT), ("REQ-7", "A request is granted within 3 instants. other: no name of this file"))

    def test_signals(self):
        """A file of signals gives the meanings that a text lacks, and those of its names alone."""
        signals = self.file("signals.txt", "power = volts > 200  // of the list\na // asked \xc3\xa4t once\nelsewhere // not declared\nb\n")
        found = glossary(TEXT, signals)
        self.assertEqual((found["power"], found["a"]), ("mains are on", "asked \u00e4t once"))
        self.assertFalse({"elsewhere", "b"} & found.keys())

    def test_faults(self):
        """A text with faults has names too; control bytes are not passed on."""
        self.assertEqual(glossary("var p // a\x1b[1m thing\ninfer p p p"), {"p": "a?[1m thing"})
        self.assertEqual(glossary("\xff var"), {})


if __name__ == "__main__":
    unittest.main()
