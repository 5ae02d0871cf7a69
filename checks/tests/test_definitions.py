"""Definitions that a clause leads to."""
import pathlib
import tempfile
import unittest

from small import GATE, GATES, MORE, written

import definitions


class Definitions(unittest.TestCase):
    def setUp(self):
        folder = tempfile.TemporaryDirectory()
        self.addCleanup(folder.cleanup)
        self.known = definitions.read_definitions(written(pathlib.Path(folder.name)))

    def test_names_that_lead_on(self):
        found = self.known.reached("Opens self.old result", definitions.imports(GATE))
        self.assertEqual(["Opens", "Breaks", "tells"], list(found))
        self.assertIn("bad_weather", found["Breaks"][0])

    def test_a_name_that_is_not_taken_leads_nowhere(self):
        self.assertEqual({}, self.known.reached("Breaks tells Kept", definitions.imports(GATE)))

    def test_comments_are_left_out(self):
        self.assertNotIn("Hidden", self.known.text((("yard", "Gates"), "Opens")))

    def test_imports(self):
        file = definitions.imports(GATES)
        self.assertEqual({"more": ("yard", "More")}, file.modules)
        self.assertEqual({"says": (("yard", "More"), "tells")}, file.taken)

    def test_a_field(self):
        kept = self.known.text((("yard", "Gates"), "Kept"))
        self.assertEqual("pub first : status ≡ 3", definitions.field_of(kept, "first").strip())
        self.assertEqual("", definitions.field_of(kept, "third"))
        self.assertEqual("", definitions.field_of(MORE, "first"))


if __name__ == "__main__":
    unittest.main()
