"""examples/python/spectrum.py: what it says of records whose story is known, and of the two samples."""
import contextlib
import importlib.util
import io
import pathlib
import tempfile
import unittest
from unittest import mock

import numpy as np

from .common import ROOT

PROGRAM = ROOT / "examples" / "python" / "spectrum.py"


def loaded():
    made = importlib.util.spec_from_file_location("spectrum", PROGRAM)
    module = importlib.util.module_from_spec(made)
    made.loader.exec_module(module)
    return module


spectrum = loaded()


def record(*rounds, dims=1):
    """Rounds of (bound, leading values...), filled up with values far below."""
    width = dims + 8
    return np.array([[bound, *values, *np.linspace(0.5, 0.4, width - len(values))] for bound, *values in rounds])


class Spectra(unittest.TestCase):
    def setUp(self):
        folder = tempfile.TemporaryDirectory()
        self.addCleanup(folder.cleanup)
        self.folder = pathlib.Path(folder.name)

    def stored(self, array, name="record.npy"):
        np.save(self.folder / name, array)
        return str(self.folder / name)

    def run_program(self, *words):
        """What it prints, and what it ends with."""
        out = io.StringIO()
        with mock.patch("sys.argv", ["spectrum.py", *words]), contextlib.redirect_stdout(out):
            try:
                spectrum.main()
            except SystemExit as ended:
                return out.getvalue(), str(ended.code)
        return out.getvalue(), None

    def picture(self, text):
        """The lines of the picture: labels as numbers, and what stands behind them."""
        lines = [line.split("|") for line in text.splitlines() if "|" in line]
        return [(float(label), cells) for label, cells in lines]

    def column(self, text, number, width):
        """What a round's column shows, from the top: marks and bound, each with its label."""
        found = [(label, cells[1 + number * width : (number + 1) * width].strip()) for label, cells in self.picture(text)]
        return [(label, cell) for label, cell in found if cell]

    def test_where_values_stand(self):
        """A, b and the bound in lines whose labels are near their values; the labels fall."""
        text, _ = self.run_program(self.stored(record((0.75, 0.99, 0.9), (0.9, 0.999, 0.9))))
        labels = [label for label, _ in self.picture(text)]
        self.assertEqual((len(labels), labels), (20, sorted(labels, reverse=True)))
        for number, expected in ((0, {"A": 0.99, "b": 0.9, "=" * 12: 0.75}), (1, {"A": 0.999, "b" + "=" * 11: 0.9})):
            found = {cell: label for label, cell in self.column(text, number, 13)}
            for cell, value in expected.items():
                self.assertAlmostEqual(np.log10(1 - found[cell]), np.log10(1 - value), delta=0.1)
        self.assertRegex(text, r"\n +round +1 +2\n")

    def test_settled_or_not(self):
        """By the share of the distance to the nearest other value that the last round moved it, to either side."""
        for moved, word in ((0.0, "settled"), (0.9e-3, "settled"), (-0.9e-3, "settled"), (1.1e-3, "NOT SETTLED"), (-1.1e-3, "NOT SETTLED")):
            text, _ = self.run_program(self.stored(record((0.75, 0.9 - moved, 0.8), (0.8, 0.9, 0.8))))
            line = next(line for line in text.splitlines() if line.startswith("  A "))
            self.assertTrue(line.endswith(f"1.0e-01 away   {word}"), line)
            self.assertEqual("A had not settled" in text, word != "settled")

    def test_ties_are_settled(self):
        """Two components: two values of 1, between which there is no distance."""
        text, _ = self.run_program(self.stored(record((0.75, 1.0, 1.0), (0.75, 1.0 + 1e-15, 1.0 - 1e-15), dims=2)))
        self.assertIn("All of the seed's columns had settled", text)
        for number in (0, 1):
            self.assertEqual(self.column(text, number, 13)[0], (1.0, "AB"))
        # the others are drawn as if these were not there
        self.assertGreater(len(self.column(text, 0, 13)), 3)

    def test_numbers_that_are_all_the_same(self):
        text, _ = self.run_program(self.stored(np.full((3, 10), 0.5)))
        self.assertEqual([label for label, _ in self.picture(text)], [0.5])
        self.assertEqual(self.column(text, 2, 13), [(0.5, "Abcdefghi===")])

    def test_one_round(self):
        text, _ = self.run_program(self.stored(record((0.75, 0.9))))
        self.assertIn("One round does not tell", text)
        self.assertRegex(text, r"\n  A  0\.900000000000 +-    4\.0e-01 away\n")
        self.assertNotIn("SETTLED", text)

    def test_many_rounds(self):
        """As many as there is room for; the first and the last two are among them."""
        rounds = [(0.75, 0.9 + number / 1e5) for number in range(1000)]
        text, _ = self.run_program(self.stored(record(*rounds)))
        shown = [int(word) for word in next(line for line in text.splitlines() if line.strip().startswith("round")).split()[1:]]
        self.assertEqual((len(shown), shown[0], shown[-2:]), (12, 1, [999, 1000]))
        self.assertLess(max(map(len, text.splitlines())), 160)

    def test_values_that_are_not_finite(self):
        text, _ = self.run_program(self.stored(record((0.75, np.inf, 0.8), (0.1, 0.95, 0.8, -np.inf, *[np.nan] * 6))))
        self.assertIn("Not drawn, as they are not finite: 8 of 18 values.", text)
        self.assertEqual([cell for _, cell in self.column(text, 1, 13)], ["A", "b", "============"])
        self.assertRegex(text, r"\n  A  0\.950000000000 +-    1\.5e-01 away   NOT SETTLED\n(.*\n)  c  not finite\n")

    def test_every_number_of_dimensions(self):
        """The seed's own values have capitals."""
        for dims in range(1, 8):
            own, others = "ABCDEFG"[:dims], "abcdefghijklmno"[dims : dims + 8]
            values = np.linspace(0.99, 0.5, dims + 8)
            text, _ = self.run_program(self.stored(np.array([[0.75, *values]] * 2)))
            marks = "".join(cell for _, cell in self.column(text, 1, 13)).replace("=", "")
            self.assertEqual(marks, own + others)

    def test_what_is_no_record(self):
        for wrong in (np.zeros(10), np.zeros((3, 9)), np.zeros((3, 17)), np.zeros((0, 10)), np.zeros((2, 10), np.float32), np.full((2, 10), np.nan)):
            text, ended = self.run_program(self.stored(wrong))
            self.assertEqual(text, "")
            self.assertRegex(ended, r"^examples/python/spectrum.py: .*record.npy: (not a Ritz record|no number of it is finite)")
        self.assertIn("No such file", self.run_program(str(self.folder / "none.npy"))[1])

    def test_image(self):
        """The letters, and beside them an image where matplotlib is there; a line and status 1 where it is not."""
        path, image = self.stored(record((0.75, 0.9, 0.8), (0.1, 0.95, 0.8, *[np.nan] * 7))), self.folder / "picture.png"
        letters, _ = self.run_program(path)
        with mock.patch.dict("sys.modules", matplotlib=None):
            self.assertEqual(self.run_program(path, "--png", str(image))[0], letters)
            self.assertRegex(self.run_program(path, "--png", str(image))[1], "matplotlib")
            self.assertFalse(image.exists())
        try:
            import matplotlib  # noqa: F401
        except ImportError:
            self.skipTest("this Python has no matplotlib")
        self.assertEqual(self.run_program(path, path, "--png", str(image)), (letters * 2, None))
        self.assertEqual(image.read_bytes()[:8], b"\x89PNG\r\n\x1a\n")

    def test_samples(self):
        """The easy one had settled, the difficult one had not."""
        text, ended = self.run_program()
        self.assertIsNone(ended)
        easy, difficult = text.split("difficult: ")
        self.assertIn("All of the seed's columns had settled", easy)
        self.assertIn("A and B had not settled", difficult)


if __name__ == "__main__":
    unittest.main()
