"""That what a service costs is measured of what it says: each request and publication is answered."""
import tempfile
import unittest

from bench.service import Bench


class Measured(unittest.TestCase):
    def test_rates(self):
        bench = Bench(self.enterContext(tempfile.TemporaryDirectory()), 1)
        for figures in (bench.pipe(), bench.clients(5), bench.clients(1, is_hard=True)):
            for figure in figures:
                self.assertGreater(figure.rate, 0)
                self.assertGreater(len(figure.spent), 0)
                self.assertRegex(figure.told(), r"^ *[0-9,]+ a second(?: +[0-9.]+){3}$")
