"""What is told where the packed C file was made by another version of the toolchain."""
import contextlib
import io
import unittest
from pathlib import Path
from unittest import mock

import portable


class OfAnotherToolchain(unittest.TestCase):
    def test_it_counts_for_nothing(self) -> None:
        out = io.StringIO()
        with mock.patch.object(portable, "output_of", return_value="rattle-kit-1 logic 1\n"), contextlib.redirect_stdout(out):
            self.assertEqual(portable.results_of_bytes(b"/* made with rattle-kit-2 logic 1. */\n", Path()), [])
        self.assertIn("portable: left out ", out.getvalue())
