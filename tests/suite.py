"""What the tests in unittest share: a folder of their own, and the last line 'N passed, M failed'."""

from __future__ import annotations

import pathlib
import sys
import tempfile
import unittest


class InFolder(unittest.TestCase):
    """A test with a folder of its own."""

    def setUp(self) -> None:
        folder = tempfile.TemporaryDirectory()
        self.addCleanup(folder.cleanup)
        self.folder = pathlib.Path(folder.name)

    def file(self, name: str, data: bytes | str) -> pathlib.Path:
        path = self.folder / name
        path.parent.mkdir(parents=True, exist_ok=True)
        path.write_bytes(data if isinstance(data, bytes) else data.encode())
        return path


def main(module: str) -> int:
    """Runs the tests of a module, and gives the status."""
    suite = unittest.defaultTestLoader.loadTestsFromModule(sys.modules[module])
    result = unittest.TextTestRunner(stream=sys.stdout, verbosity=1).run(suite)
    faults = [getattr(test, "test_case", test).id() for test, _ in result.failures + result.errors]
    failed = len({*faults, *(test.id() for test in result.unexpectedSuccesses)})
    passed = max(result.testsRun - failed - len(result.skipped), 0)
    print(f"{passed} passed, {failed} failed")
    return 0 if passed and not failed else 1
