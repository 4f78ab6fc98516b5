"""The command lta: python3 -m lta, or this file by its path, as the launcher runs it."""

import os
import sys

if sys.version_info < (3, 9):
    sys.stderr.write("lta: python3 is Python %d.%d; install Python 3.9 or newer\n" % sys.version_info[:2])
    sys.exit(2)

if not __package__:
    # Python then looks for modules in the package's folder, where numbers.py is not Python's own.
    folder = os.path.dirname(__file__)
    sys.path[:] = [os.path.dirname(folder), *(place for place in sys.path if place != folder)]

try:
    from lta.cli import run
except KeyboardInterrupt:
    sys.exit(130)

run()
