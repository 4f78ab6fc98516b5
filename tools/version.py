"""version.py COMMAND PROGRAM: prints which build a command is that runs a proved program, as lta --version does."""

from __future__ import annotations

import sys

from lta import origin


def program_belongs(path: str, sha256: str) -> bool:
    """Whether a program is the one that this tree or release has."""
    if origin.IN_REPOSITORY:
        # It was just built.
        return True
    return bool(sha256 == origin.release()["files"].get(origin.release()["program"]))


def main(command: str, path: str) -> int:
    try:
        sha256 = origin.sha256_of(path)
        print(origin.version_text(command, "program", sha256, program_belongs(path, sha256)), end="", flush=True)
    except (origin.OriginError, OSError) as fault:
        sys.stderr.write(f"{command}: {fault}\n")
        return 2
    return 0


if __name__ == "__main__":
    sys.exit(main(*sys.argv[1:]))
