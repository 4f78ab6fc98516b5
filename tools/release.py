#!/usr/bin/env python3
"""What make calls for a release. All of it uses what is built; nothing here proves anything.

  release.py refusal [--force]             prints why there can be no release of this tree, in one line, or nothing
  release.py dist [--force]                writes the tarball, the Debian package and their sums to target/dist
  release.py install PREFIX DESTDIR        puts the same files under DESTDIR and PREFIX
  release.py uninstall PREFIX DESTDIR      removes what install put there
  release.py tree                          prints git's name of this tree, or nothing if the tree has changes
  release.py gate TREE LINE                keeps the last line of the gate that ran on TREE, if that is still this tree

It refuses to release a tree with changes, or a version that CHANGELOG.md does not have. With --force it releases and
marks that in the names and in RELEASE.json. Tarball and package are the same bytes wherever and whenever they are
written.
"""

from __future__ import annotations

import argparse
import datetime
import hashlib
import io
import json
import lzma
import os
import pathlib
import re
import subprocess
import sys
import tarfile
import tempfile
from collections.abc import Iterable, Iterator, Mapping
from dataclasses import dataclass
from typing import Any

import built
from lta import origin

ROOT = built.ROOT
DIST = built.TARGET / "dist"
GATE = built.TARGET / "gate.json"
CHANGES = ROOT / "CHANGELOG.md"
BELIEVED = ROOT / "docs" / "believed.txt"
PLATFORM, DEBIAN_ARCHITECTURE = "linux-x86_64", "amd64"
PYTHON = "3.9"
GATE_NOT_RUN = "gate not run"
PACKAGE_FOLDER = "lib/mbirukaze"
PROGRAM = f"{PACKAGE_FOLDER}/desk"
RELEASE_FILE = "share/mbirukaze/RELEASE.json"
INSTALLED_FILE = "share/mbirukaze/installed.json"
EXECUTABLE, PLAIN, FOLDER = 0o755, 0o644, 0o755
LATEST = 2**33 - 1  # seconds that a tar can hold

CONTROL = """\
Package: mbirukaze
Version: {version}
Architecture: {architecture}
Maintainer: Mbirukaze maintainers <maintainers@users.noreply.mbirukaze.example>
Installed-Size: {kilobytes}
Depends: libc6 (>= {glibc}), python3 (>= {python})
Section: science
Priority: optional
Description: judgement of day-ahead coupling hours
 A proved C library that judges one hour of the day-ahead coupling by its case
 and the solver's proposal, and the commands desk and lta over it.
"""


class ReleaseError(Exception):
    """There is no release; the message is one line."""


@dataclass(frozen=True)
class File:
    """A file of the release: its bytes and mode, or of a symbolic link what it names."""

    data: bytes = b""
    mode: int = PLAIN
    link: str | None = None

    @property
    def sha256(self) -> str:
        return hashlib.sha256(self.data).hexdigest()


# All files of a release by their path.
Tree = dict[str, File]


# Which release.


def listed_versions() -> list[tuple[str, str]]:
    """The versions of CHANGELOG.md, newest first, each with its date."""
    return re.findall(r"^## (\d+\.\d+\.\d+), (\d{4}-\d{2}-\d{2})$", CHANGES.read_text(encoding="utf-8"), re.MULTILINE)


def marks() -> Iterator[tuple[str, str]]:
    """What speaks against a release of this tree: a word that marks it, and what to do."""
    version = origin.version()
    if not origin.is_checkout():
        yield "uncommitted", "this is no git checkout, so there is no commit: release from a clone"
    elif origin.is_dirty():
        yield "dirty", "the tree has changes that are not committed: commit them"
    if version not in dict(listed_versions()):
        yield "unlisted", f"CHANGELOG.md has no version {version}, which is the header's: add it"


def refusal() -> str:
    """Why there can be no release, in one line; empty where there can."""
    against = list(marks())
    why = "; ".join(words for _, words in against)
    return f"{why}; or FORCE=1, which marks the release as {' and '.join(mark for mark, _ in against)}" if why else ""


def seconds() -> int:
    """The time that every file of the release has: SOURCE_DATE_EPOCH, else the commit's, else the version's day."""
    given = os.environ.get("SOURCE_DATE_EPOCH")
    if not given and origin.is_checkout():
        given = origin.git("log", "-1", "--format=%ct")
    if given:
        if not re.fullmatch(r"[0-9]{1,10}", given) or int(given) > LATEST:
            raise ReleaseError(f"SOURCE_DATE_EPOCH: {given!r} is no number of seconds up to {LATEST}")
        return int(given)
    day = dict(listed_versions()).get(origin.version(), "2000-01-01")
    return int(datetime.datetime.fromisoformat(f"{day}T00:00:00+00:00").timestamp())


def day_of(version: str) -> str:
    """The day of a version, as its manual pages have it."""
    at = datetime.datetime.fromtimestamp(seconds(), datetime.timezone.utc)
    return dict(listed_versions()).get(version, f"{at:%Y-%m-%d}")


def clean_tree() -> str:
    """Git's name of this tree; empty if the tree has changes or is not git's."""
    return (origin.git("rev-parse", "HEAD^{tree}") or "") if origin.is_checkout() and not origin.is_dirty() else ""


def keep_gate(tree: str, line: str) -> None:
    """Keeps the last line of the gate that ran on a tree, if that is still this tree."""
    if tree and tree == clean_tree():
        GATE.write_text(json.dumps({"tree": tree, "line": line}) + "\n", encoding="utf-8")


def gate_line() -> str:
    """The last line of the gate, if it ran on this very tree."""
    try:
        record = json.loads(GATE.read_text(encoding="utf-8"))
        return str(record["line"]) if record["tree"] == clean_tree() else GATE_NOT_RUN
    except (OSError, ValueError, KeyError, TypeError):
        return GATE_NOT_RUN


def proved_functions() -> int:
    """How many functions the crates have that the library and the program are built of; rt proved each."""
    counts: dict[str, int] = {}
    for product in (built.LIBRARY, built.DESK):
        counts.update(built.read_record(product.path).get("functions", {}))
    return sum(counts.values())


def believed_paths() -> Iterator[str]:
    """The files that a reader must believe, in the order of the list; a pattern stands for all that it fits."""
    for line in BELIEVED.read_text(encoding="utf-8").splitlines():
        if line and not line.startswith("#"):
            found = sorted(ROOT.glob(line))
            if not found:
                raise ReleaseError(f"{BELIEVED.relative_to(ROOT)}: there is no {line}")
            yield from (path.relative_to(ROOT).as_posix() for path in found)


def believed() -> dict[str, Any]:
    paths = list(believed_paths())
    lines = "".join(f"{built.sha256_of(ROOT / path)}  {path}\n" for path in paths)
    return {"sha256": hashlib.sha256(lines.encode()).hexdigest(), "paths": paths}


def glibc_needed(files: Iterable[bytes]) -> str:
    """The newest version of the GNU C library that the release's machine code asks for."""
    found = [word for data in files for word in re.findall(rb"GLIBC_([0-9.]+)\0", data)]
    return ".".join(map(str, max(tuple(map(int, word.decode().split("."))) for word in found)))


# Its files.


def of_tree(path: str | pathlib.Path, mode: int = PLAIN) -> File:
    return File((ROOT / path).read_bytes(), mode)


def filled(path: str | pathlib.Path, **words: str) -> File:
    """A file in which @WORDS@ stand for what is known only here."""
    text = (ROOT / path).read_text(encoding="utf-8")
    for name, word in words.items():
        text = text.replace(f"@{name}@", word)
    return File(text.encode())


def folder_files(folder: str, *patterns: str) -> list[pathlib.Path]:
    """The files of a folder of the tree, by name."""
    return sorted(path for pattern in patterns for path in (ROOT / folder).glob(pattern))


def libraries(version: str) -> Iterator[tuple[str, File]]:
    """The library for hosts: header, archive, shared object with its names."""
    name, major = "lib/liblta_judgement", version.partition(".")[0]
    yield "include/lta_judgement.h", of_tree("include/lta_judgement.h")
    yield f"{name}.a", of_tree(built.LIBRARY.path)
    yield f"{name}.so.{version}", of_tree(built.SHARED)
    yield f"{name}.so.{major}", File(link=f"liblta_judgement.so.{version}")
    yield f"{name}.so", File(link=f"liblta_judgement.so.{major}")


def commands() -> Iterator[tuple[str, File]]:
    """desk and lta: the launchers, the proved program and the Python package."""
    yield "bin/desk", of_tree("desk", EXECUTABLE)
    yield "bin/lta", of_tree("lta", EXECUTABLE)
    yield PROGRAM, of_tree(built.DESK.path, EXECUTABLE)
    yield f"{PACKAGE_FOLDER}/version.py", of_tree("tools/version.py")
    for path in folder_files("tools/lta", "*.py", "*.txt", "*.css", "py.typed"):
        yield f"{PACKAGE_FOLDER}/lta/{path.name}", of_tree(path)
    # A file where Python would make a folder for bytecode, which no removal would find.
    yield f"{PACKAGE_FOLDER}/lta/__pycache__", File()


def documents(version: str, glibc: str) -> Iterator[tuple[str, File]]:
    for path in folder_files("docs/man", "*.1"):
        page = filled(path, VERSION=version, DATE=day_of(version), GLIBC=glibc)
        yield f"share/man/man1/{path.name}", page
    yield "share/bash-completion/completions/lta", of_tree("tools/lta_completion.sh")
    for name in ("COMMANDS.md", "GUARANTEE.md", "INTEGRATE.md", "FORMATS.md", "NUMBERS.md", "SCHEMA.md", "schema.json"):
        yield f"share/doc/mbirukaze/{name}", of_tree(f"docs/{name}")
    yield "share/doc/mbirukaze/CHANGELOG.md", of_tree("CHANGELOG.md")
    for path in folder_files("host", "*.c", "*.h"):
        yield f"share/doc/mbirukaze/examples/{path.name}", of_tree(path)
    for path in folder_files("host", "*.tsv"):
        yield f"share/mbirukaze/{path.name}", of_tree(path)
    for path in folder_files("samples", "*"):
        yield f"share/mbirukaze/samples/{path.name}", of_tree(path)


def pkg_config(version: str, prefix: str) -> File:
    """The file for pkg-config. Without a prefix it counts from where it stands, as pkg-config names and quotes that."""
    words = {"PREFIX": prefix, "QUOTE": '"'} if prefix else {"PREFIX": "${pcfiledir}/../..", "QUOTE": ""}
    return filled("host/lta_judgement.pc.in", VERSION=version, **words)


def release_tree(prefix: str = "") -> Tree:
    """All files of the release by their path, with the prefix under which they stay if they do."""
    version = origin.version()
    glibc = glibc_needed(path.read_bytes() for path in (built.SHARED, built.DESK.path))
    tree = dict([*libraries(version), *commands(), *documents(version, glibc)])
    tree["lib/pkgconfig/lta_judgement.pc"] = pkg_config(version, prefix)
    record = {
        "name": "mbirukaze",
        "version": version,
        "marks": [mark for mark, _ in marks()],
        "commit": origin.git("rev-parse", "HEAD") if origin.is_checkout() else origin.UNKNOWN,
        "kit": built.kit(),
        "gate": gate_line(),
        "proved_functions": proved_functions(),
        "needs": {"platform": PLATFORM, "glibc": glibc, "python": PYTHON},
        "library": f"lib/liblta_judgement.so.{version}",
        "program": PROGRAM,
        "believed": believed(),
        "files": {path: tree[path].sha256 for path in sorted(tree) if tree[path].link is None},
        "links": {path: tree[path].link for path in sorted(tree) if tree[path].link is not None},
    }
    tree[RELEASE_FILE] = File((json.dumps(record, indent=1) + "\n").encode())
    return tree


def folders_of(paths: Iterable[str]) -> list[str]:
    """The folders in which paths stand, outer ones first."""
    found = {parent.as_posix() for path in paths for parent in pathlib.PurePosixPath(path).parents}
    return sorted(found - {"."})


# Tarball and package.


def tar_bytes(tree: Mapping[str, File], top: str, time: int) -> bytes:
    """The tree as a tar under one folder: names in order, owner 0, given modes and one time."""
    out = io.BytesIO()
    with tarfile.open(fileobj=out, mode="w", format=tarfile.USTAR_FORMAT) as tar:

        def add(path: str, kind: bytes, mode: int, data: bytes = b"", link: str = "") -> None:
            info = tarfile.TarInfo(path)
            info.type, info.mode, info.mtime, info.size, info.linkname = kind, mode, time, len(data), link
            info.uname = info.gname = "root"
            tar.addfile(info, io.BytesIO(data))

        paths = {f"{top}/{path}": file for path, file in tree.items()}
        for path in sorted([*folders_of(paths), *paths]):
            file = paths.get(path)
            if file is None:
                add(path, tarfile.DIRTYPE, FOLDER)
            elif file.link is not None:
                add(path, tarfile.SYMTYPE, 0o777, link=file.link)
            else:
                add(path, tarfile.REGTYPE, file.mode, file.data)
    return out.getvalue()


def missing_folders(folder: pathlib.Path) -> Iterator[pathlib.Path]:
    """A folder and those above it that are not there, inner ones first."""
    while not folder.exists():
        yield folder
        folder = folder.parent


def write_tree(tree: Mapping[str, File], folder: pathlib.Path, time: int | None = None) -> None:
    """Writes a tree into a folder, each file whole; with the given modes, whatever the umask is."""
    for name in folders_of(tree):
        for path in reversed(list(missing_folders(folder / name))):
            path.mkdir()
            path.chmod(FOLDER)
    for name, file in tree.items():
        path = folder / name
        part = path.with_name(f".{path.name}.new")
        part.unlink(missing_ok=True)
        if file.link is not None:
            part.symlink_to(file.link)
        else:
            part.write_bytes(file.data)
            part.chmod(file.mode)
        os.replace(part, path)
    if time is not None:
        for name in [*tree, *reversed(folders_of(tree)), "."]:
            os.utime(folder / name, (time, time), follow_symlinks=False)


def write_package(tree: Mapping[str, File], version: str, glibc: str, path: pathlib.Path, time: int) -> None:
    """The Debian package, by dpkg-deb."""
    files = {f"usr/{name}": file for name, file in tree.items()}
    kilobytes = sum(-(-len(file.data) // 1024) for file in files.values())
    control = CONTROL.format(
        version=version, architecture=DEBIAN_ARCHITECTURE, kilobytes=kilobytes, glibc=glibc, python=PYTHON
    )
    files["DEBIAN/control"] = File(control.encode())
    # The loader's cache knows of the shared object, and no longer when that is gone.
    files["DEBIAN/triggers"] = File(b"activate-noawait ldconfig\n")
    with tempfile.TemporaryDirectory() as folder:
        staged = pathlib.Path(folder) / "package"
        write_tree(files, staged, time)
        # One thread: the compressed bytes are others with more.
        environment = {**os.environ, "SOURCE_DATE_EPOCH": str(time), "DPKG_DEB_THREADS_MAX": "1", "LC_ALL": "C.UTF-8"}
        command = ["dpkg-deb", "--root-owner-group", "-Zxz", "--build", str(staged), str(path)]
        try:
            done = subprocess.run(command, env=environment, capture_output=True, text=True, errors="replace")
        except OSError as fault:
            raise ReleaseError(f"dpkg-deb: {fault.strerror}; install dpkg") from None
        if done.returncode:
            raise ReleaseError(f"dpkg-deb: {built.one_line(done.stderr)}")


def dist(force: bool) -> None:
    """Writes the artefacts, and prints their names."""
    against = [mark for mark, _ in marks()]
    if against and not force:
        raise ReleaseError(refusal())
    time, tree = seconds(), release_tree()
    version = origin.marked(origin.version(), against)
    glibc = json.loads(tree[RELEASE_FILE].data)["needs"]["glibc"]
    top = f"mbirukaze-{version}-{PLATFORM}"
    DIST.mkdir(parents=True, exist_ok=True)
    with tempfile.TemporaryDirectory(dir=DIST) as name:
        folder = pathlib.Path(name)
        tarball, package = folder / f"{top}.tar.xz", folder / f"mbirukaze_{version}_{DEBIAN_ARCHITECTURE}.deb"
        tarball.write_bytes(lzma.compress(tar_bytes(tree, top, time), preset=9))
        write_package(tree, version, glibc, package, time)
        sums = folder / f"mbirukaze-{version}.sha256"
        sums.write_text("".join(f"{built.sha256_of(path)}  {path.name}\n" for path in (tarball, package)))
        for path in (tarball, package, sums):
            path.chmod(PLAIN)
            os.replace(path, DIST / path.name)
            print((DIST / path.name).relative_to(ROOT))


# Installed without a package.


def place(prefix: str, destination: str) -> pathlib.Path:
    """The folder that stands for the prefix."""
    return pathlib.Path(f"{destination}{prefix}")


def install(prefix: str, destination: str) -> None:
    """Puts the tree in place of what an earlier install put there, and notes what uninstall is to remove."""
    folder, tree = place(prefix, destination), release_tree(prefix)
    if (folder / INSTALLED_FILE).exists():
        uninstall(prefix, destination)
    names = [*folders_of([*tree, INSTALLED_FILE]), "."]
    new = {path for name in names for path in missing_folders(folder / name)}
    note = {
        "files": [*tree, INSTALLED_FILE],
        "folders": [os.path.relpath(path, folder) for path in sorted(new, key=lambda path: -len(path.parts))],
    }
    tree[INSTALLED_FILE] = File((json.dumps(note, indent=1) + "\n").encode())
    write_tree(tree, folder)


def uninstall(prefix: str, destination: str) -> None:
    """Removes the files that install put in place, and the folders that it made and that are empty now."""
    folder = place(prefix, destination)
    try:
        note = json.loads((folder / INSTALLED_FILE).read_text(encoding="utf-8"))
    except FileNotFoundError:
        raise ReleaseError(f"{folder}: nothing is installed there by make install") from None
    for name in note["files"]:
        (folder / name).unlink(missing_ok=True)
    for name in note["folders"]:
        path = pathlib.Path(os.path.normpath(folder / name))
        if path.is_dir() and not any(path.iterdir()):
            path.rmdir()


def parsed(arguments: list[str]) -> argparse.Namespace:
    parser = argparse.ArgumentParser(prog="release.py", allow_abbrev=False)
    commands_taken = parser.add_subparsers(dest="command", required=True)
    for name in ("refusal", "dist"):
        commands_taken.add_parser(name).add_argument("--force", action="store_true")
    for name in ("install", "uninstall"):
        made = commands_taken.add_parser(name)
        made.add_argument("prefix")
        made.add_argument("destination")
    commands_taken.add_parser("tree")
    gate = commands_taken.add_parser("gate")
    gate.add_argument("tree")
    gate.add_argument("line")
    return parser.parse_args(arguments)


def main(arguments: list[str]) -> int:
    options = parsed(arguments)
    try:
        if options.command == "refusal":
            print("" if options.force else refusal())
        elif options.command == "dist":
            dist(options.force)
        elif options.command == "tree":
            print(clean_tree())
        elif options.command == "gate":
            keep_gate(options.tree, options.line)
        else:
            {"install": install, "uninstall": uninstall}[options.command](options.prefix, options.destination)
    except (ReleaseError, origin.OriginError) as fault:
        sys.stderr.write(f"release: {fault}\n")
        return 2
    except OSError as fault:
        sys.stderr.write(f"release: {fault.filename}: {fault.strerror}\n")
        return 2
    return 0


if __name__ == "__main__":
    sys.exit(main(sys.argv[1:]))
