#!/usr/bin/env python3
"""Makes a release of the proved programs.

    python3 tools/release.py GATE_LOG [--to FOLDER] [--second CLONE]

From a clone without changes whose gate passed, and GATE_LOG, what the gate wrote (`.ci/run > GATE_LOG 2>&1`). FOLDER, out/release where
none is named, gets then

    kmdfsim-VERSION-x86_64.tar.gz   the programs, documents, examples, what editors need, man pages and completion
    kmdfsim_VERSION_amd64.deb       the same, for Debian and what stands on it (where `dpkg-deb` is on the PATH)
    Containerfile                   an image with the package
    PROVED                          the commit, the kit, and what it said of each crate that this run of the gate proved
    release.sums                    lines for tools/release.sums, by which `./kmdfsim prove` says whether its program is this one
    SHA256SUMS                      the checksums of all these

The files are the same, byte for byte, each time that they are made of the same commit and programs. With `--second CLONE`, another clone
of the commit whose gate passed, the programs there have to be the same, byte for byte; PROVED says whether they were compared.

It refuses, with 1: a clone with changes, a gate that didn't pass, and a program that isn't proved by what it says itself, by `--version`
and in its section `.comment`.
"""

from __future__ import annotations

import argparse
import dataclasses
import gzip
import hashlib
import os
import re
import shutil
import subprocess
import sys
import tarfile
import tempfile

sys.dont_write_bytecode = True
from program import NAMES, ROOT

# What a release has of the repository beside the programs, where it is there: for who runs it, and for who reads.
RUNNING = ("kmdfsim", "VERSION", "tools/command", "kmdfc", "fromc/kmdfc")
READING = ("README.md", "CHANGELOG.md", "LICENSE-MIT", "LICENSE-APACHE", "docs", "examples", "scenarios", "editors")
CONTROL = """Package: kmdfsim
Version: {version}
Architecture: amd64
Maintainer: {maintainer}
Depends: libc6 (>= 2.34), bash, python3 (>= 3.8)
Recommends: clang
Section: devel
Priority: optional
Description: simulator of driver scripts on a model of KMDF
 kmdfsim runs driver scripts on a written model of the Kernel-Mode Driver Framework
 and shows in which orders their callbacks can meet. Each run is proved to be one of
 the written machine.
"""
CONTAINERFILE = """FROM debian:bookworm-slim
COPY kmdfsim_{version}_amd64.deb /tmp/
RUN apt-get update && apt-get install -y --no-install-recommends /tmp/kmdfsim_{version}_amd64.deb && rm -rf /var/lib/apt/lists/* /tmp/*.deb
WORKDIR /work
ENTRYPOINT ["kmdfsim"]
"""


class Refused(Exception):
    """Why no release is made."""


@dataclasses.dataclass
class Release:
    """What is released: the version, the commit with its time and author, the programs, and what the kit said of the crates."""

    version: str
    commit: str
    time: int
    author: str
    kit: str
    programs: dict[str, str]
    verdicts: list[str]
    is_compared: bool


def said_by(*words: str, folder: str = ROOT, **environment: str) -> str:
    """What a command writes; a command that fails refuses the release."""
    try:
        done = subprocess.run(words, cwd=folder, env={**os.environ, **environment}, stdin=subprocess.DEVNULL, capture_output=True, text=True, check=True)
    except OSError as error:
        raise Refused(f"`{words[0]}` doesn't run: {error.strerror}") from error
    except subprocess.CalledProcessError as error:
        raise Refused(f"`{' '.join(words)}` ended with {error.returncode}: {error.stderr.strip()[-500:]}") from error
    return done.stdout.strip()


def sum_of(path: str) -> str:
    with open(path, "rb") as file:
        return hashlib.sha256(file.read()).hexdigest()


def clean_commit(clone: str) -> str:
    """The commit of a clone without changes."""
    changed = said_by("git", "status", "--porcelain", folder=clone)
    if changed:
        raise Refused(f"{clone} has changes: {', '.join(line[3:] for line in changed.splitlines()[:5])}")
    return said_by("git", "rev-parse", "HEAD", folder=clone)


def proved_program(name: str, version: str) -> str:
    """The path of a program that says of itself that it is proved."""
    said = said_by(os.path.join(ROOT, name), "--version", KMDFSIM_PROVED="1")
    if said != f"{name} {version} (proved)":
        raise Refused(f"`./{name} --version` says `{said}`, and not that {version} is proved")
    path = os.path.join(ROOT, "crates", name, "out", name)
    comment = said_by("readelf", "--string-dump=.comment", path)
    if "rattle logic=" not in comment:
        raise Refused(f"the section .comment of {path} names no logic that proved it")
    return path


def verdicts_of(log: str) -> list[str]:
    """What the kit said in a gate that passed: of each crate and its tests, and of all."""
    lines = log.strip().split("\n")
    if not re.fullmatch(r"[1-9]\d* passed, 0 failed", lines[-1]):
        raise Refused(f"the gate's last line is `{lines[-1][:80]}`, and not that nothing failed")
    told, crate = [], ""
    for line in lines:
        if line.startswith("== "):
            crate = line[3:]
        elif line.startswith("logic="):
            told.append(f"{crate}: {line}")
        elif re.match(r"rt: (ok;|\w+ is kept)", line):
            told.append(line)
    if not any(line.startswith("rt: ok;") for line in told):
        raise Refused("the gate's log has no line `rt: ok`, so it isn't the whole gate's")
    return [*told, lines[-1]]


def gathered(log: str, second: str | None) -> Release:
    """All that is released, or why it isn't."""
    with open(os.path.join(ROOT, "VERSION"), encoding="utf-8") as file:
        version = file.read().strip()
    commit = clean_commit(ROOT)
    with open(log, encoding="utf-8", errors="replace") as file:
        verdicts = verdicts_of(file.read())
    programs = {name: proved_program(name, version) for name in NAMES}
    if second:
        if clean_commit(second) != commit:
            raise Refused(f"{second} is a clone of another commit")
        for name, path in programs.items():
            if sum_of(os.path.join(second, "crates", name, "out", name)) != sum_of(path):
                raise Refused(f"{name} is another program in {second}")
    time, author = said_by("git", "log", "-1", "--format=%ct\t%an <%ae>").split("\t")
    return Release(version, commit, int(time), author, said_by("rt", "version"), programs, verdicts, bool(second))


def copy(names: tuple[str, ...], to: str):
    """Copies files and folders of the repository, as the commit has them."""
    for path in said_by("git", "ls-files", "--", *names).split("\n"):
        target = os.path.join(to, path)
        os.makedirs(os.path.dirname(target), exist_ok=True)
        if not os.path.basename(path).startswith("test_"):
            shutil.copy(os.path.join(ROOT, path), target, follow_symlinks=False)


def lay_out_programs(release: Release, to: str):
    """Puts what runs into a folder: the launcher by its three names, the programs, and what the launcher uses."""
    copy(RUNNING, to)
    os.makedirs(os.path.join(to, "proved"))
    for name, path in release.programs.items():
        shutil.copy(path, os.path.join(to, "proved", name))
        if name != NAMES[0]:
            os.symlink(NAMES[0], os.path.join(to, name))


def lay_out_pages(man: str, completion: str):
    """Writes the man pages and the files of completion."""
    pages = os.path.join(ROOT, "tools", "command", "pages.py")
    said_by(sys.executable, pages, "man", man)
    said_by(sys.executable, pages, "completion", completion)


def proved(release: Release) -> str:
    """The text of PROVED."""
    compared = "two clones were the same, byte for byte" if release.is_compared else "one clone; no second one was compared"
    head = [f"kmdfsim {release.version}", f"commit {release.commit}", f"kit {release.kit}", f"programs of {compared}"]
    programs = [f"{sum_of(path)}  {name}" for name, path in release.programs.items()]
    return "\n".join([*head, "", *programs, "", "What the kit said of the crates when the gate ran:", "", *release.verdicts]) + "\n"


def write_tar(folder: str, path: str, time: int):
    """Packs a folder. The same files make the same bytes."""

    def plain(entry: tarfile.TarInfo) -> tarfile.TarInfo:
        entry.mtime, entry.uid, entry.gid, entry.uname, entry.gname = time, 0, 0, "root", "root"
        entry.mode = 0o755 if entry.isdir() or entry.mode & 0o100 else 0o644
        return entry

    with open(path, "wb") as file, gzip.GzipFile(fileobj=file, mode="wb", filename="", mtime=time) as packed:
        with tarfile.open(fileobj=packed, mode="w", format=tarfile.USTAR_FORMAT) as tar:
            tar.add(folder, os.path.basename(folder), filter=plain)  # (in the order of the names)


def make_tarball(release: Release, room: str, to: str):
    top = os.path.join(room, f"kmdfsim-{release.version}-x86_64")
    os.makedirs(top)
    lay_out_programs(release, top)
    copy(READING, top)
    lay_out_pages(os.path.join(top, "man"), os.path.join(top, "completion"))
    with open(os.path.join(top, "PROVED"), "w", encoding="utf-8") as file:
        file.write(proved(release))
    write_tar(top, os.path.join(to, f"{os.path.basename(top)}.tar.gz"), release.time)


def make_package(release: Release, room: str, to: str):
    """Makes the package of Debian, or says that it is left out."""
    if not shutil.which("dpkg-deb"):
        print("left out: no `dpkg-deb` on the PATH makes the package", file=sys.stderr)
        return
    top, version = os.path.join(room, "package"), release.version
    library, share = os.path.join(top, "usr/lib/kmdfsim"), os.path.join(top, "usr/share")
    for folder in ("DEBIAN", "usr/bin", "usr/lib/kmdfsim", "usr/share/doc/kmdfsim"):
        os.makedirs(os.path.join(top, folder))
    lay_out_programs(release, library)
    for name in (*NAMES, "kmdfc"):
        if os.path.exists(os.path.join(library, name)):
            os.symlink(f"../lib/kmdfsim/{name}", os.path.join(top, "usr/bin", name))
    copy(READING, os.path.join(share, "doc/kmdfsim"))
    with open(os.path.join(ROOT, "LICENSE-MIT"), encoding="utf-8") as license_of:
        text = "kmdfsim may be used under the licence below, or under Apache-2.0 (/usr/share/common-licenses/Apache-2.0).\n\n" + license_of.read()
    files = {"DEBIAN/control": CONTROL.format(version=version, maintainer=release.author)}
    files.update({"usr/share/doc/kmdfsim/copyright": text, "usr/share/doc/kmdfsim/PROVED": proved(release)})
    for path, content in files.items():
        with open(os.path.join(top, path), "w", encoding="utf-8") as file:
            file.write(content)
    lay_out_pages(os.path.join(share, "man/man1"), os.path.join(room, "completion"))
    for name in sorted(os.listdir(os.path.join(room, "completion"))):
        kind = "zsh/vendor-completions" if name.startswith("_") else "bash-completion/completions"
        os.makedirs(os.path.join(share, kind), exist_ok=True)
        shutil.copy(os.path.join(room, "completion", name), os.path.join(share, kind, name))
    for name in NAMES[1:]:  # (bash looks for a file of the command's name)
        os.symlink(NAMES[0], os.path.join(share, "bash-completion/completions", name))
    for at, folders, names in os.walk(top):
        for name in [*folders, *names]:
            path = os.path.join(at, name)
            if not os.path.islink(path):
                os.chmod(path, 0o755 if os.path.isdir(path) or os.access(path, os.X_OK) else 0o644)
    made = os.path.join(to, f"kmdfsim_{version}_amd64.deb")
    said_by("dpkg-deb", "--root-owner-group", "-Zxz", "--build", top, made, SOURCE_DATE_EPOCH=str(release.time))


def make(release: Release, to: str):
    """Makes all files of the release in an empty folder."""
    with tempfile.TemporaryDirectory(prefix="kmdfsim-release-") as room:
        os.umask(0o022)
        make_tarball(release, room, to)
        make_package(release, room, to)
    sums = "".join(f"{release.version} {name} {sum_of(path)}\n" for name, path in release.programs.items())
    files = {"PROVED": proved(release), "release.sums": sums, "Containerfile": CONTAINERFILE.format(version=release.version)}
    for name, text in files.items():
        with open(os.path.join(to, name), "w", encoding="utf-8") as file:
            file.write(text)
    lines = [f"{sum_of(os.path.join(to, name))}  {name}\n" for name in sorted(os.listdir(to))]
    with open(os.path.join(to, "SHA256SUMS"), "w", encoding="utf-8") as file:
        file.writelines(lines)


def main() -> int:
    parser = argparse.ArgumentParser(description=__doc__.split("\n", maxsplit=1)[0])
    parser.add_argument("log", metavar="GATE_LOG", help="what the gate wrote")
    parser.add_argument("--to", metavar="FOLDER", default=os.path.join(ROOT, "out", "release"), help="where the release is put")
    parser.add_argument("--second", metavar="CLONE", help="another clone whose programs have to be the same")
    given = parser.parse_args()
    try:
        release = gathered(given.log, given.second)
        os.makedirs(given.to, exist_ok=True)
        if os.listdir(given.to):
            raise Refused(f"{given.to} isn't empty")
        make(release, given.to)
    except (Refused, OSError) as why:
        print(f"release: {why}", file=sys.stderr)
        return 1
    for name in sorted(os.listdir(given.to)):
        print(f"{os.path.getsize(os.path.join(given.to, name)):>9}  {os.path.join(given.to, name)}")
    return 0


if __name__ == "__main__":
    sys.exit(main())
