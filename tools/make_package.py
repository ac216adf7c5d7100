#!/usr/bin/env python3
"""Makes a Debian package and a plain archive of the made program, from what `bin/pylint` left behind it:

  make_package.py FOLDER [--program FILE --record FILE --log FILE]

`tools/release.sh` calls it behind the gate. The files have the time of the last commit, so the same program and sources give the
same package. With a program from elsewhere, for tests, the record and the log of its making are given too."""
import argparse
import gzip
import hashlib
import io
import json
import re
import shutil
import subprocess
import sys
import tarfile
import tempfile
from pathlib import Path

sys.dont_write_bytecode = True
import make_program  # noqa: E402
import release_texts  # noqa: E402

ROOT = Path(__file__).resolve().parent.parent
PACKAGE = "pylint-proved"
DOCUMENTS = ("COMMAND.md", "MESSAGES.md", "DIFFERENCES.md", "CLAIMS.md")


def git(*words):
    return subprocess.run(["git", "-C", str(ROOT), *words], check=True, capture_output=True, text=True).stdout.strip()


def kit_folder():
    """The kit's folder, which is that of the page that `rt doc` names."""
    return Path(subprocess.run(["rt", "doc"], check=True, capture_output=True, text=True).stdout.strip()).parent


def linked(log):
    """The kit's libraries that the program is checked over, and the C code that it is linked with, by the log of its making."""
    libraries = sorted(set(re.findall(r"^statements (\w+):", log, re.M)))
    line = re.search(r"^linked .*files=(\S+)", log, re.M)
    return libraries, [Path(name).name for name in line.group(1).split(",") if name.endswith(".a")]


def copyright_text(log, kit):
    libraries, archives = linked(log)
    texts, without = {}, []
    for name in libraries:
        if (ROOT / "crates" / name).is_dir():
            continue
        found = sorted((kit / "rattle" / name).glob("LICENSE*"))
        if not found:
            without.append(name)
        for path in found:
            texts.setdefault(path.read_text(errors="replace").strip(), []).append(f"{name}/{path.name}")
    lines = [
        "The program's own sources: their repository has no licence file, so none is stated here.",
        "",
        "Linked into the program from the Rattle kit, without a licence file in the kit: "
        + ", ".join(without) + (" (Rattle's libraries)" if without else "") + "; of C code: " + ", ".join(archives) + ".",
        "",
        "The C library (glibc) is not part of it: the machine's own is loaded when the program starts.",
        "",
        "Linked or read from the Rattle kit, each with the licence below that names it; where a crate is named at several, as the kit has them:",
    ]
    for text, names in texts.items():
        lines += ["", "=" * 100, "Of " + ", ".join(names) + ":", "", text]
    return "\n".join(lines) + "\n"


def proved_text(record, version):
    lines = [f"pylint {version}, commit {git('rev-parse', 'HEAD')}",
             f"proved and built with: {record['kit']}",
             f"sha256 of the program: {record['program']}",
             "",
             "Each crate that the program stands on, with the sha256 over the names, lengths and bytes of its files in src, specs",
             "and proofs and of what its run is given, in the order of tools/make_program.py:",
             ""]
    return "\n".join(lines + [f"{total}  {name}" for name, total in record["sources"].items()]) + "\n"


def needed_libc(program):
    versions = {tuple(map(int, v.split(b"."))) for v in re.findall(rb"GLIBC_(\d+\.\d+)", program)}
    return ".".join(map(str, max(versions)))


def lay_out(tree, program, record, log, version, date):
    """The files as they lie on the machine."""
    doc = tree / "usr" / "share" / "doc" / PACKAGE
    made = release_texts.texts(date)
    files = {
        tree / "usr" / "bin" / "pylint": program,
        tree / "usr" / "share" / "man" / "man1" / "pylint.1.gz": gzip.compress(made["pylint.1"].encode(), mtime=0),
        tree / "usr" / "share" / "bash-completion" / "completions" / "pylint": made["pylint.bash"].encode(),
        tree / "usr" / "share" / "zsh" / "vendor-completions" / "_pylint": made["_pylint"].encode(),
        tree / "usr" / "share" / "fish" / "vendor_completions.d" / "pylint.fish": made["pylint.fish"].encode(),
        doc / "copyright": copyright_text(log, kit_folder()).encode(),
        doc / "PROVED": proved_text(record, version).encode(),
    }
    files.update({doc / name: (ROOT / "docs" / name).read_bytes() for name in DOCUMENTS})
    for path, content in files.items():
        path.parent.mkdir(parents=True, exist_ok=True)
        path.write_bytes(content)
        path.chmod(0o755 if path.parent.name == "bin" else 0o644)
    for folder in [tree, *(p for p in tree.rglob("*") if p.is_dir())]:
        folder.chmod(0o755)


def control(tree, program, version):
    size = sum(-(-p.stat().st_size // 1024) for p in tree.rglob("*") if p.is_file())
    return f"""Package: {PACKAGE}
Version: {version}
Architecture: amd64
Maintainer: nobody <nobody@localhost>
Installed-Size: {size}
Depends: libc6 (>= {needed_libc(program)})
Conflicts: pylint
Section: python
Priority: optional
Description: linter for Python files, proved
 Lints Python 3.11 files in the shape of pylint 3. What it prints and its
 status are proved to be a stated function of the words and the bytes read.
 It wants a processor of the level x86-64-v2.
"""


def archive(tree, name, target, epoch):
    """A .tar.gz of the tree, the same bytes for the same files."""
    plain = io.BytesIO()
    with tarfile.open(fileobj=plain, mode="w", format=tarfile.GNU_FORMAT) as tar:
        for path in sorted(tree.rglob("*")):
            entry = tar.gettarinfo(path, f"{name}/{path.relative_to(tree / 'usr') if path != tree / 'usr' else ''}".rstrip("/"))
            entry.uid = entry.gid = 0
            entry.uname = entry.gname = "root"
            entry.mtime = epoch
            if entry.isfile():
                with path.open("rb") as content:
                    tar.addfile(entry, content)
            else:
                tar.addfile(entry)
    target.write_bytes(gzip.compress(plain.getvalue(), mtime=0))


def main():
    parser = argparse.ArgumentParser(description=__doc__, formatter_class=argparse.RawDescriptionHelpFormatter)
    parser.add_argument("folder", type=Path)
    parser.add_argument("--program", type=Path, default=ROOT / "crates" / "pylint" / "out" / "pylint")
    parser.add_argument("--record", type=Path, default=make_program.place_of(ROOT) / "record.json")
    parser.add_argument("--log", type=Path, default=make_program.place_of(ROOT) / "logs" / "pylint.log")
    words = parser.parse_args()
    record, program, log = json.loads(words.record.read_text()), words.program.read_bytes(), words.log.read_text(errors="replace")
    if hashlib.sha256(program).hexdigest() != record["program"]:
        sys.exit("make_package.py: the program is not the one that the record of its making names")
    epoch = int(git("log", "-1", "--format=%ct"))
    date = git("log", "-1", "--format=%cs")
    version = f"0~git{date.replace('-', '')}.{git('rev-parse', '--short=12', 'HEAD')}"
    words.folder.mkdir(parents=True, exist_ok=True)
    with tempfile.TemporaryDirectory() as work:
        tree = Path(work) / "tree"
        lay_out(tree, program, record, log, version, date)
        archive(tree, f"{PACKAGE}-{version}", words.folder / f"{PACKAGE}-{version}.tar.gz", epoch)
        text = control(tree, program, version)
        (tree / "DEBIAN").mkdir(mode=0o755)
        (tree / "DEBIAN" / "control").write_text(text)
        package = words.folder / f"{PACKAGE}_{version}_amd64.deb"
        subprocess.run(["dpkg-deb", "--root-owner-group", "-Zgzip", "--build", str(tree), str(package)], check=True,
                       env={"PATH": "/usr/bin:/bin", "SOURCE_DATE_EPOCH": str(epoch)}, stdout=subprocess.DEVNULL)
    for path in (package, words.folder / f"{PACKAGE}-{version}.tar.gz"):
        print(f"{hashlib.sha256(path.read_bytes()).hexdigest()}  {path}")
    return 0


if __name__ == "__main__":
    sys.exit(main())
