#!/usr/bin/env python3
"""Time and memory of this project's pylint beside pylint, flake8 and pyflakes, in one run.

    tools/bench_beside.py PROGRAM [FOLDER ...]
    tools/bench_beside.py PROGRAM --made [N ...]

PROGRAM is the built program. Without folders, `asyncio` and five packages at once of Python's own library are linted; with
`--made` files of N classes each, the text that `--generate=N` makes, of 1,000, 5,000 and 20,000 where none are named. Each
tool is run once over each, with the processor's time (user and system) and the peak of its memory as the system counts
them. pylint is run twice: with all its messages, and with those alone that this project has. Tools that aren't installed
are left out. Prints a table in Markdown.
"""
import os
import shutil
import subprocess
import sys
import sysconfig
import tempfile

CODES = ",".join(
    "C0114 C0115 C0116 C0301 C0302 C0303 C0304 C0321 C0410 E0001 E0102 E0103 E0104 E0602 F0001 F0010 R0911 R0912 R0913 R0914 "
    "R0915 W0012 W0101 W0107 W0301 W0401 W0603 W0611 W0612 W0613 W0622 W0702".split()
)


def measured(words):
    """The seconds of processor time and the megabytes of peak memory of one run."""
    script = (
        "import resource, subprocess, sys\n"
        "subprocess.run(sys.argv[1:], stdout=subprocess.DEVNULL, stderr=subprocess.DEVNULL)\n"
        "used = resource.getrusage(resource.RUSAGE_CHILDREN)\n"
        "print(used.ru_utime + used.ru_stime, used.ru_maxrss)\n"
    )
    told = subprocess.run([sys.executable, "-c", script, *words], capture_output=True, text=True, check=True)
    seconds, kilobytes = told.stdout.split()
    return float(seconds), int(kilobytes) / 1024


def size_of(paths):
    """The bytes of these files and of the Python files in these folders."""
    return sum(os.path.getsize(path) for path in paths if os.path.isfile(path)) + sum(
        os.path.getsize(os.path.join(path, name))
        for folder in paths
        for path, _, names in os.walk(folder)
        for name in names
        if name.endswith(".py")
    )


def tools(program):
    """Each tool's name and the words before the folders, for those that are installed."""
    rows = [("this program", [program, "--recursive=yes"])]
    if shutil.which("pylint"):
        pylint = shutil.which("pylint")
        rows.append(("pylint", [pylint, "--recursive=y"]))
        rows.append(("pylint, the same messages", [pylint, "--recursive=y", "--disable=all", f"--enable={CODES}"]))
    if shutil.which("flake8"):
        rows.append(("flake8", [shutil.which("flake8"), "-j1"]))
    pyflakes = shutil.which("pyflakes") or shutil.which("pyflakes3")
    if pyflakes:
        rows.append(("pyflakes", [pyflakes]))
    return rows


def made_text(classes):
    """The text that `--generate` makes of so many classes."""
    return '"""Made."""\n' + "".join(
        f'\n\nclass C{i}:\n    """Class."""\n\n    def get(self):\n        """Get."""\n        return self.v{i % 7}\n'
        for i in range(classes)
    )


def compare(program, paths):
    """Prints the table of all tools over these paths."""
    names = ", ".join(os.path.basename(path) for path in paths)
    print(f"\n{names}: {size_of(paths) / 1e6:.2f} MB\n")
    print("| tool | time | peak memory |\n|---|---|---|")
    for name, words in tools(program):
        seconds, megabytes = measured(words + paths)
        print(f"| {name} | {seconds:.2f} s | {megabytes:.0f} MB |", flush=True)


def compare_made(program, counts):
    """The same over files of made texts."""
    with tempfile.TemporaryDirectory() as folder:
        for classes in counts:
            path = os.path.join(folder, f"made_{classes}.py")
            with open(path, "w", encoding="utf-8") as file:
                file.write(made_text(classes))
            compare(program, [path])


def main():
    program, words = os.path.abspath(sys.argv[1]), sys.argv[2:]
    if words[:1] == ["--made"]:
        compare_made(program, [int(word) for word in words[1:]] or [1_000, 5_000, 20_000])
        return
    library = sysconfig.get_paths()["stdlib"]
    inputs = [("asyncio",), ("asyncio", "email", "json", "unittest", "xml")]
    lists = [words] if words else [[os.path.join(library, name) for name in names] for names in inputs]
    for paths in lists:
        compare(program, paths)


if __name__ == "__main__":
    main()
