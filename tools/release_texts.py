#!/usr/bin/env python3
"""The manual page and the completions for bash, zsh and fish, made from the table of options in docs/COMMAND.md.

  release_texts.py FOLDER DATE     writes pylint.1, pylint.bash, _pylint and pylint.fish
  release_texts.py --check [PROGRAM]   whether they name exactly the options of crates/option_words, each short form, and
                                   --generate; with a program also whether it takes each of them and refuses others"""
import re
import subprocess
import sys
import tempfile
from pathlib import Path

ROOT = Path(__file__).resolve().parent.parent

# What each option does: the values and defaults stand in docs/COMMAND.md.
WHAT = {
    "disable": "don't show these messages",
    "enable": "show these messages",
    "errors-only": "show errors and fatal messages alone, and no score",
    "jobs": "number of jobs; without effect yet",
    "score": "print the score",
    "rcfile": "the options file",
    "ignore": "files and folders that are not walked into",
    "recursive": "walk folders that are no packages",
    "fail-under": "end with status 0 from this score on",
    "fail-on": "messages whose bits count whatever the score is",
    "exit-zero": "end with status 0 whatever is found",
    "ignored-classes": "without effect yet",
    "additional-builtins": "names that count as built in",
    "limit-inference-results": "without effect yet",
    "max-line-length": "characters of a line (C0301)",
    "max-module-lines": "lines of a file (C0302)",
    "max-args": "parameters of a function (R0913)",
    "max-locals": "local variables of a function (R0914)",
    "max-returns": "return statements of a function (R0911)",
    "max-branches": "branches of a function (R0912)",
    "max-statements": "statements of a function (R0915)",
    "max-attributes": "without effect yet",
    "max-public-methods": "without effect yet",
    "min-public-methods": "without effect yet",
    "max-parents": "without effect yet",
}
GENERATE = "lint a made text of N classes, as the only word"


class Option:
    def __init__(self, name, value, default):
        self.name, self.short, self.value, self.default = name, None, value, default
        self.what = WHAT[name]

    def names(self):
        return [f"--{self.name}"] + ([f"-{self.short}"] if self.short else [])

    def is_flag(self):
        return self.value == "a flag"


def options():
    """The rows of the table under 'Words' in docs/COMMAND.md, an option each."""
    text = (ROOT / "docs" / "COMMAND.md").read_text()
    rows = text.split("| option | value | default |\n|---|---|---|\n")[1].split("\n\n")[0].splitlines()
    found, value = [], ""
    for row in rows:
        names, value_cell, default_cell = (cell.strip() for cell in row.strip("|").split("|"))
        value = value_cell.replace("`", "").split(", as all below")[0] or value
        words = re.findall(r"`-{1,2}([\w-]+)`", names)
        longs = [word for word in words if len(word) > 1]
        defaults = default_cell.replace("`", "").split(", ") if len(longs) > 2 or value.startswith("0 to 1000000") else [default_cell.replace("`", "")] * len(longs)
        for word in words:
            if len(word) > 1:
                found.append(Option(word, value, defaults[longs.index(word)]))
            else:
                found[-1].short = word
    return found


def roff(text):
    return text.replace("\\", "\\e").replace("-", "\\-").replace("'", "\\(aq")


def manual(date):
    rows = []
    for option in options():
        forms = ", ".join(f"\\fB{roff(n)}\\fR" for n in option.names())
        value = "" if option.is_flag() else f"; {option.value}; default: {option.default}"
        rows.append(f".TP\n{forms}\n{roff(option.what[0].upper() + option.what[1:] + value)}.\n")
    return f""".TH PYLINT 1 "{date}" "pylint, proved" "User Commands"
.SH NAME
pylint \\- lint Python files and folders
.SH SYNOPSIS
.B pylint
.RI [ OPTION ]... " PATH" ...
.br
.BI "pylint \\-\\-generate=" N
.SH DESCRIPTION
Reads files, folders and packages as Python 3.11 and prints messages about them, the first fault of a file that is no Python, and a score.
What it prints and the status it ends with are proved to be a stated function of the words and of the bytes read.
.PP
A value stands behind an equals sign or in the next word; of a repeated option the last counts.
The word \\fB\\-\\-\\fR ends the options.
.SH HELP
This page is the help: there is no option for help, and none for the version. They are refused as unknown options.
The version, and which sources were proved by what, stand in
.IR /usr/share/doc/pylint\\-proved/PROVED .
.SH OPTIONS
{"".join(rows)}.TP
\\fB\\-\\-generate=\\fIN\\fR
{roff(GENERATE[0].upper() + GENERATE[1:])}, with N from 1 to 20000; reads nothing.
.SH FILES
.TP
.I pyproject.toml
Of the current folder, where it is there: options in the table \\fBtool.pylint\\fR or a table directly below it. The words count before it.
.SH COMMENTS IN A SOURCE
\\fB# pylint: disable=\\fILIST\\fR, \\fBenable=\\fILIST\\fR, \\fBdisable\\-next=\\fILIST\\fR and \\fBskip\\-file\\fR, with messages\\(aq codes, names, letters of categories or \\fBall\\fR.
.SH EXIT STATUS
.TP
0
No message is shown, or the score is at least that of \\fB\\-\\-fail\\-under\\fR, or \\fB\\-\\-exit\\-zero\\fR.
.TP
1, 2, 4, 8, 16
And their sums: a fatal, error, warning, refactor, convention message.
.TP
32
The words or the options file are refused: the reason stands on standard error.
.TP
70, 71, 74
Want of memory; the system gave no words; output could not be written.
.SH SEE ALSO
.I /usr/share/doc/pylint\\-proved/COMMAND.md
has all rules on words, files, comments and the report,
.I MESSAGES.md
each message, and
.I DIFFERENCES.md
what a user of another pylint meets.
"""


def names():
    return [n for option in options() for n in option.names()] + ["--generate"]


def completion_words(option):
    return ("yes", "no") if option.value == "yes or no" else ()


def bash():
    with_path = "|".join(n for o in options() if o.value == "a path" for n in o.names())
    with_choice = "|".join(n for o in options() if o.value == "yes or no" for n in o.names())
    with_value = "|".join(n for o in options() if not o.is_flag() and o.value not in ("a path", "yes or no") for n in o.names())
    return f"""# Completion of pylint for bash.
_pylint() {{
    local word=${{COMP_WORDS[COMP_CWORD]}} before=${{COMP_WORDS[COMP_CWORD - 1]}}
    if [[ $before == "=" ]]; then
        before=${{COMP_WORDS[COMP_CWORD - 2]}}
    elif [[ $word == "=" ]]; then
        before=${{COMP_WORDS[COMP_CWORD - 1]}} word=
    fi
    case $before in
        {with_choice}) mapfile -t COMPREPLY < <(compgen -W "yes no" -- "$word"); return ;;
        {with_path}) compopt -o filenames; mapfile -t COMPREPLY < <(compgen -f -- "$word"); return ;;
        {with_value}|--generate) COMPREPLY=(); return ;;
    esac
    if [[ $word == -* ]]; then
        mapfile -t COMPREPLY < <(compgen -W "{' '.join(names())}" -- "$word")
    else
        compopt -o filenames
        mapfile -t COMPREPLY < <(compgen -f -X '!*.py' -- "$word"; compgen -d -- "$word")
    fi
}}
complete -F _pylint pylint
"""


def zsh():
    rows = []
    for option in options():
        action = {"a flag": "", "yes or no": ":yes or no:(yes no)", "a path": ":file:_files"}.get(option.value, ":value:")
        what = option.what.replace("'", "'\\''").replace("[", "\\[").replace("]", "\\]")
        joined = "" if option.is_flag() else "="
        rows.append(f"  '*--{option.name}{joined}[{what}]{action}'")
        if option.short:
            rows.append(f"  '*-{option.short}{'' if option.is_flag() else '+'}[{what}]{action}'")
    rows.append(f"  '--generate=[{GENERATE}]:number:'")
    rows.append("  '*:file or folder:_files -g \"*.py(-.)\"'")
    return "#compdef pylint\n_arguments -S \\\n" + " \\\n".join(rows) + "\n"


def fish():
    lines = []
    for option in options():
        what = option.what.replace("'", "\\'")
        short = f" -s {option.short}" if option.short else ""
        choice = {"a flag": "", "yes or no": " -x -a 'yes no'", "a path": " -r -F"}.get(option.value, " -x")
        lines.append(f"complete -c pylint{short} -l {option.name}{choice} -d '{what}'")
    lines.append(f"complete -c pylint -l generate -x -d '{GENERATE}'")
    return "\n".join(lines) + "\n"


def texts(date):
    return {"pylint.1": manual(date), "pylint.bash": bash(), "_pylint": zsh(), "pylint.fish": fish()}


def named_in(made):
    """The options that each made text names, long and short."""
    page = made["pylint.1"].replace("\\-", "-")
    first_lines = re.findall(r"^\.TP\n(\\fB-.*)$", page, re.M)
    return {
        "pylint.1": sorted(re.findall(r"(?<![\w-])(--?[a-zA-Z][\w-]*)", " ".join(first_lines).replace("\\fB", " ").replace("\\fR", " "))),
        "pylint.bash": sorted(re.search(r'compgen -W "(-[^"]*)"', made["pylint.bash"]).group(1).split()),
        "_pylint": sorted(re.findall(r"^  '\*?(--?[\w-]+?)[=+]?\[", made["_pylint"], re.M)),
        "pylint.fish": sorted("--" + n for n in re.findall(r" -l ([\w-]+)", made["pylint.fish"]))
        + sorted("-" + n for n in re.findall(r" -s (\w) ", made["pylint.fish"])),
    }


def check(program):
    source = (ROOT / "crates" / "option_words" / "src" / "option_name.rt").read_text()
    table = source.split("pub fn long_name")[1].split("pub fn ")[0]
    wanted = sorted(["--" + n for n in re.findall(r'=> "([\w-]+)"', table)] + ["--generate", "-E", "-d", "-e", "-j", "-s"])
    faults = [f"{name}: {sorted(set(named) ^ set(wanted))}" for name, named in named_in(texts("2000-01-01")).items() if sorted(named) != wanted]
    if sorted(WHAT) != sorted(o.name for o in options()):
        faults.append(f"descriptions: {sorted(set(WHAT) ^ {o.name for o in options()})}")
    if program:
        with tempfile.TemporaryDirectory() as folder:
            for name in [*wanted, "--help", "--version", "--disabled", "-h"]:
                said = subprocess.run([Path(program).resolve(), name], cwd=folder, capture_output=True, text=True).stderr
                if ("unknown option" in said) == (name in wanted):
                    faults.append(f"the program says of {name}: {said.strip()}")
    for fault in faults:
        print(fault)
    print(f"{len(wanted)} options, {len(faults)} faults")
    return 1 if faults else 0


def main():
    if sys.argv[1:2] == ["--check"]:
        return check(sys.argv[2] if len(sys.argv) > 2 else None)
    folder, date = Path(sys.argv[1]), sys.argv[2]
    folder.mkdir(parents=True, exist_ok=True)
    for name, text in texts(date).items():
        (folder / name).write_text(text)
    return 0


if __name__ == "__main__":
    sys.exit(main())
