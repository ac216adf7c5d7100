#!/usr/bin/env bash
# Tries what puts the program into a project: the problem matcher on README.md's example, the completions in each shell that is
# here, and, where pre-commit and a made program are, the hook 'pylint-installed'. The argument is the program.
root=$(dirname "$(dirname "$(readlink -f "$0")")")
program=$(readlink -f "${1:-$root/crates/pylint/out/pylint}")
work=$(mktemp -d)
trap 'rm -rf "$work"' EXIT
faults=0
say() { if [ "$2" = 0 ]; then echo "ok: $1"; else echo "FAULT: $1"; faults=1; fi; }
python3 - "$root" <<'P'
import json, re, sys
root = sys.argv[1]
matchers = json.load(open(root + "/tools/pylint-matcher.json"))["problemMatcher"]
lines = [l.strip() for l in open(root + "/README.md").read().split("## An example")[1].split("\n## ")[0].splitlines()]
lines += ["a.py:3:0: E0001: Parsing failed: 'invalid syntax (line 3)' (syntax-error)", "b:c.py:1:0: F0001: No module named b:c.py (fatal)"]
found = []
for line in lines:
    for matcher in matchers:
        pattern = matcher["pattern"][0]
        match = re.search(pattern["regexp"], line)
        if match:
            found.append((matcher["severity"], match[pattern["file"]], int(match[pattern["line"]]), int(match[pattern["column"]]), match[pattern["code"]]))
wanted = [("warning", "greet.py", 2, 0, "C0410"), ("warning", "greet.py", 5, 0, "C0116"), ("warning", "greet.py", 6, 29, "C0321"),
          ("error", "a.py", 3, 0, "E0001"), ("error", "b:c.py", 1, 0, "F0001")]
sys.exit(found != wanted)
P
say "the problem matcher reads each message of the example once, and no other line" $?
python3 "$root/tools/release_texts.py" "$work" 2000-01-01
bash -c 'source "$1/pylint.bash"; compopt() { :; }; COMP_WORDS=(pylint --max-p); COMP_CWORD=1; _pylint; [ "${COMPREPLY[*]}" = "--max-public-methods --max-parents" ]' - "$work"
say "bash completes --max-p" $?
if command -v fish >/dev/null; then
  [ "$(fish -c "source $work/pylint.fish; complete -C 'pylint --max-p'" | cut -f1 | sort | tr '\n' ' ')" = "--max-parents --max-public-methods " ]
  say "fish completes --max-p" $?
fi
if command -v zsh >/dev/null; then zsh -n "$work/_pylint"; say "zsh reads its completion" $?; fi
if command -v mandoc >/dev/null; then mandoc -Tlint -W warning "$work/pylint.1"; say "the manual page has no warning of mandoc" $?; fi
if command -v pre-commit >/dev/null && [ -x "$program" ]; then
  mkdir "$work/bin" "$work/project" && cp "$program" "$work/bin/pylint" && cd "$work/project" && git init -q .
  printf 'import os, sys\n' >first.py
  printf '"""Second."""\nX = 1\n' >second.py
  printf 'repos:\n  - repo: %s\n    rev: %s\n    hooks:\n      - id: pylint-installed\n' "$root" "$(git -C "$root" rev-parse HEAD)" >.pre-commit-config.yaml
  git add -A
  PRE_COMMIT_HOME=$work/kept PATH=$work/bin:$PATH pre-commit run --all-files >"$work/said" 2>&1
  [ $? = 1 ] && grep -q '^first.py:1:0: C0410: ' "$work/said" && grep -q 'exit code: ' "$work/said"
  say "pre-commit runs the hook and stops on its status" $?
fi
exit "$faults"
