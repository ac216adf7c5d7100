#!/usr/bin/env bash
# Times the program on sources of 1, 2 and 4 MiB: Python's own library put together, one-character tokens, and names
# that are not ASCII. Prints the time of the processor and peak memory. No proof speaks of either.
root=$(dirname "$(dirname "$(readlink -f "$0")")")
program=$root/crates/pylint/out/pylint
[ -x "$program" ] || { echo "skipped: the program is missing"; exit 0; }
work=$(mktemp -d)
trap 'rm -rf "$work"' EXIT
python3.11 - "$work" <<'P'
import glob, os, sys, sysconfig
work = sys.argv[1]
stdlib = sysconfig.get_paths()["stdlib"]
text = ""
for path in sorted(glob.glob(os.path.join(stdlib, "*.py"))) + sorted(glob.glob(os.path.join(stdlib, "test", "test_[a-m]*.py"))):
    with open(path, "rb") as file:
        source = file.read()
    if source.isascii() and b"\r" not in source:
        text += source.decode() + "\n"
    if len(text) > 5 << 20:
        break
for mib in (1, 2, 4):
    size = (mib << 20) - 4096
    cut = text[: text.rfind("\n\n\n", 0, size)] + "\n"
    open(os.path.join(work, f"library{mib}.py"), "w").write(cut)
    open(os.path.join(work, f"operators{mib}.py"), "w").write(("x=" + "+" * 96 + "1\n") * (size // 100))
    open(os.path.join(work, f"names{mib}.py"), "w").write("é1 = ñ + \ufb01\n" * (size // 17))
P
cd "$work" || exit 1
for kind in library operators names; do
  for mib in 1 2 4; do
    bytes=$(stat -c %s "$kind$mib.py")
    /usr/bin/time -f "%U s of the processor and %S s of the system, %M KB" -o time "$program" "$kind$mib.py" >out
    echo "$kind $mib MiB ($bytes bytes): $(tail -n 1 time), $(wc -l <out) lines of report, first: $(sed -n 2p out | cut -c1-90)"
  done
done
