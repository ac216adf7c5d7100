#!/usr/bin/env bash
# Times the solver on a ring, on layered random systems, on fans, and on many variables with one set: each variable is demanded, the sets are merged into a frozen
# table, and each variable is demanded again over it. Prints seconds of the processor, peak memory, and the evaluations of
# the first and the second demands. No proof speaks of time or memory.
root=$(dirname "$(dirname "$(readlink -f "$0")")")
program=$root/crates/solve_systems/out/solve_systems
[ -x "$program" ] || { echo "skipped: the program is missing (rt run in crates/solve_systems makes it)"; exit 0; }
work=$(mktemp -d)
trap 'rm -rf "$work"' EXIT
run() {
  /usr/bin/time -f "%U s of the processor, %M KB" -o "$work/time" "$program" "$1" "$2" >"$work/out"
  echo "$1 of $2: $(tail -n 1 "$work/time"), $(tail -n 1 "$work/out")"
}
for shape in ring layers; do
  for size in 12500 25000 50000 100000 200000; do run "$shape" "$size"; done
done
for size in 2000 20000 200000; do run fan "$size"; done
for size in 1100 2200 4400; do run readers "$size"; done
run shared 100000
