#!/usr/bin/env bash
# Tries bin/pylint's making of the program on a made repository of five crates, with a stand-in for `rt` that proves nothing and takes
# a second a crate: what is told, that one making goes on at a time, and what is left behind. It says nothing of the real `rt`.
root=$(dirname "$(dirname "$(readlink -f "$0")")")
work=$(mktemp -d)
trap 'rm -rf "$work"' EXIT
faults=0
say() { if [ "$2" = 0 ]; then echo "ok: $1"; else echo "FAULT: $1"; faults=1; fi; }
mkdir -p "$work/repo/bin" "$work/repo/tools" "$work/stand_in"
cp "$root/bin/pylint" "$work/repo/bin" && cp "$root/tools/make_program.py" "$work/repo/tools"
for crate in low left right beside pylint; do mkdir -p "$work/repo/crates/$crate/src" && echo "$crate" >"$work/repo/crates/$crate/src/lib.rt"; done
printf 'low:\nleft: low\nright: low\nbeside: low\npylint: left right\n' >"$work/repo/crates.txt"
cat >"$work/stand_in/rt" <<'E2'
#!/usr/bin/env bash
[ "$1" = version ] && { echo stand-in; exit; }
crate=${PWD##*/}
echo "$crate" >>"$STAND_IN/begun"
! grep -q bad src/lib.rt || exit 1
sed 's/:.*//' ../../crates.txt | while read -r below; do [ "$below" = "$crate" ] || [ -f "../$below/out/rlib/$below" ] || exit 1; done || exit 1
sleep 1
mkdir -p out/rlib && cp src/lib.rt "out/rlib/$crate"
[ "$1" = run ] || exit 0
printf '#!/bin/sh\necho "made of %s"; exit 16\n' "$(cat src/lib.rt ../left/src/lib.rt | tr '\n' ' ')" >out/pylint && chmod +x out/pylint
echo logic=proved
exit 32
E2
chmod +x "$work/stand_in/rt"
export STAND_IN=$work PATH=$work/stand_in:$PATH PYLINT_MAKE_JOBS=2 PYLINT_MAKE_PLACE=$work/place
pylint=$work/repo/bin/pylint
# Until the first call tells that it proves a crate, so that no time is guessed.
until_told() { for _ in $(seq 300); do grep -q "at work: .*$1" "$work/err" 2>/dev/null && return; sleep 0.05; done; }
begun() { sort "$work/begun" | tr '\n' ' '; }

: >"$work/begun"
"$pylint" a.py >"$work/out" 2>"$work/err" & first=$!
until_told low
"$pylint" a.py >"$work/out2" 2>"$work/err2"; second=$?
wait "$first"; first=$?
[ "$first $second" = "16 16" ] && [ "$(cat "$work/out")" = "made of pylint left " ] && cmp -s "$work/out" "$work/out2"
say "both calls end with the program's output and status alone" $?
[ "$(begun)" = "left low pylint right " ] && grep -q 'waiting for another call: ' "$work/err2"
say "the second call waits, and each crate below the program is proved once, no other" $?
grep -q '0 of 4 crates proved, at work: low; ' "$work/err" && grep -q '1 of 4 crates proved, at work: \(left, right\|right, left\); ' "$work/err" && grep -q 'is made: 4 crates proved' "$work/err"
say "standard error tells how many crates of how many are proved, and what is at work" $?

: >"$work/begun"
"$pylint" a.py >"$work/out" 2>"$work/err"; touch "$work/repo/crates/low/src/lib.rt"; "$pylint" a.py >"$work/out" 2>>"$work/err"
[ ! -s "$work/err" ] && [ ! -s "$work/begun" ]
say "a made program is called at once, and a touched file costs no proof" $?

echo left2 >"$work/repo/crates/left/src/lib.rt"
: >"$work/err"
setsid "$pylint" a.py >"$work/out" 2>"$work/err" & call=$!
until_told left; kill -INT -- "-$call"; wait "$call"; status=$?
[ "$status" = 130 ] && [ ! -s "$work/out" ] && grep -q 'cut off' "$work/err" && flock -n "$work/place/lock" true
say "an interrupt ends the call with 130, and nothing is left at work" $?
: >"$work/begun"
"$pylint" a.py >"$work/out" 2>"$work/err"
[ "$(cat "$work/out")" = "made of pylint left2 " ] && [ "$(begun)" = "left pylint " ]
say "the next call takes up what was cut off" $?

echo bad >"$work/repo/crates/right/src/lib.rt"
"$pylint" a.py >"$work/out" 2>"$work/err"; status=$?
[ "$status" = 71 ] && [ ! -s "$work/out" ] && grep -q "right is not proved, .*: see $work/place/logs/right.log" "$work/err"
say "a crate that is not proved is named with its log, and the status is 71" $?

echo right3 >"$work/repo/crates/right/src/lib.rt"
: >"$work/err"
"$pylint" a.py >"$work/out" 2>"$work/err" & call=$!
until_told right; echo left4 >"$work/repo/crates/left/src/lib.rt"; wait "$call"
[ "$(cat "$work/out")" = "made of pylint left2 " ] && [ "$("$pylint" a.py 2>"$work/err")" = "made of pylint left4 " ]
say "an edit while the program is made is for the next call" $?

echo left5 >"$work/repo/crates/left/src/lib.rt"
PATH=/usr/bin:/bin "$pylint" a.py >"$work/out" 2>"$work/err"; status=$?
[ "$status" = 71 ] && [ ! -s "$work/out" ] && grep -q "command rt" "$work/err"
say "without rt that is said, and the status is 71" $?
exit "$faults"
