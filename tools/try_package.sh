#!/usr/bin/env bash
# Installs a package of the program in a clean root, where there is nothing beside it but the C library and its loader, and runs it
# there on README.md's example: what it prints, its status and its time. Then it does the same with the plain archive, where that lies beside.
package=$(readlink -f "$1")
readme=$(dirname "$(dirname "$(readlink -f "$0")")")/README.md
[ -f "$package" ] || { echo "try_package.sh: no package $1" >&2; exit 1; }
if [ "$(id -u)" != 0 ]; then exec unshare --map-root-user bash "$0" "$@"; fi
work=$(mktemp -d)
trap 'rm -rf "$work"' EXIT
python3 - "$readme" "$work" <<'P' || exit 1
import re, sys
text = open(sys.argv[1]).read().split("## An example")[1].split("\n## ")[0]
source, session = text.split("$ bin/pylint greet.py\n")
lines = lambda part: "".join(line[4:] + "\n" if line.startswith("    ") else "\n" for line in part.splitlines())
open(sys.argv[2] + "/greet.py", "w").write(lines(source.split("is\n\n", 1)[1].rsplit("\n\n    ", 1)[0]).strip("\n") + "\n")
open(sys.argv[2] + "/wanted", "w").write(lines(session.split("    $ echo $?")[0]))
open(sys.argv[2] + "/status", "w").write(re.search(r"\$ echo \$\?\n    (\d+)", session).group(1))
P
faults=0
try() { # the name of the try, the root, the program's path in it
  for library in /lib64/ld-linux-x86-64.so.2 /lib/x86_64-linux-gnu/libc.so.6; do
    mkdir -p "$2$(dirname $library)" && cp -L "$library" "$2$library"
  done
  cp "$work/greet.py" "$2"
  began=$(date +%s%N)
  env -i PATH=/none "$(command -v chroot)" "$2" "$3" greet.py </dev/null >"$work/out" 2>"$work/err"
  status=$?
  took=$((($(date +%s%N) - began) / 1000000))
  if cmp -s "$work/out" "$work/wanted" && [ "$status" = "$(cat "$work/status")" ] && [ ! -s "$work/err" ] && [ "$took" -lt 1000 ]; then
    echo "$1: the example's report, status $status, in $took ms"
  else
    echo "$1: status $status in $took ms"; diff "$work/wanted" "$work/out"; cat "$work/err"; faults=1
  fi
}
root=$work/installed
mkdir -p "$root/var/lib/dpkg/updates" "$root/var/lib/dpkg/info" && touch "$root/var/lib/dpkg/status" "$root/var/lib/dpkg/available"
# What the clean root lacks as a package, the C library, is laid in by hand.
dpkg --root="$root" --force-depends --force-not-root -i "$package" >"$work/dpkg" 2>&1 || { cat "$work/dpkg"; exit 1; }
dpkg --root="$root" --verify pylint-proved || faults=1
try package "$root" /usr/bin/pylint
archive=$(echo "$(dirname "$package")"/pylint-proved-"$(dpkg-deb -f "$package" Version)".tar.gz)
if [ -f "$archive" ]; then
  mkdir -p "$work/unpacked/opt" && tar -C "$work/unpacked/opt" --strip-components=1 -xzf "$archive"
  try archive "$work/unpacked" /opt/bin/pylint
fi
exit "$faults"
