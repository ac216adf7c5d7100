#!/usr/bin/env bash
# Makes a release into out/release: a Debian package and a plain archive of the proved program. It makes none from a checkout with
# changes, or whose gate does not pass: it runs the gate itself, on this very checkout (what a run of the gate passed on this
# machine is kept, so a second one is short), and makes the program, where it isn't, as bin/pylint does.
cd "$(dirname "$(readlink -f "$0")")/.." || exit 1
refuse() { echo "release.sh: no release: $1" >&2; exit 1; }
[ -z "$(git status --porcelain)" ] || refuse "the checkout has changes, or files that are not committed"
commit=$(git rev-parse HEAD) || refuse "this is no checkout"
mkdir -p out/release
bash .ci/run >out/release/gate.log 2>&1 </dev/null || refuse "the gate does not pass: see $PWD/out/release/gate.log"
tail -n 1 out/release/gate.log | grep -q ' passed, 0 failed' || refuse "the gate's last line does not say that all passed: see $PWD/out/release/gate.log"
python3 tools/make_program.py </dev/null || refuse "the program is not made"
python3 tools/release_texts.py --check crates/pylint/out/pylint || refuse "the manual page and the completions don't name the program's options"
[ "$(git rev-parse HEAD)" = "$commit" ] && [ -z "$(git status --porcelain)" ] || refuse "the checkout changed meanwhile"
python3 tools/make_package.py out/release || refuse "the package can't be made"
bash tools/try_package.sh out/release/pylint-proved_*"${commit:0:12}"_amd64.deb || refuse "the package does not run in a clean root"
