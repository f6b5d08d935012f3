#!/usr/bin/env bash
# Runs the tests in tests/ without a proof: the rows of each layer, whose answers must be those of tests/rows/NAME.stdout, and the
# test functions. `rt try` builds both from the sources of the library, with checks of each access. It takes three to seven minutes.
# The files of tests/src/ are Rattle, and end in .rs, since `rt ci` asks for a proof of every .rt file.
set -eu
cd "$(dirname "$0")/.."
room=$(mktemp -d)
trap 'rm -rf "$room"' EXIT
crates=$(sed -n 's/^\([a-z_]*\)[ :].*/\1/p' crates.txt)
for crate in $crates; do
    mkdir -p "$room/crates/$crate"
    cp -r "crates/$crate/src" "$room/crates/$crate/"
done
mkdir -p "$room/crates/tests"
cp -r tests/src "$room/crates/tests/"
# The tests call the modules of the program `bib`, and a program is no library: they become the library `bib_commands` here.
mv "$room/crates/bib" "$room/crates/bib_commands"
(cd "$room/crates/bib_commands/src" && sed -n '/^#!/p; s/^mod /pub mod /p' main.rt > lib.rt && rm main.rt)
find "$room/crates/tests" -name '*.rs' | while IFS= read -r file; do mv "$file" "${file%.rs}.rt"; done
cp -r tests/rows HANDLES "$room/"
python3 tests/expected.py "$room"/rows/*.stdout
libraries=$(cd "$room" && ls -d crates/*/src/lib.rt | cut -d/ -f2 | grep -vx -e tests -e guide -e bibkit_commands)
{ grep -v '^#\|^guide:' crates.txt | sed 's/^bib:/bib_commands:/; s/ staticlib:/:/'; echo "tests: sha2" $libraries; } > "$room/crates.txt"
cd "$room/crates/tests"
rt try --seconds 1200 --cases "$room/rows" > "$room/answers" 2>&1 & rows=$!
rt try --seconds 1200 --test > "$room/functions" 2>&1 & functions=$!
status=0
wait "$rows" || status=1
wait "$functions" || status=1
# Each file of rows was compared, and test functions ran.
layers=$(ls "$room"/rows/*.args | wc -l)
if [ "$(grep -c '^case=.* output=expected ' "$room/answers")" != "$layers" ]; then
    echo "tests/run.sh: not all of $layers files of rows were compared, or not all answers are as expected"
    status=1
fi
if ! grep -q '^test result: ok\. [1-9][0-9]* passed; 0 failed; 0 ignored;' "$room/functions"; then
    echo 'tests/run.sh: no test functions ran, or not all passed'
    status=1
fi
grep -hv '^checked: \|^interpreter: ' "$room/answers" "$room/functions" || true
exit "$status"
