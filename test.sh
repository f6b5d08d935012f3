#!/usr/bin/env bash
# Runs the tests: test.sh [--prove]
# Without a word it runs all tests that need no proof, in five to eight minutes: check.py with its own tests, the layout of the sources,
# the lists of original.py, the rows and test functions of tests/, and, if the programs and the library for C are built and no source
# has changed since, the tests of those. Its last lines say what it ran, and what it didn't.
# With --prove it is the whole gate: it also proves every crate and tries the wrong bodies that must be refused, by `rt ci`, and
# makes the archive of a release and tries it. A missing compiler or interpreter then fails it. The shells zsh and fish, and mypy,
# may be missing. RT_JOBS=N uses N processors.
set -eu
cd "$(dirname "$0")"
case "$*" in
    '') is_gate=false ;;
    --prove) is_gate=true ;;
    *) echo 'usage: test.sh [--prove]' >&2; exit 2 ;;
esac
bib=crates/bib/out/bib
bibkit=crates/bibkit/out/bibkit
library=crates/biblatex_c/out/libbiblatex.a
compiler=${CC:-gcc}
status=0
ran=
omitted=

# Runs the command of a part, and notes whether it failed.
part() {
    local name=$1
    shift
    ran="$ran $name"
    "$@" || { status=1; echo "test.sh: $name failed" >&2; }
}

# Notes a part that is not run, and why. The gate fails then.
omit() {
    omitted="$omitted$1 (not run: $2)
"
    ! $is_gate || { status=1; echo "test.sh: $1 not run: $2" >&2; }
}

# Whether the sources of all crates are laid out as `rt fmt` does. `rt ci` refuses a crate otherwise.
are_laid_out() {
    find crates/*/src crates/*/specs crates/*/proofs -name '*.[ra]*t' -exec rattle fmt --check {} +
}

# Whether a file is built, and no source has changed since.
is_new() {
    [ -f "$1" ] && [ -z "$(find crates/*/src crates/*/specs crates/*/proofs -name '*.[ra]*t' -newer "$1" -print -quit)" ]
}

part check.py python3 scripts/check.py
part 'rattle fmt --check' are_laid_out
part check_test.py python3 tests/check_test.py
part 'the lists of original.py' python3 tests/original.py
room=$(mktemp -d)
said=$room/said
trap 'rm -rf "$room"' EXIT
bash tests/run.sh > "$said" 2>&1 & tests=$!
if $is_gate; then
    RT_JOBS=${RT_JOBS:-$(nproc)} part 'rt ci' rt ci
    if [ "$status" = 0 ]; then
        part c/build.py python3 c/build.py
    fi
fi
if is_new "$bib"; then
    part crates/bib/runs.sh bash crates/bib/runs.sh "$bib"
    part prefixes.py python3 tests/prefixes.py "$bib"
    part original.py python3 tests/original.py "$bib"
    part refused.py python3 tests/refused.py "$bib"
else
    omit 'the runs of bib' "scripts/prove.py bib builds it"
fi
if is_new "$bibkit"; then
    part crates/bibkit/runs.sh bash crates/bibkit/runs.sh "$bibkit" README.md docs/BIBKIT.md
else
    omit 'the runs of bibkit' "scripts/prove.py bibkit builds it"
fi
if ! command -v "$compiler" >/dev/null; then
    omit 'the tests in C and Python' "there is no C compiler $compiler"
elif is_new "$library"; then
    part python/build.sh bash python/build.sh "$library"
    part c/test.sh bash c/test.sh
    part python/test.sh bash python/test.sh
else
    omit 'the tests in C and Python' "scripts/prove.py biblatex_c builds the library for C"
fi
part tests/run.sh wait "$tests"
cat "$said"
if $is_gate && [ "$status" = 0 ]; then
    part release.sh bash scripts/release.sh "$room"
fi
echo "ran:$ran"
printf '%s' "$omitted"
[ "$status" = 0 ] && echo 'all passed' || echo 'NOT ALL PASSED'
exit "$status"
