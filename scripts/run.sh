#!/usr/bin/env bash
# Runs a program of this repository: run.sh bib keys < FILE, or run.sh bibkit lint FILE ..
# Runs the proved program if scripts/prove.py has built it and no source has changed since. Otherwise runs the same sources without
# a proof, by `rt try`, which gets copies of the files that are named, and says so on standard error.
set -eu
if [ $# = 0 ] || ! [[ $1 =~ ^(bib|bibkit)$ ]]; then
    echo 'usage: run.sh bib|bibkit [WORD ..]' >&2
    exit 2
fi
name=$1
shift
top=$(cd "$(dirname "$0")/.." && pwd)
program="$top/crates/$name/out/$name"
if [ -x "$program" ] && [ -z "$(find "$top"/crates/*/src -name '*.rt' -newer "$program" -print -quit)" ]; then
    exec "$program" "$@"
fi
echo "$name: running unproved sources, which takes a minute or two; scripts/prove.py $name proves and builds them" >&2
words=()
files=()
for word in "$@"; do
    if [ -f "$word" ]; then
        file=$(basename "$word")
        files+=(--data "$file=$(realpath "$word")")
        word=$file
    fi
    words+=("$word")
done
said=$(mktemp)
trap 'rm -f "$said"' EXIT
status=0
(cd "$top/crates/$name" && exec rt try --seconds 300 "${files[@]}" -- "${words[@]}") 2>"$said" || status=$?
if ! grep -q "^run=ended status=$status " "$said"; then
    echo "$name: the sources could not be run without a proof:" >&2
    tail -n 5 "$said" >&2
    exit 1
fi
exit "$status"
