#!/usr/bin/env bash
# Builds c/test.c with the library for C, and runs it, once as it is and once with the sanitizers for addresses and undefined behaviour.
# It fails if there is no C compiler, or if the library isn't built.
set -eu
cd "$(dirname "$0")"
library=../crates/biblatex_c/out/libbiblatex.a
compiler=${CC:-gcc}
if ! command -v "$compiler" >/dev/null; then
    echo "c/test.sh: there is no C compiler $compiler" >&2
    exit 1
fi
if [ ! -f "$library" ]; then
    echo 'c/test.sh: the library for C is not built: scripts/prove.py biblatex_c builds it' >&2
    exit 1
fi
room=$(mktemp -d)
trap 'rm -rf "$room"' EXIT
status=0
for words in '-O2' '-O1 -g -fsanitize=address,undefined -fno-sanitize-recover=all'; do
    "$compiler" -std=c11 -D_GNU_SOURCE -Wall -Wextra -Werror $words -pthread test.c "$library" -o "$room/test" -lm || { status=1; continue; }
    "$room/test" || status=1
done
exit "$status"
