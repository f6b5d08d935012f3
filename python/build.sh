#!/usr/bin/env bash
# Builds the shared object of the package: build.sh ARCHIVE
# ARCHIVE is the static library for C, crates/biblatex_c/out/libbiblatex.a.
set -eu
if [ "$#" -ne 1 ]; then
    echo 'usage: build.sh ARCHIVE' >&2
    exit 2
fi
out=$(dirname "$0")/biblatex/libbiblatex.so
# the new file replaces the old one by a rename, so programs that have loaded the old one keep running
"${CC:-gcc}" -shared -fPIC -o "$out.new" -Wl,--whole-archive "$1" -Wl,--no-whole-archive -lm
mv "$out.new" "$out"
