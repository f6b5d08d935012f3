#!/usr/bin/env bash
# Tries the wrong bodies in wrong/, of these crates or of all, on a copy of the tree, and says which are still proved:
# wrong.sh [CRATE ..]
set -eu
cd "$(dirname "$0")/.."
python3 scripts/check.py
[ $# -gt 0 ] || set -- $(ls -d crates/*/wrong | cut -d/ -f2)
copy=$(mktemp -d)
trap 'rm -rf "$copy"' EXIT
git ls-files -z --cached --others --exclude-standard crates crates.txt HANDLES | while IFS= read -r -d '' file; do
    [ ! -f "$file" ] || cp --parents "$file" "$copy"
done
cd "$copy"
rm -rf crates/*/must-fail
for crate in "$@"; do
    mv "crates/$crate/wrong" "crates/$crate/must-fail"
done
rt must-fail "$@" >said 2>&1 || true
count() { for crate in "$@"; do ls "crates/$crate/must-fail/"*.edit; done | wc -l; }
refused=$(grep -c '\.edit: refused' said || true)
grep '\.edit: ' said | grep -v ': refused' || true
grep 'NOT PROVED' said || true
echo "wrong bodies: $refused of $(count "$@") refused"
[ "$refused" -eq "$(count "$@")" ]
