#!/usr/bin/env bash
# Makes one archive of what is proved and built, and tries it: release.sh [FOLDER]
# FOLDER, or out/, gets biblatex-VERSION-x86_64-linux.tar.gz, and its sum beside it. It takes what the gate, or
# `scripts/prove.py bib bibkit biblatex_c`, has left in crates/*/out, and fails if a source, a definition or a proof has changed since.
set -eu
cd "$(dirname "$0")/.."
to=${1:-out}

bib=crates/bib/out/bib
bibkit=crates/bibkit/out/bibkit
library=crates/biblatex_c/out/libbiblatex.a
for built in "$bib" "$bibkit" "$library"; do
    if [ ! -f "$built" ] || [ -n "$(find crates/*/src crates/*/specs crates/*/proofs -name '*.[ra]*t' -newer "$built" -print -quit)" ]; then
        echo "release.sh: $built is not built, or a source has changed since: scripts/prove.py bib bibkit biblatex_c proves and builds it" >&2
        exit 1
    fi
done

version=$("$bibkit" --version | cut -d' ' -f2)
name=biblatex-$version-x86_64-linux
room=$(mktemp -d)
trap 'rm -rf "$room"' EXIT
top=$room/biblatex-$version
share=$top/share

install -D -m 755 -t "$top/bin" "$bib" "$bibkit"
install -D -m 644 -t "$top/include" c/biblatex.h
install -D -m 644 -t "$top/lib" "$library"
install -D -m 644 -t "$share/man/man1" docs/bibkit.1
install -D -m 644 completions/bibkit.bash "$share/bash-completion/completions/bibkit"
install -D -m 644 -t "$share/fish/vendor_completions.d" completions/bibkit.fish
install -D -m 644 -t "$share/zsh/site-functions" completions/_bibkit
install -D -m 644 -t "$share/doc" docs/LIBRARY.md docs/BIBKIT.md docs/DIFFERENCES.md docs/DECISIONS.md docs/CSL.md docs/entries.schema.json
install -D -m 644 -t "$top" LICENSE
bash python/build.sh "$library"
install -D -m 644 -t "$top/python" python/pyproject.toml python/setup.py python/README.md
install -D -m 644 -t "$top/python/biblatex" python/biblatex/*.py python/biblatex/py.typed python/biblatex/libbiblatex.so
install -D -m 644 -t "$top/python/examples" python/examples/*.py

commit=$(git rev-parse HEAD)
changes=$(git status --porcelain)
cat > "$top/PROVED" <<TEXT
biblatex $version
commit $commit${changes:+, with changes that are not committed}
kit $(rt version)

Each function of both programs and of the library was proved to meet its contract, with this kit, before LLVM compiled it.
What that says, what is only tested and what is trusted stands in README.md of the repository at this commit.
TEXT
(cd "$top" && find . -type f ! -name SHA256SUMS -print0 | sort -z | xargs -0 sha256sum > SHA256SUMS)

mkdir -p "$to"
to=$(realpath "$to")
tar --sort=name --owner=0 --group=0 --numeric-owner --mtime="@$(git log -1 --format=%ct)" -C "$room" -c "biblatex-$version" | gzip -n > "$to/$name.tar.gz"
(cd "$to" && sha256sum "$name.tar.gz" > "$name.tar.gz.sha256")
bash tests/release_test.sh "$to/$name.tar.gz"
echo "$to/$name.tar.gz"
