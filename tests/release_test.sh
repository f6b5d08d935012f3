#!/usr/bin/env bash
# Unpacks an archive of release.sh in an empty folder, and tries all that is in it: release_test.sh ARCHIVE
# Runs both programs, compiles and runs the example in C of docs/LIBRARY.md, runs its example in Python, and checks the sums, the
# manual page, the links between documents and the completions.
set -u
export LC_ALL=C
archive=$(realpath "$1")
room=$(mktemp -d)
trap 'rm -rf "$room"' EXIT
cd "$room" || exit 1
passed=0
failed=0

# counts a check, and returns whether it passed: its name, and a command
holds() {
    if "${@:2}" >output 2>&1; then
        passed=$((passed + 1))
    else
        failed=$((failed + 1))
        echo "failed: $1"
        head -5 output
        return 1
    fi
}

# whether a command prints this: the text, and the command
prints() {
    local want=$1
    shift
    local found
    found=$("$@" 2>&1; echo .)
    [ "$found" = "$want"$'\n.' ] || { printf '%s' "$found"; return 1; }
}

# the first block of a language in a section of LIBRARY.md: the language, and the section
block() {
    awk -v fence="\`\`\`$1" -v section="## $2" '
        $0 == section { inside = 1 }
        inside && $0 == "```" && shown { exit }
        inside && shown { print }
        inside && $0 == fence { shown = 1 }' share/doc/LIBRARY.md
}

# whether each link of a document leads to a file that is there
links() {
    local link found=1
    while read -r link; do
        found=0
        [ -f "share/doc/$link" ] || { echo "no share/doc/$link"; return 1; }
    done < <(grep -ohE '\]\([A-Za-z./][^)#:]*[)#]' share/doc/*.md | sed 's/^](//; s/[)#]$//' | sort -u)
    return "$found"
}

tar -xzf "$archive"
cd biblatex-* || exit 1
top=$PWD
holds 'the sums' sha256sum --quiet -c SHA256SUMS
holds 'by which commit and kit it was proved' grep -q '^kit rattle-kit' PROVED
printf '@misc{a, title = {T}}\n@misc{b, crossref = {a}}\n' > refs.bib
for command in keys biblatex bibtex check; do
    bib() { bin/bib "$command" < refs.bib; }
    case $command in
        keys) want=$'a\nb' ;;
        biblatex) want=$'@misc{a,\ntitle = {T},\n}\n\n@misc{b,\ncrossref = {a},\n}' ;;
        bibtex) want=$'@misc{a,\ntitle = {T},\n}\n\n@misc{b,\ncrossref = {a},\n}' ;;
        check) want=$'a: missing author\nb: missing title\nb: missing author' ;;
    esac
    holds "bib $command" prints "$want" bib
done
settled() { printf '@misc{a, title = {T}}' | bin/bib settled; }
holds 'bib settled' prints settled settled
holds 'bibkit keys' prints $'a\nb' bin/bibkit keys refs.bib
holds 'bibkit --version' prints "bibkit ${top##*-}" bin/bibkit --version
holds 'bibkit lint' bin/bibkit lint --only syntax refs.bib
holds 'bibkit convert' bin/bibkit convert --to csl refs.bib
holds 'the manual page' grep -q '^\.TH' share/man/man1/bibkit.1
holds 'the links between documents' links
holds 'completions of bash' bash -n share/bash-completion/completions/bibkit
holds 'completions of fish and zsh' test -s share/fish/vendor_completions.d/bibkit.fish -a -s share/zsh/site-functions/_bibkit
if holds 'a C compiler, gcc' command -v gcc; then
    block c 'From C' > example.c
    holds 'the example in C of LIBRARY.md' test -s example.c
    holds 'compiling the example in C of LIBRARY.md' gcc -std=c11 -Wall -Wextra -Werror -Iinclude example.c lib/libbiblatex.a -o example
    holds 'running it' grep -q '"key":"a"' <(./example)
fi
if holds 'an interpreter, python3' command -v python3; then
    block python 'From Python' > example.py
    holds 'the example in Python of LIBRARY.md' test -s example.py
    holds 'running it' env PYTHONPATH=python python3 example.py
    printf '@book{c, author = {Ann Bell}, title = {T}, date = {2019}}' > works.bib
    holds 'the package'\''s first example' prints $'Bell, Ann\n    2019 T' env PYTHONPATH=python python3 python/examples/authors.py works.bib
    holds 'the version of the Python package' prints "${top##*-}" env PYTHONPATH=python python3 -c 'import biblatex; print(biblatex.version())'
fi
echo "release: $passed passed, $failed failed"
[ "$failed" = 0 ]
