#!/usr/bin/env bash
# Runs a built program, and compares what it prints and its status with what is wanted: runs.sh PROGRAM
set -u
export LC_ALL=C
program=$1
files=$(mktemp -d)
trap 'rm -rf "$files"' EXIT
passed=0
failed=0

# counts a run that wrote the file `output`: its name, its status, and the status and the output that are wanted
count() {
    if [ "$2" = "$3" ] && printf %s "$4" | cmp -s - "$files/output"; then
        passed=$((passed + 1))
    else
        failed=$((failed + 1))
        echo "failed: $1 (status $2)"
    fi
}

# runs the program on the file `input`: a name, the status and the output that are wanted, and the words
run() {
    local name=$1 status=$2 want=$3
    shift 3
    "$program" "$@" <"$files/input" >"$files/output"
    count "$name" $? "$status" "$want"
}

usage=$'usage: bib keys|biblatex|bibtex|check|settled\n'

printf '@article{test, author={A}}' >"$files/input"
run 'no word' 2 "$usage"
run 'another word' 2 "$usage" key
run 'two words' 2 "$usage" keys keys
run 'a second word that is empty' 2 "$usage" keys ''
run 'a word that is not UTF-8' 2 "$usage" $'\xff'
run 'keys and a word that is not UTF-8' 2 "$usage" keys $'\xff'
run 'one key' 0 $'test\n' keys

: >"$files/output"
"$program" keys <"$files/input" >&-
count 'a closed output' $? 1 ''
"$program" keys <"$files/input" >/dev/full
count 'a full disk' $? 1 ''
"$program" >/dev/full
count 'usage on a full disk' $? 1 ''
"$program" keys <&- >"$files/output"
count 'a closed input' $? 1 $'error: input failed\n'

printf '@misc{a,} %% @misc{b,}\n@book{c, title = "d"}' >"$files/input"
run 'two keys' 0 $'a\nc\n' keys
printf '' >"$files/input"
run 'an empty file' 0 '' keys
printf '@article{a}' >"$files/input"
run 'an error' 1 $'error: expected comma: 10-10\n' keys
printf '@article{a,}\xff' >"$files/input"
run 'bytes that are not UTF-8' 1 $'error: input is not UTF-8\n' keys

printf '@thesis{t, institution={TU}, date={2019-10}}' >"$files/input"
run 'a thesis with the names of BibTeX' 0 $'@phdthesis{t,\nyear = {2019},\nmonth = {10},\nschool = {TU},\n}\n' bibtex
printf '@article{k, journal={A}, journaltitle={B}}' >"$files/input"
run 'two fields with one written name' 0 $'@article{k,\njournaltitle = {A},\njournaltitle = {B},\n}\n' biblatex
printf '@misc{a, title={Foo}}' >"$files/input"
run 'a settled bibliography' 0 $'settled\n' settled
printf '@misc{a, title={a{$}$b}}' >"$files/input"
run 'math that is not settled' 4 $'not settled\n' settled
printf '@article{e,}' >"$files/input"
run 'an entry that lacks fields' 4 $'e: missing title\ne: missing journaltitle\ne: missing author\ne: missing year\n' check
printf '@mvbook{m, title={x}, volume={y}}' >"$files/input"
run 'a volume that is not asked for, and no number' 4 $'m: missing author\nm: missing year\nm: superfluous volume\nm: malformed volume: invalid number\n' check
printf '@misc{a, title={A}, author={B}}' >"$files/input"
run 'an entry without errors' 0 '' check
printf '@misc{a, title={x}}@misc{a,}' >"$files/input"
run 'a key twice' 1 $'error: duplicate key "a": 19-27\n' biblatex
run 'a key twice, of which keys know nothing' 0 $'a\na\n' keys

# worked examples, cut short at every byte: each prefix is read or refused
examples=(
    '@string{BT = "bibtex"}' '@article{,}' '@article{a}' '@misc{a, title={x}, %1
%2
}' '@misc{a, title={Foo \& \{ {NASA} $x^2$}}' '@string{a = b} @string{b = a} @misc{k, title = a}' '@misc{a, ids={b},} @misc{b,}'
    '@mvbook{p, title={Works}} @book{c, title={One}, crossref={p}}' '@book{a, crossref={a}}' '@misc{a, title={a~b}, url={x~y}}'
    '@xdata{x, date={1999}} @xdata{y, year={2001}} @article{a, date={1990-05}, xdata={x, y}}'
    '@book{p, year={2020}, month={Jan-Feb}} @inbook{c, crossref={p}}' '@article{k, journal={A}, journaltitle={B}}'
    '@thesis{t, institution={TU}, date={2019-10}}' '@misc{a, title={x}} junk % @misc{b,}' '@comment{x @misc{b,} y}'
    '@misc{a, title="a {" # "b}"}' '@preamble{"x"" @misc{b,}' '@misc{a, title={a{$}$b}}' '@misc{k, title = DEC # {é}}'
    '@misc{a, title={\"{A}ther und {"\LaTeX "} {\relax for you\}}}}' '@misc{c, crossref={p}, xref={a, b}}'
)
cuts=0
for example in "${examples[@]}"; do
    for ((end = 0; end <= ${#example}; end++)); do
        for word in keys biblatex; do
            printf %s "${example:0:end}" | "$program" "$word" >/dev/null
            status=$?
            cuts=$((cuts + 1))
            [ "$status" -le 1 ] || {
                failed=$((failed + 1))
                echo "failed: $word on ${example:0:end} (status $status)"
            }
        done
    done
done

key=$(head -c 2097152 /dev/zero | tr '\0' k)
printf '@misc{%s,}' "$key" >"$files/input"
run 'a key of 2 MiB' 0 "$key"$'\n' keys

# 64 MiB of input, and at most 32 MiB of memory
head -c 67108864 /dev/zero | (ulimit -v 32768 && exec "$program" keys) >"$files/output"
count 'no memory for the input' $? 3 $'error: out of memory\n'

echo "runs: $passed passed, $failed failed, $cuts prefixes of examples read or refused"
[ "$failed" = 0 ]
