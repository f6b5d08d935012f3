#!/usr/bin/env bash
# Runs a built program, and compares what it prints and its status with what is wanted: runs.sh PROGRAM [DOCUMENT..]
# With documents: runs each line `$ COMMAND` of their blocks too, and compares what it prints with the lines after it.
set -u
export LC_ALL=C
program=$(realpath "$1")
completions=$(realpath "$(dirname "$0")/../../completions")
schema=$(realpath "$(dirname "$0")/../../docs/entries.schema.json")
tests=$(realpath "$(dirname "$0")/../../tests")
shift
documents=()
for document in "$@"; do documents+=("$(realpath "$document")"); done
files=$(mktemp -d)
chmod 755 "$files"
trap 'rm -rf "$files"' EXIT
cd "$files" || exit 1
passed=0
failed=0
skipped=0
missing=

# counts a run that wrote the file `output`: its name, its status, and the status and the output that are wanted
count() {
    if [ "$2" = "$3" ] && printf %s "$4" | cmp -s - output; then
        passed=$((passed + 1))
    else
        failed=$((failed + 1))
        echo "failed: $1 (status $2)"
        diff <(printf %s "$4") output | head -5
    fi
}

# fails for a program or a module that the tests need and the machine doesn't have
lacks() {
    failed=$((failed + 1))
    echo "failed: there is no $1"
}

# counts tests as skipped for a program that is not installed: the program, and how many tests
skip() {
    skipped=$((skipped + $2))
    missing="$missing, no $1"
}

# counts a test that is a condition: its name, and a command
holds() {
    if "${@:2}"; then
        passed=$((passed + 1))
    else
        failed=$((failed + 1))
        echo "failed: $1"
    fi
}

# runs the program on the file `input`: a name, the status and the output that are wanted, and the words
run() {
    local name=$1 status=$2 want=$3
    shift 3
    "$program" "$@" <input >output 2>messages
    count "$name" $? "$status" "$want"
}

# the same, for what is written to standard error
run_messages() {
    local name=$1 status=$2 want=$3
    shift 3
    "$program" "$@" <input >results 2>output
    count "$name" $? "$status" "$want"
}

# the same, for the beginning of what it prints, up to the length of what is wanted
run_start() {
    local name=$1 status=$2 want=$3
    shift 3
    "$program" "$@" <input >results 2>messages
    local ended=$?
    head -c ${#want} results >output
    count "$name" $ended "$status" "$want"
}

# whether what the program printed last has this text
prints() { grep -qF -- "$1" output; }
messages_have() { grep -qF -- "$1" messages; }

: >input
printf '@article{test, author={A}}\n' >one.bib
printf '@misc{a, title={A}, author={B}}\n\n@misc{b, title={x y}, author={Knuth, D.}, year={1984}}\n' >two.bib
printf '@misc{a, title={A}}\n@misc{c, title={C}\n' >broken.bib
lines_of_one='one.bib:1:10: warning: test: missing title [missing-field]
one.bib:1:10: warning: test: missing journaltitle [missing-field]
one.bib:1:10: warning: test: missing year [missing-field]
'

# help, versions, usage: as the manual page and docs/BIBKIT.md say
run 'the version' 0 $'bibkit 0.1.0\n' --version
run 'the version, in short' 0 $'bibkit 0.1.0\n' -V
for word in help --help -h; do
    run_start "$word" 0 $'Check, search and edit bibliography files\n\nUsage: bibkit <COMMAND>\n' "$word"
    for command in lint keys get select grep cited stats diff merge fmt convert resolve set unset rename rekey edit remove add strings recode; do
        holds "$word names $command" grep -qE "^  $command +[A-Z]" results
    done
done
run_start 'help of lint' 0 $'Report errors and likely mistakes in files\n\nUsage: bibkit lint [OPTIONS] [FILE]...\n' lint --help
for option in '--only <CODES>' '--ignore <CODES>' '--explain <CODE>' '--format <FORMAT>' '--fail-on <SEVERITY>' '--cited <DOCUMENT>' '--unused' '--each' '--color <WHEN>' '--where <CONDITION>' '--stdin-filename <NAME>' '--baseline <FILE>' --fix --write --diff; do
    holds "help of lint names $option" grep -qE "^      $option +[A-Z]" results
done
run_start 'help of keys' 0 $'Print the key of each entry\n\nUsage: bibkit keys [OPTIONS] [FILE]...\n' keys --help
run_start 'help of get' 0 $'Print the entries with these keys, unchanged\n\nUsage: bibkit get [OPTIONS] <KEYS> [FILE]...\n' get --help
run_start 'help of grep' 0 $'Print the entries with a text in a field, unchanged\n\nUsage: bibkit grep <FIELD> <TEXT> [FILE]...\n' grep --help
run_start 'help of cited' 0 $'Print the entries that a document cites, unchanged\n\nUsage: bibkit cited <DOCUMENT> [FILE]...\n' cited --help
run_start 'help of diff' 0 $'Print the changes from one version of a file to another one\n\nUsage: bibkit diff [OPTIONS] [FILE]...\n' diff --help
holds 'help of diff says what its files are' grep -qF 'The versions, in this order; one of them may be -, standard input' results
run_start 'help of stats' 0 $'Count entries by type and year, fields by name, and findings by code\n\nUsage: bibkit stats [FILE]...\n' stats --help
for command in lint keys get select grep cited stats diff merge fmt convert resolve set unset rename rekey edit remove add strings recode; do
    "$program" $command --help >output
    holds "help of $command has an example" prints "  bibkit $command"
done
for command in set unset rename rekey edit remove add strings; do
    "$program" $command --help >output
    holds "help of $command names the file" prints '-f, --file <FILE>'
    holds "help of $command names --write" prints '--write'
    holds "help of $command names --diff" prints '--diff'
done
"$program" fmt --help >output
for option in '--delimiters <DELIMITERS>' '--order <FIELDS>' '--width <CHARACTERS>' '--sort <ORDER>' --diff; do
    holds "help of fmt names $option" prints "$option"
done
"$program" strings --help >output
for option in --expand --collect '--fields <FIELDS>' '--at-least <TIMES>'; do
    holds "help of strings names $option" prints "$option"
done
run 'no command' 2 ''
holds 'no command: usage is a message' messages_have 'Usage: bibkit'
run 'another command' 2 '' nothing
run 'a wrong option' 2 '' lint --nothing
holds 'a wrong option is named' messages_have --nothing
run 'a wrong code' 2 '' lint --only no-code
holds 'a wrong code is named' messages_have 'bibkit: `no-code` isn'"'"'t a code, alone or with a field as in `missing-field:publisher`. The codes are: unread-bytes, escape-sequence, syntax, '
run 'a wrong code with a field' 2 '' lint --ignore syntax,no-code:title
holds 'a wrong code with a field is named' messages_have 'bibkit: `no-code:title` isn'
run 'a code with an empty field' 2 '' lint --ignore missing-field:
run 'a wrong format' 2 '' lint --format xml
run 'a wrong severity' 2 '' lint --fail-on note
run 'unused entries of no document' 2 '' lint --unused
run 'no keys' 2 '' get
run 'no text' 2 '' grep author
run 'no document' 2 '' cited
run 'words that are not UTF-8' 2 '' keys $'\xff'

# lint
run 'findings' 1 "$lines_of_one"$'errors: 0, warnings: 3\n' lint one.bib
run 'nothing found in an empty input' 0 $'errors: 0, warnings: 0\n' lint
run 'one code' 1 $'one.bib:1:10: warning: test: missing title [missing-field]\none.bib:1:10: warning: test: missing journaltitle [missing-field]\none.bib:1:10: warning: test: missing year [missing-field]\nerrors: 0, warnings: 3\n' lint --only missing-field one.bib
run 'no other code' 0 $'errors: 0, warnings: 0\n' lint --only syntax,duplicate-key one.bib
run 'a code that is left out' 0 $'errors: 0, warnings: 0\n' lint --ignore missing-field one.bib
run 'two options that leave codes out' 0 $'errors: 0, warnings: 0\n' lint --ignore syntax --ignore missing-field one.bib
run 'a code that is asked for and left out' 0 $'errors: 0, warnings: 0\n' lint --only missing-field --ignore missing-field one.bib
# codes with a field: a word of the text, after the key
missing_title=$'one.bib:1:10: warning: test: missing title [missing-field]\n'
missing_year=$'one.bib:1:10: warning: test: missing year [missing-field]\n'
run 'a code and a field that are left out' 1 "$missing_title$missing_year"$'errors: 0, warnings: 2\n' lint --ignore missing-field:journaltitle one.bib
run 'a code and a field in another case' 1 "$missing_year"$'errors: 0, warnings: 1\n' lint --only missing-field:YEAR one.bib
run 'a code with two fields' 1 "$missing_title$missing_year"$'errors: 0, warnings: 2\n' lint --only missing-field:title,missing-field:year one.bib
run 'a part of a word is no field' 0 $'errors: 0, warnings: 0\n' lint --only missing-field:journal one.bib
run 'another code with the field' 1 "$lines_of_one"$'errors: 0, warnings: 3\n' lint --ignore empty-field:title one.bib
printf '@article{title, author={A}, journaltitle={J}, nofields={x}}\n' >keyed.bib
run 'a key is no field' 1 $'keyed.bib:1:10: warning: title: missing title [missing-field]\nerrors: 0, warnings: 1\n' lint --only missing-field:title keyed.bib
run 'a field in backticks' 1 $'keyed.bib:1:47: warning: unknown field `nofields` [unknown-field]\nerrors: 0, warnings: 1\n' lint --only unknown-field:nofields keyed.bib
# lines of a file that switch off codes in it
printf '%% bibkit: off missing-field:year, missing-field:title,no-code,\n@article{test, author={A}}\n' >off.bib
run 'codes that a file switches off' 1 $'off.bib:2:10: warning: test: missing journaltitle [missing-field]\nerrors: 0, warnings: 1\n' lint off.bib
printf '%% Encoding: UTF-8\r\n\r\n@article{test, author={A}}\r\n\r\n%% bibkit: off missing-field\r\n' >off2.bib
run 'codes that the last line switches off' 0 $'errors: 0, warnings: 0\n' lint off2.bib
printf '%% bibkit: off missing-field\n@article{other, author={A}}\n' >off7.bib
run 'a file switches off codes only for itself' 1 "$lines_of_one"$'errors: 0, warnings: 3\n' lint one.bib off7.bib
run 'a file switches off nothing for the next one' 1 "$lines_of_one"$'errors: 0, warnings: 3\n' lint off7.bib one.bib
run 'each file switches off for itself' 1 "$lines_of_one"$'errors: 0, warnings: 3\n' lint --each off7.bib one.bib
for line in ' %% bibkit: off missing-field' '%% bibkit:off missing-field' '%%bibkit: off missing-field' '%% bibkit: off missing-field missing-field' 'x %% bibkit: off missing-field'; do
    printf "$line"'\n@article{test, author={A}, journaltitle={J}, title={T}}\n' >off3.bib
    run "another line: $line" 1 $'off3.bib:2:10: warning: test: missing year [missing-field]\nerrors: 0, warnings: 1\n' lint off3.bib
done
printf '%% bibkit: off unused-entry\n@misc{a, title={A}}\n' >off4.bib
printf '\\relax\n' >off4.aux
run 'unused entries that a file switches off' 0 $'errors: 0, warnings: 0\n' lint --only unused-entry --cited off4.aux --unused off4.bib
printf '%% bibkit: off unread-bytes\n@misc{a, title={caf\xe9}}\n' >off5.bib
run 'bytes that are not UTF-8, switched off' 0 $'errors: 0, warnings: 0\n' lint --only unread-bytes off5.bib
printf '%% bibkit: off unknown-field\n@book{a, author={A}, titel={T}, title={U}, publsher={P}, year=1999}\n' >off6.bib
run 'no fix of what is switched off' 0 "$(cat off6.bib)"$'\n' lint --fix off6.bib
tail -n 1 off6.bib >on6.bib
# findings of an earlier run
"$program" lint one.bib >known
run 'accepted findings' 0 $'errors: 0, warnings: 0\n' lint --baseline known one.bib
printf '\n\n@article{test, author={A}}\n' >moved.bib
run 'accepted findings at other places' 0 $'errors: 0, warnings: 0\n' lint --baseline known moved.bib
printf 'old.bib:7:7: warning: test: missing title [missing-field]\r\nx: error: test: missing year [missing-field]\n' >known2.txt
run 'one accepted finding' 1 $'one.bib:1:10: warning: test: missing journaltitle [missing-field]\n'"$missing_year"$'errors: 0, warnings: 2\n' lint --baseline known2.txt one.bib
printf '@article{other, author={A}, title={T}, year=1999}\n' >other.bib
run 'accepted findings of several files' 1 $'other.bib:1:10: warning: other: missing journaltitle [missing-field]\nerrors: 0, warnings: 1\n' lint --baseline known one.bib other.bib
run 'an empty file of accepted findings' 1 "$lines_of_one"$'errors: 0, warnings: 3\n' lint --baseline /dev/null one.bib
run 'no file of accepted findings' 2 '' lint --baseline none.txt one.bib
holds 'the missing file is named' messages_have 'bibkit: none.txt: '
"$program" lint --format json one.bib >known.json
run 'accepted findings in another format' 2 '' lint --baseline known.json one.bib
holds 'the other format is named' messages_have 'bibkit: known.json: it isn'
run 'white space around codes' 1 "$missing_year"$'errors: 0, warnings: 1\n' lint --ignore ' missing-field:title , missing-field:journaltitle ' one.bib
"$program" lint on6.bib >known6.txt
run 'an accepted finding is not mended' 0 "$(cat on6.bib)"$'\n' lint --fix --baseline known6.txt on6.bib
run 'two files' 1 $'broken.bib:1:7: warning: a: missing year [missing-field]\nbroken.bib:3:1: error: c: expected comma [syntax]\n'"$lines_of_one"$'errors: 1, warnings: 4\n' lint broken.bib one.bib
cp one.bib input
run 'standard input' 1 "${lines_of_one//one.bib/-}"$'errors: 0, warnings: 3\n' lint
run 'standard input by its name, after a file' 1 "$lines_of_one${lines_of_one//one.bib/-}"$'errors: 0, warnings: 6\n' lint --each one.bib -

# standard input under another name, and with the settings of a file with that name
run 'standard input under a name' 1 "${lines_of_one//one.bib/no.bib}"$'errors: 0, warnings: 3\n' lint --stdin-filename no.bib
run 'standard input under a name, after a file' 1 "$lines_of_one${lines_of_one//one.bib/no.bib}"$'errors: 0, warnings: 6\n' lint --each --stdin-filename no.bib one.bib -
mkdir named
printf 'ignore = ["missing-field"]\n' >named/bibkit.toml
run 'standard input with the settings of its name' 0 $'errors: 0, warnings: 0\n' lint --stdin-filename named/no.bib -
run_messages 'a name for standard input, which is not read' 2 $'bibkit: `--stdin-filename` requires the file `-`, or no file\n' lint --stdin-filename no.bib one.bib
run_messages 'a name for standard input that a file has' 2 $'bibkit: `--stdin-filename` requires a name that no other file has\n' lint --stdin-filename one.bib - one.bib
: >input
run 'a list in JSON' 1 '[
{"file":"one.bib","line":1,"column":10,"end_line":1,"end_column":14,"severity":"warning","code":"missing-field","message":"test: missing title"},
{"file":"one.bib","line":1,"column":10,"end_line":1,"end_column":14,"severity":"warning","code":"missing-field","message":"test: missing journaltitle"},
{"file":"one.bib","line":1,"column":10,"end_line":1,"end_column":14,"severity":"warning","code":"missing-field","message":"test: missing year"}
]
' lint --format json one.bib
"$program" lint --each --format json one.bib broken.bib one.bib >output
holds 'a list of three files in JSON' python3 -c 'import json, sys; found = json.load(open("output")); sys.exit(len(found) != 8 or found[4] != {"file": "broken.bib", "line": 3, "column": 1, "end_line": 3, "end_column": 1, "severity": "error", "code": "syntax", "message": "c: expected comma"})'
run 'an empty list in JSON' 0 $'[\n]\n' lint --format json
printf '@misc{a, title={A}}\n' >'a "b" \ c.bib'
printf '@misc{q"\\, author={B}}\n' >'a "b" \ c.bib'
"$program" lint --format json 'a "b" \ c.bib' >output
holds 'quotes and backslashes in JSON' python3 -c 'import json, sys; found = json.load(open("output")); sys.exit(found[0]["file"] != "a \"b\" \\ c.bib")'
# what codes mean, each with its severity by the table of codes of docs/BIBKIT.md; no file is read
for code in unread-bytes syntax unread-field circular-abbreviation duplicate-key circular-reference missing-entry; do
    run_start "the meaning of $code" 0 "$code (error): " lint --explain $code no-file.bib
done
for code in escape-sequence unknown-abbreviation unread-date unknown-type missing-field superfluous-field malformed-field malformed-date unknown-field repeated-field \
    wrong-isbn wrong-issn doi-address url-scheme malformed-name special-character html two-years empty-key stray-field comment-in-entry unbalanced-quote unknown-reference likely-duplicate \
    key-case repeated-definition unused-entry; do
    run_start "the meaning of $code" 0 "$code (warning): " lint --explain $code no-file.bib
done
for code in not-a-number foreign-field empty-field early-parent unused-definition; do
    run_start "the meaning of $code" 0 "$code (info): " lint --explain $code no-file.bib
done
run 'the whole meaning of a code' 0 'superfluous-field (warning): An entry of this type must not have this field. Remove it, or change the type of the entry.
' lint --explain superfluous-field
run 'a meaning of no code' 2 '' lint --explain no-code

# bytes that are not UTF-8
printf '@misc{a, title={\xe9t\xe9}}\n' >latin.bib
run 'bytes that are not UTF-8' 1 $'latin.bib:1:17: error: not UTF-8 from here on, so the file is read as Windows-1252 [unread-bytes]\nerrors: 1, warnings: 0\n' lint --ignore missing-field latin.bib
run 'they are the first finding' 1 $'latin.bib:1:17: error: not UTF-8 from here on, so the file is read as Windows-1252 [unread-bytes]\nlatin.bib:1:7: warning: a: missing year [missing-field]\nerrors: 1, warnings: 1\n' lint latin.bib
run 'entries of them' 0 $'@misc{a, title={\xc3\xa9t\xc3\xa9}}\n' get a latin.bib
printf '@misc{a, title={\xcf\xf2\xe8\xe2\xe5\xf2}, year={2000}}\n' >cyrillic.bib
run 'four bytes in a row that are not ASCII' 1 $'cyrillic.bib:1:17: error: not UTF-8 from here on; the file is read as Windows-1252, but is unlikely to be in it [unread-bytes]\nerrors: 1, warnings: 0\n' lint cyrillic.bib
printf '@misc{a, title={\x81}, year={2000}}\n' >unassigned.bib
run_start 'a byte without a character' 1 'unassigned.bib:1:17: error: not UTF-8 from here on; the file is read as Windows-1252, but is unlikely' lint unassigned.bib
printf '@misc{a, title={\xc5\x81\xc3\xb3d\xc5\xba \xe9}, year={2000}}\n' >mixed.bib
run_start 'letters of UTF-8 before a byte that is not UTF-8' 1 'mixed.bib:1:22: error: not UTF-8 from here on, so the file is read as Windows-1252 [' lint mixed.bib
printf '@misc{a, title={\xe9\xe8\xea \xe9}, year={2000}}\n' >three.bib
run_start 'three bytes in a row that are not ASCII' 1 'three.bib:1:17: error: not UTF-8 from here on, so the file is read as Windows-1252 [' lint three.bib
printf '@misc{a, title={\e$B4A;z\e(B}, note={\e$B4A;z\e(B}, year={2000}}\n' >escapes.bib
run 'escape sequences' 1 $'escapes.bib:1:17: warning: an escape sequence, as in ISO-2022-JP; the characters after it aren\'t decoded [escape-sequence]\nerrors: 0, warnings: 1\n' lint --only escape-sequence escapes.bib
run 'escape sequences and conditions' 0 $'errors: 0, warnings: 0\n' lint --only escape-sequence --where 'key = a' escapes.bib
printf '@misc{a, title={\e(B$}, year={2000}}\n' >escapes.bib
run 'another escape sequence' 0 $'errors: 0, warnings: 0\n' lint --only escape-sequence escapes.bib
printf '%% bibkit: off escape-sequence\n@misc{a, title={\e$B4A;z\e(B}, year={2000}}\n' >escapes.bib
run 'an escape sequence that is switched off' 0 $'errors: 0, warnings: 0\n' lint --only escape-sequence escapes.bib
printf '@misc{a, title={\e$B4A;z\e(B \xe9}, year={2000}}\n' >escapes.bib
run 'an escape sequence and bytes that are not UTF-8' 1 $'escapes.bib:1:28: error: not UTF-8 from here on, so the file is read as Windows-1252 [unread-bytes]\nescapes.bib:1:17: warning: an escape sequence, as in ISO-2022-JP; the characters after it aren\'t decoded [escape-sequence]\nerrors: 1, warnings: 1\n' lint --only unread-bytes,escape-sequence escapes.bib
printf '@misc{a,\n title={\xc3\xa9}, author={\xc3\xa9 \xc3\xa9}, nofield={x}, year={2000}}\n' >columns.bib
run 'columns are characters' 1 $'columns.bib:2:27: warning: unknown field `nofield` [unknown-field]\nerrors: 0, warnings: 1\n' lint columns.bib
printf '@misc{a, title={A}, year={2000}, volume={1 A}, owner={me}}\n' >infos.bib
printf '@article{k, titel={A}, title={B}, titel={C}\n' >cut.bib
run 'findings of an entry that is cut' 1 $'cut.bib:1:13: warning: k: unknown field `titel`; did you mean `title`? [unknown-field]\ncut.bib:1:35: warning: k: unknown field `titel`; did you mean `title`? [unknown-field]\ncut.bib:1:35: warning: k: field `titel` occurs again; BibTeX keeps the first, Biber the last [repeated-field]\ncut.bib:2:1: error: k: expected comma [syntax]\nerrors: 1, warnings: 3\n' lint cut.bib
printf '@book{a, author={}, title={T}, year=2001, issn={0378-5954}}\n@misc{, title={T}, year=2001}\n' >empty.bib
run 'a required field that is empty, a wrong ISSN and an empty key' 1 $'empty.bib:1:10: warning: a: empty author [missing-field]\nempty.bib:1:43: warning: a: wrong length or check digit in `issn` [wrong-issn]\nempty.bib:2:7: warning: an entry without a key; Biber skips it [empty-key]\nerrors: 0, warnings: 3\n' lint --only missing-field,empty-field,wrong-isbn,wrong-issn,empty-key empty.bib
run 'findings that are information' 0 $'infos.bib:1:34: info: a: malformed volume: invalid number [not-a-number]\ninfos.bib:1:48: info: field owner of another program, 1 time [foreign-field]\nerrors: 0, warnings: 0, info: 2\n' lint infos.bib
printf '@misc{a, title={<i>E. coli</i> & salt}, note={{A &amp; B}, $x<b>y$}, year={2000}}\n' >html.bib
beside=$'html.bib:1:10: warning: a: `&` in `title` needs a backslash before it [special-character]\n'
run 'a tag and a character reference' 1 $'html.bib:1:10: warning: a: HTML `<i>` in `title`; LaTeX prints it as text [html]\n'"$beside"$'html.bib:1:41: warning: a: HTML `&amp;` in `note`; LaTeX stops at `&` [html]\nerrors: 0, warnings: 3\n' lint html.bib
run 'special characters are reported beside a tag, and not beside a character reference' 1 "$beside"$'errors: 0, warnings: 1\n' lint --ignore html html.bib
"$program" lint --format json infos.bib >output
holds 'information in JSON' python3 -c 'import json, sys; found = json.load(open("output")); sys.exit([it["severity"] for it in found] != ["info", "info"])'

# the status by the severities of findings: infos.bib has only information, and one.bib only warnings
while read -r severity infos warnings errors; do
    "$program" lint --fail-on "$severity" infos.bib >output
    holds "the status for information, $severity" [ $? = "$infos" ]
    "$program" lint --fail-on "$severity" infos.bib one.bib >output
    holds "the status for warnings, $severity" [ $? = "$warnings" ]
    "$program" lint --fail-on "$severity" --only syntax broken.bib >output
    holds "the status for errors, $severity" [ $? = "$errors" ]
    "$program" lint --fail-on "$severity" --format json infos.bib one.bib >output
    holds "the status of JSON, $severity" [ $? = "$warnings" ]
    run "no findings, $severity" 0 $'errors: 0, warnings: 0\n' lint --fail-on "$severity" --only syntax one.bib
done <<'ROWS'
error 0 0 1
warning 0 1 1
info 1 1 1
never 0 0 0
ROWS
run 'a file that can not be read, and no status for findings' 2 $'errors: 0, warnings: 0\n' lint --fail-on never no.bib

# formats of findings. circle.bib has a finding of three lines, which ends before the closing brace of its entry. A file name and a key
# in odd.aux have characters that formats escape: a tab, U+0001, an apostrophe and U+FFFF are in the key.
printf '@misc{r,\n  crossref = {r},\n}\n' >circle.bib
cp one.bib 'a "b",&%:.bib'
cp one.bib $'two\nlines.bib'
printf '\\citation{x&<>%%:\t\001\047\xef\xbf\xbfy}\n' >odd.aux
run 'JSON lines' 1 '{"file":"one.bib","line":1,"column":10,"end_line":1,"end_column":14,"severity":"warning","code":"missing-field","message":"test: missing title"}
{"file":"one.bib","line":1,"column":10,"end_line":1,"end_column":14,"severity":"warning","code":"missing-field","message":"test: missing journaltitle"}
{"file":"one.bib","line":1,"column":10,"end_line":1,"end_column":14,"severity":"warning","code":"missing-field","message":"test: missing year"}
' lint --format jsonl one.bib
run 'no JSON lines' 0 '' lint --format jsonl
"$program" lint --format json one.bib broken.bib circle.bib >output
"$program" lint --format jsonl one.bib broken.bib circle.bib >lines
holds 'JSON lines are the elements of the JSON array' python3 -c 'import json, sys; sys.exit([json.loads(line) for line in open("lines")] != json.load(open("output")))'
"$program" lint --format jsonl --only circular-reference circle.bib >output
holds 'a finding of three lines' python3 -c 'import json, sys; it = json.load(open("output")); sys.exit([it[name] for name in ("line", "column", "end_line", "end_column")] != [1, 1, 3, 1])'
# the commands for one.bib under another name, escaped as a property
commands_of() {
    printf '::warning file=%s,line=1,endLine=1,col=10,endColumn=14,title=missing-field::test: missing %s\n' "$1" title "$1" journaltitle "$1" year
}
run 'commands of GitHub' 1 "::warning file=broken.bib,line=1,endLine=1,col=7,endColumn=8,title=missing-field::a: missing year
::error file=broken.bib,line=3,endLine=3,col=1,endColumn=1,title=syntax::c: expected comma
::notice file=infos.bib,line=1,endLine=1,col=48,endColumn=53,title=foreign-field::field owner of another program, 1 time
$(commands_of one.bib)
" lint --each --format github --ignore not-a-number broken.bib infos.bib one.bib
run 'no commands of GitHub' 0 '' lint --format github
run_start 'a command for three lines' 1 '::error file=circle.bib,line=1,endLine=3,title=circular-reference::' lint --format github --only circular-reference circle.bib
run 'a file name in a command' 1 "$(commands_of 'a "b"%2C&%25%3A.bib')"$'\n' lint --format github 'a "b",&%:.bib'
run 'a file name of two lines in a command' 1 "$(commands_of two%0Alines.bib)"$'\n' lint --format github $'two\nlines.bib'
run 'a message in a command' 1 $'::error file=odd.aux,line=1,endLine=1,col=1,endColumn=1,title=missing-entry::no file has an entry "x&<>%25:\t\001\'\xef\xbf\xbfy"\n' \
    lint --format github --only missing-entry --cited odd.aux two.bib
run 'elements of Checkstyle' 1 '<?xml version="1.0" encoding="utf-8"?>
<checkstyle version="4.3">
  <file name="a &quot;b&quot;,&amp;%:.bib">
    <error line="1" column="10" severity="warning" message="test: missing title" source="bibkit.missing-field"/>
    <error line="1" column="10" severity="warning" message="test: missing journaltitle" source="bibkit.missing-field"/>
    <error line="1" column="10" severity="warning" message="test: missing year" source="bibkit.missing-field"/>
  </file>
  <file name="broken.bib">
    <error line="1" column="7" severity="warning" message="a: missing year" source="bibkit.missing-field"/>
    <error line="3" column="1" severity="error" message="c: expected comma" source="bibkit.syntax"/>
  </file>
  <file name="infos.bib">
    <error line="1" column="48" severity="info" message="field owner of another program, 1 time" source="bibkit.foreign-field"/>
  </file>
</checkstyle>
' lint --each --format checkstyle --ignore not-a-number 'a "b",&%:.bib' broken.bib infos.bib
run 'no elements of Checkstyle' 0 '<?xml version="1.0" encoding="utf-8"?>
<checkstyle version="4.3">
</checkstyle>
' lint --format checkstyle
run 'a message in an element, after one element of a file' 1 '<?xml version="1.0" encoding="utf-8"?>
<checkstyle version="4.3">
  <file name="two.bib">
    <error line="1" column="7" severity="warning" message="a: missing year" source="bibkit.missing-field"/>
    <error line="1" column="7" severity="warning" message="a: never cited" source="bibkit.unused-entry"/>
    <error line="3" column="7" severity="warning" message="b: never cited" source="bibkit.unused-entry"/>
  </file>
  <file name="odd.aux">
    <error line="1" column="1" severity="error" message="no file has an entry &quot;x&amp;&lt;&gt;%:&#9;'$'\xef\xbf\xbd''&apos;'$'\xef\xbf\xbd''y&quot;" source="bibkit.missing-entry"/>
  </file>
</checkstyle>
' lint --format checkstyle --cited odd.aux --unused two.bib
"$program" lint --format checkstyle 'a "b",&%:.bib' $'two\nlines.bib' >output
holds 'XML' python3 -c 'import sys, xml.etree.ElementTree as tree; sys.exit([file.get("name") for file in tree.parse("output").getroot()] != ["a \"b\",&%:.bib", "two\nlines.bib"])'

# a log in SARIF: the members that the standard requires, by its sections
cat >sarif.py <<'PY'
import json, re, sys

def members(value, *names):
    assert all(name in value for name in names), (names, value)

log = json.load(open("output"))
members(log, "version", "runs")  # 3.13
assert log["version"] == "2.1.0" and len(log["runs"]) == 1
run = log["runs"][0]
members(run, "tool")  # 3.14
assert run["columnKind"] in ("utf16CodeUnits", "unicodeCodePoints")
members(run["tool"], "driver")  # 3.18
driver = run["tool"]["driver"]
members(driver, "name", "version")  # 3.19
assert (driver["name"], "bibkit " + driver["version"]) == ("bibkit", sys.argv[1])
rules = {}
for rule in driver["rules"]:
    members(rule, "id")  # 3.49
    assert rule["id"] not in rules
    rules[rule["id"]] = rule["defaultConfiguration"]["level"]
found = []
for result in run["results"]:
    members(result, "message")  # 3.27
    members(result["message"], "text")  # 3.11
    assert result["level"] == rules[result["ruleId"]] and result["level"] in ("none", "note", "warning", "error")
    [location] = result["locations"]
    place = location["physicalLocation"]
    uri = place["artifactLocation"]["uri"]
    assert re.fullmatch(r"([A-Za-z0-9._~/-]|%[0-9A-F]{2})*", uri), uri
    region = [place["region"][name] for name in ("startLine", "startColumn", "endLine", "endColumn")]
    assert all(number >= 1 for number in region)
    found.append([result["ruleId"], result["level"], uri, *region, result["message"]["text"]])
assert found == json.loads(sys.argv[2]), found
PY
version=$("$program" --version)
"$program" lint --each --format sarif --ignore not-a-number 'a "b",&%:.bib' broken.bib infos.bib >output
holds 'a log in SARIF' python3 sarif.py "$version" '[
    ["missing-field", "warning", "a%20%22b%22%2C%26%25%3A.bib", 1, 10, 1, 14, "test: missing title"],
    ["missing-field", "warning", "a%20%22b%22%2C%26%25%3A.bib", 1, 10, 1, 14, "test: missing journaltitle"],
    ["missing-field", "warning", "a%20%22b%22%2C%26%25%3A.bib", 1, 10, 1, 14, "test: missing year"],
    ["missing-field", "warning", "broken.bib", 1, 7, 1, 8, "a: missing year"],
    ["syntax", "error", "broken.bib", 3, 1, 3, 1, "c: expected comma"],
    ["foreign-field", "note", "infos.bib", 1, 48, 1, 53, "field owner of another program, 1 time"]
]'
"$program" lint --format sarif --only circular-reference circle.bib >output
holds 'a result of three lines' python3 -c 'import json, sys; [result] = json.load(open("output"))["runs"][0]["results"]; sys.exit(result["locations"][0]["physicalLocation"]["region"] != {"startLine": 1, "startColumn": 1, "endLine": 3, "endColumn": 1})'
"$program" lint --format sarif >output
holds 'a log in SARIF without results' python3 sarif.py "$version" '[]'

# entries
run 'keys' 0 $'a\nb\n' keys two.bib
run 'keys of two files' 0 $'a\nb\ntest\n' keys two.bib one.bib
run 'keys of an empty input' 0 '' keys
run 'keys of a broken file' 1 $'a\n' keys broken.bib
run 'two entries' 0 $'@misc{a, title={A}, author={B}}\n@misc{b, title={x y}, author={Knuth, D.}, year={1984}}\n' get b,a two.bib
run 'no entry of this key' 1 '' get z two.bib
run 'an entry by a text' 0 $'@misc{b, title={x y}, author={Knuth, D.}, year={1984}}\n' grep AUTHOR Knuth two.bib
run 'no entry of this text' 1 '' grep title Knuth two.bib
printf '\\relax\n\\citation{b}\n\\citation{z}\n' >paper.aux
run 'the entries that a document cites' 0 $'@misc{b, title={x y}, author={Knuth, D.}, year={1984}}\n' cited paper.aux two.bib
run 'cited entries of a document that is not there' 2 '' cited no.aux two.bib
printf '@preamble{"\\newcommand{\\x}{}"}\n@misc{c, title={\\x}}\n@misc{d, title={D}}\n' >preamble.bib
printf '\\relax\n\\citation{c}\n\\bibdata{preamble}\n' >preamble.aux
run 'the preamble of the file that a document names' 0 $'@preamble{"\\newcommand{\\x}{}"}\n@misc{c, title={\\x}}\n' cited preamble.aux
run 'a preamble without an entry' 1 $'@preamble{"\\newcommand{\\x}{}"}\n' cited paper.aux preamble.bib
mkdir -p chapters
printf '\\relax\n\\@input{chapters/one.aux}\n\\@input{chapters/one.aux}\n\\citation{a}\n\\bibdata{two,one}\n' >thesis.aux
printf '\\citation{b}\n\\@input{thesis.aux}\n' >chapters/one.aux
run 'the files that a document inputs and names' 0 $'@misc{a, title={A}, author={B}}\n@misc{b, title={x y}, author={Knuth, D.}, year={1984}}\n' cited thesis.aux
cd chapters || exit 1
cp ../input .
run 'files in the folder of the document' 0 $'@misc{a, title={A}, author={B}}\n@misc{b, title={x y}, author={Knuth, D.}, year={1984}}\n' cited ../thesis.aux
cd ..
printf '\\@input{no.aux}\n\\citation{a}\n\\bibdata{two,nope}\n' >absent.aux
run 'absent files of a document' 2 $'@misc{a, title={A}, author={B}}\n' cited absent.aux
holds 'the absent input is named' grep -qx 'bibkit: no.aux: there is no such file' messages
holds 'the absent file is named' grep -qx 'bibkit: nope.bib: there is no such file' messages
printf '<bcf:datasource type="file" datatype="bibtex" glob="false">two.bib</bcf:datasource>\n<bcf:citekey type="set" members="a,b">c</bcf:citekey>\n<bcf:citekey order="1">c</bcf:citekey>\n' >set.bcf
run 'the members of a set' 0 $'@misc{a, title={A}, author={B}}\n@misc{b, title={x y}, author={Knuth, D.}, year={1984}}\n' cited set.bcf
run 'a set is no key' 0 $'@misc{a, title={A}, author={B}}\n@misc{b, title={x y}, author={Knuth, D.}, year={1984}}\n' cited set.bcf two.bib

# the line end after each entry, definition and preamble is that of the first line of the file
printf '@string{acm = {ACM}}\r\n@preamble{"p"}\r\n@preamble{"q" # "r"}\r\n\r\n@misc{a,\r\n  title = {A},\r\n  publisher = acm\r\n}\r\n@misc{b, title={B}}\r\n' >crlf.bib
printf '\\citation{a}\n' >crlf.aux
run 'entries of a file with CR LF' 1 $'@misc{a,\r\n  title = {A},\r\n  publisher = acm\r\n}\r\n@misc{b, title={B}}\r\n' get b,a crlf.bib
run 'an entry by a text, of a file with CR LF' 1 $'@misc{b, title={B}}\r\n' grep title B crlf.bib
run 'cited entries of a file with CR LF' 1 $'@string{acm = {ACM}}\r\n@preamble{"p"}\r\n@preamble{"q" # "r"}\r\n@misc{a,\r\n  title = {A},\r\n  publisher = acm\r\n}\r\n' cited crlf.aux crlf.bib
run 'keys of a file with CR LF' 1 $'a\nb\n' keys crlf.bib
run 'entries of a file with CR LF and of another one' 1 $'@misc{b, title={B}}\r\n@misc{b, title={x y}, author={Knuth, D.}, year={1984}}\n' get b crlf.bib two.bib
printf '%% c\n@misc{a, title={A}}\r\n@misc{b,\r\n title={B}}' >mixed.bib
run 'CR LF, but not in the first line' 0 $'@misc{a, title={A}}\n@misc{b,\r\n title={B}}\n' get a,b mixed.bib

# several files are one database: a definition, an entry that uses it, and its parent are in three files
printf '@string{jsl = {Journal}}\n' >part1.bib
printf '@article{x, title={X}, journal=jsl, crossref={par}}' >part2.bib
printf '@book{par, title={P}}\n@book{other, title={O}}\n' >part3.bib
printf '\\citation{x}\n\\bibdata{part1,part2,part3}\n' >parts.aux
parts=$'@string{jsl = {Journal}}\n@article{x, title={X}, journal=jsl, crossref={par}}\n@book{par, title={P}}\n'
run 'a document with three files' 0 "$parts" cited parts.aux
run 'three files of which one is standard input' 0 "$parts" cited parts.aux part1.bib - part2.bib part3.bib
run 'a selected entry of three files, and what it uses' 0 "$parts" select --complete --where 'key = x' part1.bib part2.bib part3.bib
run 'keys of a selected entry of three files, and of what it uses' 0 $'x\npar\n' select --complete --keys --where 'key = x' part1.bib part2.bib part3.bib
run 'one of three files that is absent' 2 "${parts%@book*}" select --complete --where 'key = x' part1.bib no.bib part2.bib
holds 'it is named' grep -qx 'bibkit: no.bib: there is no such file' messages
run 'no selected entry of two files' 1 '' select --complete --where 'key = z' part2.bib part3.bib
printf '@string{jsl = {Journal}}\r\n' >part4.bib
run 'three files, the first one with CR LF' 0 $'@string{jsl = {Journal}}\r\n@article{x, title={X}, journal=jsl, crossref={par}}\r\n@book{par, title={P}}\r\n' cited parts.aux part4.bib part2.bib part3.bib
run 'three files, the last one with CR LF' 0 $'@string{jsl = {Journal}}\n@article{x, title={X}, journal=jsl, crossref={par}}\n@book{par, title={P}}\n' cited parts.aux part2.bib part3.bib part4.bib

# each skipped block of a file is a line on standard error, with the position and the message of lint, and the status is at least 1
printf '@misc{a, title={A}}\n@misc{b, title={B} year={1}}\n@string{x = {X}\n@misc{c, title={C}}\n' >skip1.bib
printf '@misc{d, title={D}}\r\n@misc{e,\r\n  title={E}\r\n  year={1}}\r\n@string{y = {Y}\r\n@misc{f, title={F}}\r\n' >skip2.bib
printf '@misc{g, title={G}' >skip3.bib
printf ', year={1}}\n@misc{h, title={H}}\n' >skip4.bib
printf '\\citation{a}\n\\citation{f}\n\\bibdata{skip1,skip2}\n' >skip.aux
open='a block without an end; is a brace or a quote open? [syntax]'
skip1=$'skip1.bib:2:20: error: b: expected comma [syntax]\nskip1.bib:3:1: error: '"$open"$'\n'
skip2=$'skip2.bib:4:3: error: e: expected comma [syntax]\nskip2.bib:5:1: error: '"$open"$'\n'
skip3=$'skip3.bib:1:19: error: g: expected comma [syntax]\n'
# a command that skips these blocks: the output for skip1.bib, and that for skip1.bib and skip2.bib, and the words
skips() {
    local one=$1 both=$2
    shift 2
    run "$*: a file with skipped blocks" 1 "$one" "$@" skip1.bib
    run_messages "$*: the skipped blocks of a file" 1 "$skip1" "$@" skip1.bib
    run "$*: two files with skipped blocks" 1 "$both" "$@" skip1.bib skip2.bib
    run_messages "$*: the skipped blocks of two files" 1 "$skip1$skip2" "$@" skip1.bib skip2.bib
    run_messages "$*: skipped blocks beside a file that is not there" 2 "$skip1"$'bibkit: no.bib: there is no such file\n'"$skip2" "$@" skip1.bib no.bib skip2.bib
    run_messages "$*: a skipped block of the first of two files" 1 "$skip3" "$@" skip3.bib one.bib
    "$program" "$@" skip1.bib skip2.bib >output 2>&-
    count "$*: skipped blocks, and standard error is closed" $? 1 "$both"
    cp skip1.bib input
    run_messages "$*: the skipped blocks of standard input" 1 "${skip1//skip1.bib/-}" "$@" -
    : >input
}
skips $'a\nc\n' $'a\nc\nd\nf\n' keys
skips $'a\n' $'a\nd\nf\n' keys --where 'title ~ "[ADF]"'
skips $'@misc{a, title={A}}\n' $'@misc{a, title={A}}\n@misc{f, title={F}}\r\n' get a,b,f,x
skips $'@misc{a, title={A}}\n' $'@misc{a, title={A}}\n@misc{f, title={F}}\r\n' get a,b,f,x --where 'type = misc'
skips '' '' get z
skips $'@misc{a, title={A}}\n' $'@misc{a, title={A}}\n' grep title A
skips $'@misc{a, title={A}}\n' $'@misc{a, title={A}}\n@misc{f, title={F}}\n' cited skip.aux
skips $'@misc{a, title={A}}\n@misc{c, title={C}}\n' $'@misc{a, title={A}}\n@misc{c, title={C}}\n@misc{d, title={D}}\r\n@misc{f, title={F}}\r\n' select
skips '' $'d\nf\n' select --keys --where 'title ~ "[BDF]"'
skips $'@misc{a, title={A}}\n' $'@misc{a, title={A}}\n@misc{d, title={D}}\n@misc{f, title={F}}\n' select --complete --where 'title ~ "[ADF]"'
skips $'a\nc\n' $'a\nc\nd\nf\n' select --complete --keys
run_messages 'the skipped blocks of the files that a document names' 1 "$skip1$skip2" cited skip.aux
run 'an entry that continues in the next file' 1 $'@misc{g, title={G}\n, year={1}}\n' select --complete --where 'key = g' skip3.bib skip4.bib
run_messages 'it is a skipped block of its own file' 1 "$skip3" select --complete --where 'key = g' skip3.bib skip4.bib
run_messages 'a preamble that cited prints is a skipped block, too' 1 "$("$program" lint --only syntax crlf.bib | head -n -1)"$'\n' cited crlf.aux crlf.bib
run_messages 'a preamble that can be parsed is no skipped block' 0 '' cited preamble.aux
run_messages 'counts have no lines for skipped blocks' 0 '' stats skip1.bib skip2.bib
printf '\xef\xbb\xbf@misc{\xc3\xa9, title={B} year={1}}\n' >skip-mark.bib
printf '@misc{\xe9, title={B} year={1}}\n' >skip-bytes.bib
run_messages 'columns of skipped blocks are in characters, without a byte order mark' 1 $'skip-mark.bib:1:20: error: \xc3\xa9: expected comma [syntax]\nskip-bytes.bib:1:20: error: \xc3\xa9: expected comma [syntax]\n' keys skip-mark.bib skip-bytes.bib

# what a document cites
run 'a key that no file has' 1 $'paper.aux:3:1: error: no file has an entry "z" [missing-entry]\nerrors: 1, warnings: 0\n' lint --ignore missing-field --cited paper.aux two.bib
run 'an entry that is never cited' 1 $'two.bib:1:7: warning: a: never cited [unused-entry]\npaper.aux:3:1: error: no file has an entry "z" [missing-entry]\nerrors: 1, warnings: 1\n' lint --ignore missing-field --cited paper.aux --unused two.bib
printf '@collection{d, title={B}, editor={E}, year={2000}}\n@incollection{c, crossref={d}}\n' >parent.bib
printf '\\citation{c}\n' >child.aux
run 'an entry to which a cited one refers' 1 $'parent.bib:1:13: warning: d: never cited [unused-entry]\nerrors: 0, warnings: 1\n' lint --only unused-entry --cited child.aux --unused parent.bib
printf '\\citation{biblatex-control}\n' >control.aux
printf '@Control{biblatex-control,\n  options = {3.10:0},\n}\n' >control-blx.bib
run 'the entry of BibLaTeX' 1 $'control.aux:1:1: error: no file has an entry "biblatex-control" [missing-entry]\nerrors: 1, warnings: 0\n' lint --only missing-entry --cited control.aux two.bib
run 'the entry of BibLaTeX, and its file' 0 $'errors: 0, warnings: 0\n' lint --only missing-entry --cited control.aux two.bib control-blx.bib
run 'a document that is not there' 2 '' lint --cited no.aux two.bib

# lint takes several files as one database: entries and definitions of all files count in the order of the files. Each file is parsed by itself.
# Each finding has the name of its file and its position there. With --each, each file is a database.
clean=$'errors: 0, warnings: 0\n'
printf '@string{jsl = {Journal}}\n' >def.bib
printf '@article{x, author={B}, title={X}, journal=jsl, year={2001}}\n' >use.bib
undefined=$'use.bib:1:44: warning: unknown abbreviation "jsl" [unknown-abbreviation]\nerrors: 0, warnings: 1\n'
run 'a definition in the file before' 0 "$clean" lint def.bib use.bib
run 'a definition in the file after' 0 "$clean" lint use.bib def.bib
run 'a definition in two files' 0 "$clean" lint def.bib use.bib def.bib
printf '@string{JSL = "Other"}\n@misc{o, title={O}, year={2001}, url={www.example.org}}\n' >other.bib
run 'an abbreviation with two texts in two files' 1 $'other.bib:1:9: warning: definition of `JSL` occurs again with another value; BibTeX and Biber use it for later entries [repeated-definition]\nother.bib:2:34: warning: o: `url` has no scheme such as `https:`; viewers take the link for a file [url-scheme]\nerrors: 0, warnings: 2\n' lint def.bib use.bib other.bib
run 'an abbreviation with two texts, and each file by itself' 0 $'other.bib:1:9: info: no field uses the abbreviation `JSL` [unused-definition]\nerrors: 0, warnings: 0, info: 1\n' lint --each --ignore unknown-abbreviation,url-scheme def.bib use.bib other.bib
run 'an abbreviation that nothing uses in one file' 0 $'other.bib:1:9: info: no field uses the abbreviation `JSL` [unused-definition]\nerrors: 0, warnings: 0, info: 1\n' lint --ignore url-scheme other.bib
run 'a file of definitions' 0 "$clean" lint def.bib
run 'an abbreviation that nothing uses is in no selected entry' 0 "$clean" lint --where 'key = o' --ignore url-scheme other.bib
run 'a definition in a file, and one file alone' 1 "$undefined" lint use.bib
run 'a definition in a file, and each file by itself' 1 "$undefined" lint --each def.bib use.bib
run 'one file by itself' 1 "$undefined" lint --each use.bib
printf '@misc{k, title={One}, year={2001}}\n' >key1.bib
printf '%% the second k\n@misc{k, title={Two}, year={2002}}\n' >key2.bib
second=$'key2.bib:2:1: error: duplicate key "k" [duplicate-key]\nerrors: 1, warnings: 0\n'
run 'a key in two files' 1 "$second" lint key1.bib key2.bib
run 'a key in two files, in the other order' 1 $'key1.bib:1:1: error: duplicate key "k" [duplicate-key]\nerrors: 1, warnings: 0\n' lint key2.bib key1.bib
run 'a key in two files, and each file by itself' 0 "$clean" lint --each key1.bib key2.bib
run 'a file that is named twice' 1 $'key1.bib:1:1: error: duplicate key "k" [duplicate-key]\nerrors: 1, warnings: 0\n' lint key1.bib key1.bib
: >void.bib
run 'a key in two files after and between empty ones' 1 "$second" lint void.bib key1.bib void.bib key2.bib
run 'two empty files' 0 "$clean" lint void.bib void.bib
cp key2.bib input
run 'a key in a file and in standard input' 1 "${second//key2.bib/-}" lint key1.bib -
run 'a key in a file and in standard input under a name' 1 "${second//key2.bib/draft.bib}" lint --stdin-filename draft.bib key1.bib -
: >input
run 'a key in two files beside one that is not there' 2 "$second" lint key1.bib no.bib key2.bib
holds 'a key in two files: the file that is not there is named' grep -qx 'bibkit: no.bib: there is no such file' messages
run 'a file that is not there beside one' 2 "$clean" lint no.bib key1.bib
run 'a command for the second of two files' 1 $'::error file=key2.bib,line=2,endLine=2,col=1,endColumn=34,title=duplicate-key::duplicate key "k"\n' \
    lint --format github key1.bib key2.bib
"$program" lint --format sarif key1.bib key2.bib >output
holds 'a log in SARIF for the second of two files' python3 sarif.py "$version" '[["duplicate-key", "error", "key2.bib", 2, 1, 2, 34, "duplicate key \"k\""]]'
run 'a finding about an entry of another file, which is selected' 1 "$second" lint --where 'year = 2001' key1.bib key2.bib
run 'no entry is tested that an earlier file makes a duplicate' 0 "$clean" lint --where 'year = 2002' key1.bib key2.bib
printf '@misc{i, ids={k}, title={Three}, year={2003}}\n' >ids.bib
run 'a key that is in ids of the file before' 1 "$second" lint ids.bib key2.bib
run 'a key that is in ids of the file after' 0 "$clean" lint key1.bib ids.bib
printf '@misc{K, title={Four}, year={2004}}\n' >upper.bib
run 'a key in another case in another file' 1 $'upper.bib:1:7: warning: K: key differs from `k` only in case [key-case]\nerrors: 0, warnings: 1\n' lint key1.bib upper.bib
printf '@book{w1, author={Ann Bell}, title={T}, year={1999}}\n' >work1.bib
printf '@book{w2, author={Ann Bell}, title={T}, year={1999}}\n' >work2.bib
likely=$'work2.bib:1:7: warning: w2: likely the same work: same title, year and people as "w1" [likely-duplicate]\nerrors: 0, warnings: 1\n'
run 'a work in two files' 1 "$likely" lint work1.bib work2.bib
run 'a work in two files, and the entry of the first is selected' 1 "$likely" lint --where 'key = w1' work1.bib work2.bib
run 'a work in two files, and each file by itself' 0 "$clean" lint --each work1.bib work2.bib

# a reference to an entry of another file, and fields that are inherited from it
printf '@misc{m, title={M}, year={2000}, related={k, gone}}\n' >named.bib
gone=$'named.bib:1:34: warning: m: no entry "gone" (related) [unknown-reference]\n'
run 'references to another file and to no file' 1 "$gone"$'errors: 0, warnings: 1\n' lint named.bib key1.bib
run 'references to another file, and each file by itself' 1 $'named.bib:1:34: warning: m: no entry "k" (related) [unknown-reference]\n'"$gone"$'errors: 0, warnings: 2\n' \
    lint --each named.bib key1.bib
printf '@incollection{c, author={C}, title={T}, crossref={par}}\n' >kid.bib
printf '@collection{par, editor={E}, title={P}, year={2000}}\n' >par.bib
run 'required fields from the file after' 0 "$clean" lint kid.bib par.bib
run 'required fields from the file before' 0 "$clean" lint par.bib kid.bib
run 'required fields from another file, and each file by itself' 1 'kid.bib:1:15: warning: c: missing editor [missing-field]
kid.bib:1:15: warning: c: missing booktitle [missing-field]
kid.bib:1:15: warning: c: missing year [missing-field]
kid.bib:1:41: warning: c: no entry "par" (crossref) [unknown-reference]
errors: 0, warnings: 4
' lint --each kid.bib par.bib
printf '@incollection{c, author={C}, title={T}, crossref={par}, note2={x}}\n' >kid2.bib
run 'an entry that inherits the field of a condition from another file' 1 $'kid2.bib:1:57: warning: unknown field `note2` [unknown-field]\nerrors: 0, warnings: 1\n' \
    lint --where 'type = incollection and year = 2000' kid2.bib par.bib
run 'an entry that inherits nothing, because each file is by itself' 0 "$clean" lint --each --where 'type = incollection and year = 2000' kid2.bib par.bib
printf '@collection{par, editor={E}' >cutpar.bib
run 'required fields from an entry of another file, which is cut' 1 $'cutpar.bib:1:28: error: par: expected comma [syntax]\nerrors: 1, warnings: 0\n' lint kid.bib cutpar.bib
printf '@misc{l1, title={A}, year={2000}, crossref={l2}}\n' >loop1.bib
printf '@misc{l2, title={B}, year={2001}, crossref={l1}}\n' >loop2.bib
run 'a cycle through two files' 1 'loop1.bib:1:1: error: circular reference "l1" [circular-reference]
loop2.bib:1:1: error: circular reference "l2" [circular-reference]
loop2.bib:1:35: info: l2: the parent `l1` comes first; BibTeX finds it only if it is cited too [early-parent]
errors: 2, warnings: 0, info: 1
' lint loop1.bib loop2.bib

# an error at the end of a file ends there: nothing of the next file is read as a part of the block
printf '@misc{a, title={A}, year={2000}}\n@misc{b, title={B}' >end1.bib
printf '@misc{c, title={C}, year={2002}}\n' >end2.bib
ended=$'end1.bib:2:19: error: b: expected comma [syntax]\nerrors: 1, warnings: 0\n'
run 'a block without an end in the first file' 1 "$ended" lint end1.bib end2.bib
run 'a block without an end in the first file, and its entry is selected' 1 "$ended" lint --where 'key = b' end1.bib end2.bib
run 'a block without an end in the first file, and an entry of the second is selected' 0 "$clean" lint --where 'key = c' end1.bib end2.bib
run 'a block without an end in the last file' 1 "$ended" lint end2.bib end1.bib
printf '@misc{b, title={B' >open1.bib
printf '}, year={2001}}\n@misc{c, title={C}, year={2002}}\n' >open2.bib
run 'an open brace in the first file, and a closing one in the second' 1 $'open1.bib:1:10: error: b: incomplete field; is a brace or a quote open? [syntax]\nerrors: 1, warnings: 0\n' \
    lint open1.bib open2.bib
printf '@misc{w, title={W}, year={2000}}\n@' >at1.bib
printf 'misc{y, title={Y}}\n@misc{z, title={Z}, year={2001}}\n' >at2.bib
run 'an at sign at the end of the first file' 1 $'at1.bib:2:1: error: a block without an end; is a brace or a quote open? [syntax]\nerrors: 1, warnings: 0\n' lint at1.bib at2.bib
printf '@misc{s, title={S}, year={2000}}' >last1.bib
printf 'year = {2001}\n@misc{t, title={T}, year={2002}}\n' >last2.bib
run 'the text at the start of a file is not after the last entry of the file before' 0 "$clean" lint last1.bib last2.bib

# positions in the second file
printf '\xef\xbb\xbf@string{n = {N}}\r\n@misc{r,\r\n  title = {R},\r\n  note2 = n\r\n}\r\n' >crlf2.bib
run 'positions in a second file with CR LF and a byte order mark' 1 $'crlf2.bib:2:7: warning: r: missing year [missing-field]\ncrlf2.bib:4:3: warning: unknown field `note2` [unknown-field]\nerrors: 0, warnings: 2\n' \
    lint end2.bib crlf2.bib
run 'a second file that is not UTF-8, and a third one' 1 $'latin.bib:1:17: error: not UTF-8 from here on, so the file is read as Windows-1252 [unread-bytes]\nlatin.bib:1:7: warning: a: missing year [missing-field]\n'"$lines_of_one"$'errors: 1, warnings: 4\n' \
    lint end2.bib latin.bib one.bib
printf '@string{j = {a $ b}}\n' >math1.bib
printf '@misc{u, title=j, year={2000}}\n' >math2.bib
run 'an error in the definition that another file uses' 1 $'math1.bib:1:19: error: unexpected end of file [unread-field]\nerrors: 1, warnings: 0\n' lint --only unread-field math2.bib math1.bib
printf '@inbook{d, author={A}, title={T}, bookauthor={B}, crossref={p}}\n@book{p, author={A}, title={P}, year={}}\n' >noyear.bib
"$program" lint --only unread-date end2.bib noyear.bib >output
holds "a year of the second file that can't be read" prints 'noyear.bib:2:39: warning: '
# an error in a long month, at an offset after the end of all files
{
    printf '@string{w={%s}}\n' '- - - - - - - - - - - - - - - - - - - - '
    printf '@inbook{d, author={A}, title={T}, bookauthor={B}, crossref={p}}\n@book{p, author={A}, title={P}, year={2000}, month="may "'
    for part in {1..30}; do printf '#w'; done
    printf '#{x}}\n'
} >void.bib
"$program" lint --only unread-date end2.bib void.bib >output
holds 'an error after the end of the last file' prints 'errors: 0, warnings: 1'
"$program" lint --only unread-date void.bib end2.bib >output
holds 'an error after the end of the first file' prints 'errors: 0, warnings: 1'

# fields of other programs are counted in each file
printf '@misc{f1, title={A}, year={2000}, owner={me}, groups={x}}\n' >own1.bib
printf '@misc{f2, title={B}, year={2001}, Owner={you}, timestamp={t}}\n@misc{f3, title={C}, year={2002}, owner={me}}\n' >own2.bib
run 'fields of other programs in two files' 0 'own1.bib:1:35: info: field owner of another program, 1 time [foreign-field]
own1.bib:1:47: info: field groups of another program, 1 time [foreign-field]
own2.bib:1:35: info: field Owner of another program, 2 times [foreign-field]
own2.bib:1:48: info: field timestamp of another program, 1 time [foreign-field]
errors: 0, warnings: 0, info: 4
' lint own1.bib own2.bib
run 'fields of other programs, and each file by itself' 0 'own1.bib:1:35: info: field owner of another program, 1 time [foreign-field]
own1.bib:1:47: info: field groups of another program, 1 time [foreign-field]
own2.bib:1:35: info: field Owner of another program, 2 times [foreign-field]
own2.bib:1:48: info: field timestamp of another program, 1 time [foreign-field]
errors: 0, warnings: 0, info: 4
' lint --each own1.bib own2.bib

# what a document cites of two files: entries that it doesn't cite are among the other findings of their file
printf '@misc{p, title={P}}\n@misc{q, title={Q}, year={2001}}\n' >cite1.bib
printf '@misc{r, title={R}, nofield={x}}\n' >cite2.bib
printf '\\relax\n\\citation{q}\n\\citation{nokey}\n' >cites.aux
of_cite1=$'cite1.bib:1:7: warning: p: missing year [missing-field]\ncite1.bib:1:7: warning: p: never cited [unused-entry]\n'
no_year=$'cite2.bib:1:7: warning: r: missing year [missing-field]\n'
not_cited=$'cite2.bib:1:7: warning: r: never cited [unused-entry]\n'
no_field=$'cite2.bib:1:21: warning: unknown field `nofield` [unknown-field]\n'
no_entry=$'cites.aux:3:1: error: no file has an entry "nokey" [missing-entry]\n'
run 'citations of two files' 1 "$of_cite1$no_year$not_cited$no_field$no_entry"$'errors: 1, warnings: 5\n' lint --cited cites.aux --unused cite1.bib cite2.bib
run 'citations, and each file by itself' 1 "$of_cite1$no_year$no_field$not_cited$no_entry"$'errors: 1, warnings: 5\n' lint --each --cited cites.aux --unused cite1.bib cite2.bib
run 'citations of one file' 1 "$no_year$no_field$not_cited"$'cites.aux:2:1: error: no file has an entry "q" [missing-entry]\n'"$no_entry"$'errors: 2, warnings: 3\n' \
    lint --cited cites.aux --unused cite2.bib
run 'citations of two files, and a selected entry' 1 "$no_year$not_cited$no_field"$'errors: 0, warnings: 3\n' lint --cited cites.aux --unused --where 'key = r' cite1.bib cite2.bib
run 'citations of two files, and no requested entries' 1 "${of_cite1%cite1.bib*}$no_year$no_field$no_entry"$'errors: 1, warnings: 3\n' lint --cited cites.aux cite1.bib cite2.bib
run 'citations of two files in JSON' 1 '[
{"file":"cite1.bib","line":1,"column":7,"end_line":1,"end_column":8,"severity":"warning","code":"missing-field","message":"p: missing year"},
{"file":"cite1.bib","line":1,"column":7,"end_line":1,"end_column":8,"severity":"warning","code":"unused-entry","message":"p: never cited"},
{"file":"cite2.bib","line":1,"column":7,"end_line":1,"end_column":8,"severity":"warning","code":"missing-field","message":"r: missing year"},
{"file":"cite2.bib","line":1,"column":7,"end_line":1,"end_column":8,"severity":"warning","code":"unused-entry","message":"r: never cited"},
{"file":"cite2.bib","line":1,"column":21,"end_line":1,"end_column":28,"severity":"warning","code":"unknown-field","message":"unknown field `nofield`"},
{"file":"cites.aux","line":3,"column":1,"end_line":3,"end_column":1,"severity":"error","code":"missing-entry","message":"no file has an entry \"nokey\""}
]
' lint --format json --cited cites.aux --unused cite1.bib cite2.bib
run 'citations of two files and of one without findings, in Checkstyle' 1 '<?xml version="1.0" encoding="utf-8"?>
<checkstyle version="4.3">
  <file name="cite1.bib">
    <error line="1" column="7" severity="warning" message="p: missing year" source="bibkit.missing-field"/>
    <error line="1" column="7" severity="warning" message="p: never cited" source="bibkit.unused-entry"/>
  </file>
  <file name="cite2.bib">
    <error line="1" column="7" severity="warning" message="r: missing year" source="bibkit.missing-field"/>
    <error line="1" column="7" severity="warning" message="r: never cited" source="bibkit.unused-entry"/>
    <error line="1" column="21" severity="warning" message="unknown field `nofield`" source="bibkit.unknown-field"/>
  </file>
  <file name="cites.aux">
    <error line="3" column="1" severity="error" message="no file has an entry &quot;nokey&quot;" source="bibkit.missing-entry"/>
  </file>
</checkstyle>
' lint --format checkstyle --cited cites.aux --unused cite1.bib def.bib cite2.bib
run 'an entry of a second file that is a duplicate and never cited' 1 'key1.bib:1:7: warning: k: never cited [unused-entry]
key2.bib:2:1: error: duplicate key "k" [duplicate-key]
key2.bib:2:7: warning: k: never cited [unused-entry]
child.aux:1:1: error: no file has an entry "c" [missing-entry]
errors: 2, warnings: 2
' lint --cited child.aux --unused key1.bib key2.bib
run 'a document that is not there, and two files' 2 '' lint --cited no.aux key1.bib key2.bib

# statistics
"$program" stats two.bib >output
holds 'two entries of a type' grep -qE '^  misc +2$' output
holds 'two fields of a name' grep -qE '^  author +2$' output
holds 'one entry of a year' grep -qE '^  1984 +1$' output

# files that can't be read
run_messages 'a file that is not there' 2 $'bibkit: no.bib: there is no such file\n' keys no.bib
run 'the other files are read' 2 $'a\nb\ntest\n' keys two.bib no.bib one.bib
run 'findings beside a file that is not there' 2 "$lines_of_one"$'errors: 0, warnings: 3\n' lint no.bib one.bib
mkdir -p folder
run_messages 'a folder' 2 $'bibkit: folder: it is a folder\n' keys folder
printf '@misc{x,}' >secret.bib
chmod 000 secret.bib
if [ "$(id -u)" != 0 ]; then
    run_messages 'a file without rights' 2 $'bibkit: secret.bib: it may not be read\n' keys secret.bib
elif command -v setpriv >/dev/null && [ -x /usr/bin/setpriv ]; then
    cp "$program" program && chmod 755 program
    setpriv --reuid 65534 --clear-groups ./program keys secret.bib >results 2>output
    count 'a file without rights' $? 2 $'bibkit: secret.bib: it may not be read\n'
else
    lacks setpriv
fi
"$program" keys <&- >output 2>messages
holds 'a closed input' [ $? = 2 ]

# files in one style
printf '@Book{a,title={X} # "y" ,\n AUTHOR = jan, year=1999}\ntext %% c\n@misc{b, %% note\n x={1}}\n' >style.bib
rest=$'text % c\n@misc{b, % note\n x={1}}\n'
laid_out=$'@book{a,\n  title = {X} # "y",\n  author = jan,\n  year = 1999,\n}\n'$rest
run 'a file in one style' 0 "$laid_out" fmt style.bib
run 'a file in another style' 0 $'@book{a,\n    title  = {X} # "y",\n    author = jan,\n    year   = 1999\n}\n'"$rest" fmt --indent 4 --align --no-trailing-comma style.bib
printf '@misc{a,}@misc{b,}\n\n\n@misc{c,}\n' >close.bib
run 'entries without blank lines between them' 0 $'@misc{a,\n}@misc{b,\n}\n\n\n@misc{c,\n}\n' fmt close.bib
run 'entries with a blank line between them' 0 $'@misc{a,\n}\n\n@misc{b,\n}\n\n@misc{c,\n}\n' fmt --blank-lines 1 close.bib
run 'entries that follow one another' 0 $'@misc{a,\n}\n@misc{b,\n}\n@misc{c,\n}\n' fmt --blank-lines 0 close.bib
run 'a number of blank lines that is none' 2 '' fmt --blank-lines 4 close.bib
cp style.bib input
run 'standard input in one style' 0 "$laid_out" fmt
run 'two files in one style' 0 "$laid_out$laid_out" fmt style.bib style.bib
run 'an indent that is none' 2 '' fmt --indent 9 style.bib
run 'a file that is not in the style' 1 '' fmt --check style.bib
run_messages 'a file that is not in the style is named' 1 $'bibkit: style.bib: not in this style\n' fmt --check style.bib
run_messages 'a file with an error has no style' 1 $'broken.bib:3:1: error: expected comma [syntax]\n' fmt broken.bib
run_messages 'standard input is not written' 2 $'bibkit: `--write` needs the name of a file\n' fmt --write
: >input
chmod 600 style.bib
run 'a file is put in one style' 0 '' fmt --write style.bib
holds 'the file is in the style' cmp -s style.bib <(printf %s "$laid_out")
holds 'the file has its rights' [ "$(stat -c %a style.bib)" = 600 ]
run 'a file that is in the style' 0 '' fmt --check style.bib

# delimiters, an order of fields, a width
printf '@misc{k, year = 1999, title = "T" # {U}, author = {say "x"}, month = jan}\n' >options.bib
as_listed=$'@misc{k,\n  year = 1999,\n  title = "T" # {U},\n  author = {say "x"},\n  month = jan,\n}\n'
run 'texts in braces' 0 $'@misc{k,\n  year = 1999,\n  title = {T} # {U},\n  author = {say "x"},\n  month = jan,\n}\n' fmt --delimiters braces options.bib
run 'texts in quotes, but for one with a quote in it' 0 $'@misc{k,\n  year = 1999,\n  title = "T" # "U",\n  author = {say "x"},\n  month = jan,\n}\n' fmt --delimiters quotes options.bib
run 'texts between the delimiters that they have' 0 "$as_listed" fmt --delimiters keep options.bib
printf '@misc{k, a = "{", b = "c"}\n' >unclosed.bib
run 'an entry with a brace that is not closed stays' 0 "$(cat unclosed.bib)"$'\n' fmt --delimiters braces unclosed.bib
run 'delimiters that are none' 2 '' fmt --delimiters brackets options.bib
run 'fields in an order' 0 $'@misc{k,\n  author = {say "x"},\n  title = "T" # {U},\n  year = 1999,\n  month = jan,\n}\n' fmt --order author,title options.bib
run 'fields in an order, by two options in any case' 0 $'@misc{k,\n  title = "T" # {U},\n  author = {say "x"},\n  year = 1999,\n  month = jan,\n}\n' fmt --order Title --order AUTHOR options.bib
run 'names that no field has' 0 "$as_listed" fmt --order editor,journal options.bib
run 'a line that is as long as it may be' 0 "$as_listed" fmt --width 20 options.bib
run 'a line that is longer, and values of one text' 0 $'@misc{k,\n  year = 1999,\n  title = "T"\n          # {U},\n  author = {say "x"},\n  month = jan,\n}\n' fmt --width 19 options.bib
run 'values of one text are not broken' 0 $'@misc{k,\n  year = 1999,\n  title = "T"\n          # {U},\n  author = {say "x"},\n  month = jan,\n}\n' fmt --width 1 options.bib
run 'lines that may be of any length' 0 "$as_listed" fmt --width 0 options.bib
printf '@misc{k,\n  year = 1999,\n  title = "T"\n          # {U},\n}\n' >broken-line.bib
run 'a line that was broken is one where it may be' 0 $'@misc{k,\n  year = 1999,\n  title = "T" # {U},\n}\n' fmt broken-line.bib
run 'the greatest width' 0 "$as_listed" fmt --width 1000000 options.bib
for width in 1000001 -1 x ''; do run "a width that is none, '$width'" 2 '' fmt --width "$width" options.bib; done

# entries in an order: each moves with the comment before it, and comes before the one that its crossref names
cat >mixed.bib <<'BIB'
% the file

% on C
@inbook{C, crossref={d}, author={Zoe Young}, year=1998}
@book{d, editor={Adams, D.}, year={1990}}

% on b
@phdthesis{b, author={{van} Dam, A. and Abel, Q.}, date={2000-05}}
@misc{a, editor={Wirth, N.}}
% end
BIB
entry_a=$'@misc{a,\n  editor = {Wirth, N.},\n}'
entry_b=$'% on b\n@phdthesis{b,\n  author = {{van} Dam, A. and Abel, Q.},\n  date = {2000-05},\n}'
entry_c=$'% on C\n@inbook{C,\n  crossref = {d},\n  author = {Zoe Young},\n  year = 1998,\n}'
entry_d=$'@book{d,\n  editor = {Adams, D.},\n  year = {1990},\n}'
# the file with its entries as they are given
mixed() { printf -v text '%% the file\n\n%s\n%s\n\n%s\n%s\n%% end\n' "$@"; }
mixed "$entry_c" "$entry_d" "$entry_b" "$entry_a"
run 'entries in the order that they have' 0 "$text" fmt mixed.bib
run 'entries that keep their order' 0 "$text" fmt --sort keep mixed.bib
mixed "$entry_b" "$entry_a" "$entry_c" "$entry_d"
run 'entries by their authors or editors, family names first' 0 "$text" fmt --sort author mixed.bib
mixed "$entry_c" "$entry_b" "$entry_a" "$entry_d"
run 'entries by their years, or those of their dates, and one without a year' 0 "$text" fmt --sort year mixed.bib
mixed "$entry_c" "$entry_a" "$entry_b" "$entry_d"
run 'entries by their types' 0 "$text" fmt --sort type mixed.bib
mixed "$entry_a" "$entry_b" "$entry_c" "$entry_d"
run 'entries by their keys, in any case' 0 "$text" fmt --sort key mixed.bib
"$program" fmt --sort key mixed.bib >once.bib
run 'entries that are in order stay' 0 "$text" fmt --sort key once.bib
run 'a file that is in order' 0 '' fmt --check --sort key once.bib
run_messages 'a file that is not in order' 1 $'bibkit: once.bib: not in this style\n' fmt --check --sort type once.bib
mixed "$entry_b" "$entry_c" "$entry_a" "$entry_d"
run 'entries by their titles, and then by their years, the last ones first' 0 "$text" fmt --sort title,-year mixed.bib
run 'entries by a part of an order' 0 "$text" fmt --sort=-year mixed.bib
for order in editor author,,year keep,key ''; do run "an order that is none, $order" 2 '' fmt --sort "$order" mixed.bib; done
printf '@misc{d,}\n@misc{c,}\n@string{s={x}}\n%% on b\n@misc{b,}\n@misc{a,}\n' >barred.bib
run 'no entry moves over a definition' 0 $'@misc{c,\n}\n@misc{d,\n}\n@string{s={x}}\n% on b\n@misc{a,\n}\n@misc{b,\n}\n' fmt --sort key barred.bib
printf '@misc{d,}\n@string{s={x}}\n\n%% on b\n@misc{b,}\n@misc{a,}\n' >section.bib
run 'a comment after a definition and a blank line moves' 0 $'@misc{d,\n}\n@string{s={x}}\n\n@misc{a,\n}\n% on b\n@misc{b,\n}\n' fmt --sort key section.bib
printf '@misc{a,}\n@misc{b, crossref={A}}\n@misc{c, crossref={B}}\n@misc{d, crossref={C}}\n' >chain.bib
run 'in a chain of references, each entry comes before the one that it names' 0 $'@misc{d,\n  crossref = {C},\n}\n@misc{c,\n  crossref = {B},\n}\n@misc{b,\n  crossref = {A},\n}\n@misc{a,\n}\n' fmt --sort key chain.bib
printf '%% head\n\n%% a "quote"\n@misc{b,}\n@misc{a,}\n' >quoted.bib
run 'a comment with a quote before the first entry stays' 0 $'% head\n\n% a "quote"\n@misc{a,\n}\n@misc{b,\n}\n' fmt --sort key quoted.bib
printf '@misc{b,}\n@misc{c,}\n%% mail me@example.org\n@misc{a,}\n' >mail.bib
run 'no entry moves over an at sign of a comment' 0 $'@misc{b,\n}\n@misc{c,\n}\n% mail me@example.org\n@misc{a,\n}\n' fmt --sort key mail.bib
printf '@misc{b,}\n@book{z,}\n@misc{a,}\n' >ties.bib
run 'entries of one type keep their order' 0 $'@book{z,\n}\n@misc{b,\n}\n@misc{a,\n}\n' fmt --sort type ties.bib
printf '@misc{a,}\n@book{b,}\n@article{A,}\n' >onekey.bib
run 'entries with one key, in any case, keep their order' 0 $'@book{b,\n}\n@misc{a,\n}\n@article{A,\n}\n' fmt --sort type onekey.bib
printf '@misc{b,}\n\n\n@misc{a,}@misc{c,}\n' >gaps.bib
run 'white space stays where it is' 0 $'@misc{a,\n}\n\n\n@misc{b,\n}@misc{c,\n}\n' fmt --sort key gaps.bib
run 'blank lines between entries in order' 0 $'@misc{a,\n}\n\n@misc{b,\n}\n\n@misc{c,\n}\n' fmt --sort key --blank-lines 1 gaps.bib
printf '@misc{b,%% note\n}\n@misc{a,}\n' >noted.bib
run 'an entry in which a comment stands moves too' 0 $'@misc{a,\n}\n@misc{b,% note\n}\n' fmt --sort key noted.bib
printf '@misc{b,}\r\n@misc{a,}\r\n' >returns.bib
run 'ends of lines in an order' 0 $'@misc{a,\r\n}\r\n@misc{b,\r\n}\r\n' fmt --sort key returns.bib
cp gaps.bib ordered.bib
run 'an order is written' 0 '' fmt --sort key --write ordered.bib
holds 'the file has the order' cmp -s ordered.bib <(printf '@misc{a,\n}\n\n\n@misc{b,\n}@misc{c,\n}\n')

# edits: the new text is printed, and the file stays
entry='@misc{a, title={A}, author={B}}'
run 'a field that is there is set' 0 $'@misc{a, title={C d}, author={B}}\n\n@misc{b, title={x y}, author={Knuth, D.}, year={1984}}\n' set a 'title=C d' -f two.bib
run 'a field that is not there is added' 0 $'@misc{a, year={2000}, title={A}, author={B}}\n\n@misc{b, title={x y}, author={Knuth, D.}, year={1984}}\n' set a year=2000 --file two.bib
run 'two fields are set' 0 $'@misc{a, title={C}, author={D}}\n\n@misc{b, title={x y}, author={Knuth, D.}, year={1984}}\n' set a title=C AUTHOR=D -f two.bib
run 'a value that is there changes nothing' 0 "$(cat two.bib)"$'\n' set b year=1984 -f two.bib
run 'a value with an equals sign' 0 $'@misc{a, title={A=B}, author={B}}\n\n@misc{b, title={x y}, author={Knuth, D.}, year={1984}}\n' set a title=A=B -f two.bib
run 'a field is taken out' 0 $'@misc{a, author={B}}\n\n@misc{b, title={x y}, author={Knuth, D.}, year={1984}}\n' unset a title -f two.bib
run 'a field that is not there is taken out' 0 "$(cat two.bib)"$'\n' unset a year -f two.bib
run 'two fields are taken out' 0 $'@misc{a, title={A}, author={B}}\n\n@misc{b, author={Knuth, D.},}\n' unset b title,year -f two.bib
run 'a key is renamed' 0 $'@misc{a, title={A}, author={B}}\n\n@misc{c, title={x y}, author={Knuth, D.}, year={1984}}\n' rename b c -f two.bib
printf '@misc{a, t={A}}\n@misc{b, crossref={a}, xdata = "c, a", note={a}}\n' >naming.bib
run 'a key is renamed with its references' 0 $'@misc{z, t={A}}\n@misc{b, crossref={z}, xdata = {c, z}, note={a}}\n' rename a z -f naming.bib
# BibTeX and Biber find `old` by these references, except by those of c4, c7 and c8, and by that of c3 only BibTeX
cat >left.bib <<'BIB'
@string{abbr = "old"}
@string{o = "o"}
@string{both = {x, } # abbr}
@inbook{c1, title={T1}, crossref = abbr}
@inbook{c2, title={T2}, crossref = "o" # "ld"}
@inbook{c3, title={T3}, CrossRef = O # {LD}}
@inbook{c4, title={T4}, xref = O # {LD}}
@misc{c5, title={T5}, related = both # { , z}}
@inbook{c6, title={T6}, crossref = nope # ABBR}
@inbook{c7, title={T7}, crossref = later}
@misc{c8, title={T8}, note = abbr, crossref = {old}}
@string{later = {old}}
@inbook{c9, title={T9}, crossref = later}
@book{old, title={Old}}
BIB
left_notes=$'left.bib:4:25: note: `crossref` of entry `c1` names `old` by an abbreviation or in parts, so it isn\'t changed
left.bib:5:25: note: `crossref` of entry `c2` names `old` by an abbreviation or in parts, so it isn\'t changed
left.bib:6:25: note: `CrossRef` of entry `c3` names `oLD` by an abbreviation or in parts, so it isn\'t changed
left.bib:8:23: note: `related` of entry `c5` names `old` by an abbreviation or in parts, so it isn\'t changed
left.bib:9:25: note: `crossref` of entry `c6` names `old` by an abbreviation or in parts, so it isn\'t changed
left.bib:13:25: note: `crossref` of entry `c9` names `old` by an abbreviation or in parts, so it isn\'t changed
'
run 'a key that references name in parts' 0 "$(sed 's/{old,/{new,/; s/crossref = {old}/crossref = {new}/' left.bib)"$'\n' rename old new -f left.bib
run_messages 'references that name a renamed key in parts are reported' 0 "$left_notes" rename old new -f left.bib
run_messages 'a key that stays is reported by no note' 0 '' rename old old -f left.bib
run_messages 'a key that no entry has is reported by no note' 1 $'bibkit: left.bib: `none` to `new`: no entry has the key\n' rename none new -f left.bib
run_messages 'other edits have no notes' 0 '' set old year=1 -f left.bib
# Biber reads a definition that uses its own name as `old`, and both programs read a name before its definition as an empty text
cat >early.bib <<'BIB'
@string{a = {o}}
@string{a = a # {ld}}
@string{b = c # {old}}
@string{c = {x}}
@book{old, title={Old}}
@inbook{c1, title={T1}, crossref = a}
@inbook{c2, title={T2}, crossref = b}
BIB
run_messages 'references by definitions with early uses' 0 $'early.bib:6:25: note: `crossref` of entry `c1` names `old` by an abbreviation or in parts, so it isn\'t changed
early.bib:7:25: note: `crossref` of entry `c2` names `old` by an abbreviation or in parts, so it isn\'t changed
' rename old new -f early.bib
printf '@misc{a, note={A}, t={B}, NOTE={C}}\n' >twice.bib
run 'a field that is there twice is taken out' 0 $'@misc{a, t={B},}\n' unset a note -f twice.bib
printf '@book{k,\n  author = {A},\n  %% about the title\n  title = {T},\n  %% about the year\n  year = 2000,\n}\n' >comments.bib
run 'a field between two comments' 0 $'@book{k,\n  author = {A},\n  % about the title % about the year\n  year = 2000,\n}\n' unset k title -f comments.bib
run 'the last field after a comment' 0 $'@book{k,\n  author = {A},\n  % about the title\n  title = {T},\n  % about the year\n}\n' unset k year -f comments.bib
run 'a field before a comment' 0 $'@book{k,\n  % about the title\n  title = {T},\n  % about the year\n  year = 2000,\n}\n' unset k author -f comments.bib
sed 's/$/\r/' comments.bib >comments_crlf.bib
run 'a field between two comments, with CR LF' 0 $'@book{k,\r\n  author = {A},\r\n  % about the title % about the year\r\n  year = 2000,\r\n}\r\n' \
    unset k title -f comments_crlf.bib
run 'the last field after a comment, with CR LF' 0 $'@book{k,\r\n  author = {A},\r\n  % about the title\r\n  title = {T},\r\n  % about the year\r\n}\r\n' \
    unset k year -f comments_crlf.bib
printf '@book{k,\n  author = {A}, %% one\n  title = {T}, %% two\n  year = 2000 \n}\n' >beside.bib
run 'a comment on the same line' 0 $'@book{k,\n  author = {A}, % one % two\n  year = 2000 \n}\n' unset k title -f beside.bib
run 'a last field without a comma, after a comment' 0 $'@book{k,\n  author = {A}, % one\n  title = {T}, % two\n}\n' unset k year -f beside.bib
printf '@book{k,\n  author = {A},\n  year = 2000\n  %% note = {x}\n}\n' >last.bib
run 'a comment on a line after the last field' 0 $'@book{k,\n  author = {A},\n  % note = {x}\n}\n' unset k year -f last.bib
printf '@book{k,\n  author = {A},\n  year = 2000 %% note\n}\n' >last_beside.bib
run 'a comment beside the last field' 0 $'@book{k,\n  author = {A},\n}\n' unset k year -f last_beside.bib
printf '@book{k,\n  note = {A},\n  %% about the title\n  title = {T},\n  %% about the note\n  note = {B},\n  %% about the year\n  year = 2000,\n}\n' >notes.bib
run 'several fields with the name, and comments' 0 \
    $'@book{k,\n  % about the title\n  title = {T},\n  % about the note % about the year\n  year = 2000,\n}\n' unset k note -f notes.bib
run 'an entry is taken out' 0 $'@misc{b, title={x y}, author={Knuth, D.}, year={1984}}\n' remove a -f two.bib
run 'all entries are taken out' 0 '' remove a b -f two.bib
printf '@misc{a, title={1}}\n\n@misc{b, title={2}}\n@misc{a, title={3}}\n\n@misc{c, title={4}}\n' >same_keys.bib
run 'entries are removed in another order' 0 $'@misc{a, title={1}}\n\n@misc{a, title={3}}\n\n' remove c b -f same_keys.bib
run 'the first entry with each key is removed' 0 $'@misc{b, title={2}}\n@misc{a, title={3}}\n\n' remove c a -f same_keys.bib
run 'the key of two entries is given twice' 0 $'@misc{b, title={2}}\n@misc{c, title={4}}\n' remove a a -f same_keys.bib
printf '@misc{c, title={C}}\n' >input
run 'an entry is added' 0 "$(cat two.bib)"$'\n\n@misc{c, title={C}}\n' add -f two.bib
cp two.bib input
run 'standard input is edited' 0 $'@misc{b, title={x y}, author={Knuth, D.}, year={1984}}\n' remove a
run 'standard input is edited, by its name' 0 $'@misc{b, title={x y}, author={Knuth, D.}, year={1984}}\n' remove a -f -

# values without braces: numbers, abbreviations and months
printf '@string{acm = {ACM}}\n@misc{a, title={A}}\n@string{late = {L}}\n' >bare.bib
run 'a month, an abbreviation, a number and other values' 0 $'@string{acm = {ACM}}\n@misc{a, day=7, year={1999}, note={acm}, publisher=acm, month=jan, title={A}}\n@string{late = {L}}\n' \
    set a month=jan publisher:=acm note=acm year=1999 day:=7 -f bare.bib
run 'a month that is a text' 0 $'@string{acm = {ACM}}\n@misc{a, month={January}, title={A}}\n@string{late = {L}}\n' set a month=January -f bare.bib
run 'an abbreviation for selected entries' 0 $'@string{acm = {ACM}}\n@misc{a, month=feb, publisher=acm, title={A}}\n@string{late = {L}}\n' \
    edit --set publisher:=acm --add month:=feb -f bare.bib
for value in late none 'acm # acm' 1a ''; do
    run_messages "a value without braces that is none, $value" 1 $'bibkit: bare.bib: `a`: `publisher`: the value is neither a number nor an abbreviation that is defined before the entry\n' \
        set a publisher:="$value" -f bare.bib
done

# edits that are refused print nothing on standard output
refuses() {
    local name=$1 status=$2 said=$3
    shift 3
    run "$name" "$status" '' "$@"
    run_messages "$name: what is said" "$status" "$said" "$@"
}
refuses 'no such key' 1 $'bibkit: two.bib: `z`: `title`: no entry has the key\n' set z title=A -f two.bib
refuses 'no such key, after the key of an entry' 1 $'bibkit: two.bib: `z`: no entry has the key\n' remove a z -f two.bib
refuses 'two keys of no entry' 1 $'bibkit: two.bib: `z`: no entry has the key\n' remove a z y -f two.bib
refuses 'a key of no entry before another key' 1 $'bibkit: two.bib: `z`: no entry has the key\n' remove z a -f two.bib
refuses 'the key of one entry is given twice' 1 $'bibkit: two.bib: `a`: no entry has the key\n' remove a a -f two.bib
is_there=': an entry has the name already, as its key or in its field `ids`'
refuses 'a key that is there' 1 "bibkit: two.bib: \`a\` to \`b\`$is_there"$'\n' rename a b -f two.bib
no_key=$': a new key isn\'t empty or `*`, and has no white space, control character, comma, quote, brace, parenthesis, `--` or any of # $ % = \\ ~\n'
refuses 'no key' 1 "bibkit: two.bib: \`a\` to \`b c\`$no_key" rename a 'b c' -f two.bib
refuses 'a key that Biber cuts' 1 "bibkit: two.bib: \`a\` to \`o'hara\`$no_key" rename a "o'hara" -f two.bib
refuses 'a key that cites all entries' 1 "bibkit: two.bib: \`a\` to \`*\`$no_key" rename a '*' -f two.bib
refuses 'a key of another entry in another case' 1 "bibkit: two.bib: \`a\` to \`B\`$is_there"$'\n' rename a B -f two.bib
refuses 'no name of a field' 1 $'bibkit: two.bib: `a`: `a b`: the text can\'t be the name of a field\n' set a 'a b=c' -f two.bib
refuses 'no field left' 1 $'bibkit: two.bib: `a`: `author`: the entry would have no field left\n' unset a title author -f two.bib
refuses 'no value' 1 $'bibkit: two.bib: `a`: `title`: the value can\'t be written in braces\n' set a 'title=}' -f two.bib
refuses 'a value that is not closed' 1 $'bibkit: two.bib: `a`: `title`: the value can\'t be written in braces\n' set a 'title=a\' -f two.bib
refuses 'a brace that only TeX passes over' 1 $'bibkit: two.bib: `a`: `title`: the value can\'t be written in braces\n' set a 'title=a \}' -f two.bib
refuses 'entries that are there' 1 "bibkit: two.bib: \`a\`$is_there"$'\n' add -f two.bib
printf '@misc{c, ids={B}}\n' >input
refuses 'an entry whose ids are there' 1 "bibkit: two.bib: \`B\`$is_there"$'\n' add -f two.bib
printf '@misc{c, title={C}}\n@misc{d, title={D}}\n@misc{C, title={E}}\n' >input
refuses 'two added entries with one name' 1 "bibkit: two.bib: \`C\`$is_there"$'\n' add -f two.bib
printf '@misc{x, ids={x}}\n@misc{a, title={A}}\n' >input
refuses 'an added entry with one name twice, before one whose key is there' 1 "bibkit: two.bib: \`a\`$is_there"$'\n' add -f two.bib
printf '@misc{c,}@misc{d{,}@misc{*,}\n' >input
refuses 'an entry whose key Biber cuts' 1 "bibkit: two.bib: \`d{\`$no_key" add -f two.bib
printf '@string{s = {x}}\n@misc{a, title=s}\n' >defined.bib
printf '@STRING{S = {y}}\n' >input
refuses 'an abbreviation that is there' 1 $'bibkit: defined.bib: `S`: an abbreviation is defined already with another text\n' add -f defined.bib
printf '@string{s = {x}}\n@string{s = {y}}\n' >both.bib
printf '@string{s = {y}}\n@misc{x, title=s}\n' >input
refuses 'an abbreviation that is there with two texts' 1 $'bibkit: both.bib: `s`: an abbreviation is defined already with another text\n' add -f both.bib
printf '@STRING{S = "x"}\n' >input
run 'the same abbreviation is added' 0 $'@string{s = {x}}\n@misc{a, title=s}\n\n@STRING{S = "x"}\n' add -f defined.bib
cp two.bib input
refuses 'a file with an error' 1 $'broken.bib:3:1: error: expected comma [syntax]\n' set a title=B -f broken.bib
cp broken.bib input
refuses 'added entries with an error' 1 $'-:3:1: error: expected comma [syntax]\n' add -f one.bib
printf '@misc{c, title = "The {"}Big{"} one"}\n' >input
refuses 'added texts in quotes with an open brace' 1 $'-:1:19: error: the braces of this text in quotes don\'t balance, so BibTeX and Biber end it elsewhere; write it in braces first\n' add -f one.bib
: >input
refuses 'bytes that are not UTF-8 are not edited' 2 $'latin.bib:1:17: error: not UTF-8 from here on, so the file can\'t be edited [unread-bytes]\n' set a title=B -f latin.bib
refuses 'an edit of a file that is not there' 2 $'bibkit: no.bib: there is no such file\n' remove a -f no.bib
refuses 'a word that is no field with a value' 2 $'bibkit: `two.bib` isn\'t FIELD=VALUE; use `--file` for the name of the file\n' set a title=B two.bib
refuses 'adding to standard input' 2 $'bibkit: `add` needs the name of a file\n' add -f -
refuses 'writing into standard input' 2 $'bibkit: `--write` needs the name of a file\n' remove a -f - --write
run 'writing into no file' 2 '' remove a --write
run 'adding to no file' 2 '' add
run 'nothing to set' 2 '' set a -f two.bib
"$program" remove a -f two.bib >/dev/full 2>messages
holds 'an edit on a full disk' [ $? = 2 ]
holds 'an edit on a full disk is reported' messages_have "bibkit: the output can't be written"

# abbreviations that are written out
printf '@string{acm = {ACM}}\n@string{jacm = {Journal of the } # acm}\n@article{k, journal = jacm, month = jan, note={see }#acm # x}\n' >expand.bib
expanded=$'@string{acm = {ACM}}\n@string{jacm = {Journal of the } # acm}\n@article{k, journal = {Journal of the } # {ACM}, month = jan, note={see } # {ACM} # x}\n'
run 'abbreviations are written out' 0 "$expanded" strings --expand -f expand.bib
cp expand.bib input
run 'abbreviations of standard input are written out' 0 "$expanded" strings --expand
: >input
run 'no abbreviation is written out' 0 "$(cat two.bib)"$'\n' strings --expand -f two.bib
run 'abbreviations of an empty input' 0 '' strings --expand
printf '@string{s = "a", s = {b}}\n@misc{k, t = s, u = S}\n' >again.bib
run 'the last of two definitions' 0 $'@string{s = "a", s = {b}}\n@misc{k, t = {b}, u = {b}}\n' strings --expand -f again.bib
printf '@string{j = {One}}\n@misc{a, t = j}\n@string{j = {Two}}\n@misc{b, t = J}\n' >between.bib
run 'a definition between two entries' 0 $'@string{j = {One}}\n@misc{a, t = {One}}\n@string{j = {Two}}\n@misc{b, t = {Two}}\n' strings --expand -f between.bib
printf '@string{z = one}\n@string{one = two}\n@string{two = {y} # one}\n@misc{k, t = z}\n' >cycle.bib
refuses 'an abbreviation that uses a later one' 1 $'cycle.bib:1:9: error: the definition of `z` uses its own name, or one that is defined later\n' strings --expand -f cycle.bib
printf '\xef\xbb\xbf@string{\r\n  \xc3\xa9 = {x}, own = own}\r\n@misc{k, t = own}\r\n' >own.bib
refuses 'the place of an abbreviation that uses itself' 1 $'own.bib:2:12: error: the definition of `own` uses its own name, or one that is defined later\n' strings --expand -f own.bib
refuses 'abbreviations of a file with an error' 1 $'broken.bib:3:1: error: expected comma [syntax]\n' strings --expand -f broken.bib
refuses 'abbreviations of a file that is not there' 2 $'bibkit: no.bib: there is no such file\n' strings --expand -f no.bib

# abbreviations of texts that repeat
for key in a b; do printf '@article{%s, journal = {Journal of the ACM}, publisher=@, note={n o}}\n' $key; done | sed '1s/@,/{ACM Press},/; 2s/@,/"ACM Press",/' >collect.bib
printf '@article{c, journal = {Journal of the ACM}, series={S}, note={n o}}\n' >>collect.bib
run 'texts that repeat are collected' 0 '@string{jota = {Journal of the ACM}}
@string{ap = {ACM Press}}
@article{a, journal = jota, publisher=ap, note={n o}}
@article{b, journal = jota, publisher=ap, note={n o}}
@article{c, journal = jota, series={S}, note={n o}}
' strings --collect -f collect.bib
run 'texts that repeat three times' 0 '@string{jota = {Journal of the ACM}}
@article{a, journal = jota, publisher={ACM Press}, note={n o}}
@article{b, journal = jota, publisher="ACM Press", note={n o}}
@article{c, journal = jota, series={S}, note={n o}}
' strings --collect --at-least 3 -f collect.bib
run 'texts of other fields, in any case' 0 '@string{ap = {ACM Press}}
@string{no = {n o}}
@article{a, journal = {Journal of the ACM}, publisher=ap, note=no}
@article{b, journal = {Journal of the ACM}, publisher=ap, note=no}
@article{c, journal = {Journal of the ACM}, series={S}, note=no}
' strings --collect --fields publisher,NOTE -f collect.bib
run 'texts that repeat four times' 0 "$(cat collect.bib)"$'\n' strings --collect --at-least 4 -f collect.bib
run 'nothing repeats' 0 "$(cat two.bib)"$'\n' strings --collect -f two.bib
"$program" strings --collect -f collect.bib >collected.bib
run 'what is collected stays' 0 "$(cat collected.bib)"$'\n' strings --collect -f collected.bib
run 'what is collected is written out' 0 '@string{jota = {Journal of the ACM}}
@string{ap = {ACM Press}}
@article{a, journal = {Journal of the ACM}, publisher={ACM Press}, note={n o}}
@article{b, journal = {Journal of the ACM}, publisher={ACM Press}, note={n o}}
@article{c, journal = {Journal of the ACM}, series={S}, note={n o}}
' strings --expand -f collected.bib
# names: one that the file defines, one that it uses, a month's, one of another text, none of letters
while IFS='|' read -r name before text words; do
    printf '%s@book{a, publisher={%s}}\n@book{b, publisher={%s}%s}\n' "$before" "$text" "$text" "$words" >named.bib
    run "the name $name" 0 "$before@string{$name = {$text}}
@book{a, publisher=$name}
@book{b, publisher=$name$words}
" strings --collect -f named.bib
done <<'ROWS'
acm||A.C.M.|
acm2|@string{acm = {x}} |A.C.M.|
acm2||A.C.M.|, note=acm
acm2|@string{other = acm} |A.C.M.|
acm2|@string{ACM = {x}} |A.C.M.|
acm2||A.C.M.|, note=Acm
jan2||Jan.|
s||12|
abcdefgh||Abcdefghij|
apc||Addison-Wesley Publishing {Company}|, note={apc}
ROWS
printf '@book{a, publisher={A.C.M.}, series={A C M}}\n@book{b, publisher={A.C.M.}, series={A C M}}\n' >named.bib
run 'two texts with the same letters' 0 $'@string{acm = {A.C.M.}}\n@string{acm2 = {A C M}}\n@book{a, publisher=acm, series=acm2}\n@book{b, publisher=acm, series=acm2}\n' strings --collect -f named.bib
printf '@book{a, publisher={\\{}, series={S} # {T}}\n@book{b, publisher={\\{}, series={S} # {T}}\n' >uncollected.bib
run 'texts whose braces BibTeX counts in another way, and joined ones, stay' 0 "$(cat uncollected.bib)"$'\n' strings --collect -f uncollected.bib
printf '@book{a, publisher={ACM}, series={}}\n@book{b, publisher={ACM}, series={}}\n' >short.bib
run 'texts that are no longer than their names stay' 0 "$(cat short.bib)"$'\n' strings --collect -f short.bib
printf '\xef\xbb\xbf@book{a, publisher={X Y}}\n@book{b, publisher={X Y}}\n' >collect-mark.bib
run 'definitions stand after a byte order mark' 0 $'\xef\xbb\xbf@string{xy = {X Y}}\n@book{a, publisher=xy}\n@book{b, publisher=xy}\n' strings --collect -f collect-mark.bib
printf '%% Encoding: UTF-8\r\n@string{acm = {ACM}}\r\n\r\n@book{a, publisher={ACM}, series={A B}}\r\n@book{b, publisher={ACM}, series={A B}}\r\n' >reused.bib
run 'a definition is used again, and new lines are before the first entry' 0 $'% Encoding: UTF-8\r\n@string{acm = {ACM}}\r\n\r\n@string{ab = {A B}}\r\n@book{a, publisher=acm, series=ab}\r\n@book{b, publisher=acm, series=ab}\r\n' strings --collect -f reused.bib
run 'abbreviations, and nothing that is done with them' 2 '' strings -f two.bib
run 'abbreviations that are written out and collected' 2 '' strings --expand --collect -f two.bib
for option in '--fields publisher' '--at-least 3'; do run "$option where nothing is collected" 2 '' strings --expand $option -f two.bib; done
for times in 1 0 1000001 x; do run "a number of times that is none, $times" 2 '' strings --collect --at-least $times -f two.bib; done
run 'abbreviations of two files' 2 '' strings --expand two.bib
run 'abbreviations that are written into no file' 2 '' strings --expand --write
refuses 'abbreviations that are written into standard input' 2 $'bibkit: `--write` needs the name of a file\n' strings --expand -f - --write
cp collect.bib rewritten.bib
run 'abbreviations are written' 0 '' strings --collect -f rewritten.bib --write
holds 'the file has the abbreviations' cmp -s rewritten.bib collected.bib

# how new texts differ from old ones
rest_of_two=$' \n @misc{b, title={x y}, author={Knuth, D.}, year={1984}}\n'
names_of_two=$'--- two.bib\n+++ two.bib\n'
run 'the difference of set' 0 "$names_of_two"$'@@ -1,3 +1,3 @@\n-@misc{a, title={A}, author={B}}\n+@misc{a, title={C}, author={B}}\n'"$rest_of_two" set a title=C -f two.bib --diff
run 'the difference of unset' 0 "$names_of_two"$'@@ -1,3 +1,3 @@\n-@misc{a, title={A}, author={B}}\n+@misc{a, author={B}}\n'"$rest_of_two" unset a title -f two.bib --diff
run 'the difference of rename' 0 "$names_of_two"$'@@ -1,3 +1,3 @@\n @misc{a, title={A}, author={B}}\n \n-@misc{b, title={x y}, author={Knuth, D.}, year={1984}}\n+@misc{c, title={x y}, author={Knuth, D.}, year={1984}}\n' rename b c -f two.bib --diff
run 'the difference of remove' 0 "$names_of_two"$'@@ -1,3 +1,1 @@\n-@misc{a, title={A}, author={B}}\n-\n @misc{b, title={x y}, author={Knuth, D.}, year={1984}}\n' remove a -f two.bib --diff
run 'the difference of all' 0 "$names_of_two"$'@@ -1,3 +0,0 @@\n-@misc{a, title={A}, author={B}}\n-\n-@misc{b, title={x y}, author={Knuth, D.}, year={1984}}\n' remove a b -f two.bib --diff
printf '@misc{c, title={C}}\n' >input
run 'the difference of add' 0 "$names_of_two"$'@@ -1,3 +1,5 @@\n @misc{a, title={A}, author={B}}\n'"$rest_of_two"$'+\n+@misc{c, title={C}}\n' add -f two.bib --diff
cp two.bib input
run 'the difference of standard input' 0 $'--- -\n+++ -\n@@ -1,3 +1,1 @@\n-@misc{a, title={A}, author={B}}\n-\n @misc{b, title={x y}, author={Knuth, D.}, year={1984}}\n' remove a --diff
: >input
run 'the difference of strings' 0 '--- collect.bib
+++ collect.bib
@@ -1,3 +1,4 @@
-@article{a, journal = {Journal of the ACM}, publisher={ACM Press}, note={n o}}
-@article{b, journal = {Journal of the ACM}, publisher="ACM Press", note={n o}}
-@article{c, journal = {Journal of the ACM}, series={S}, note={n o}}
+@string{jota = {Journal of the ACM}}
+@article{a, journal = jota, publisher={ACM Press}, note={n o}}
+@article{b, journal = jota, publisher="ACM Press", note={n o}}
+@article{c, journal = jota, series={S}, note={n o}}
' strings --collect --at-least 3 -f collect.bib --diff
{ printf '@string{s = {x}}\n@misc{k1, t = s}\n'; for i in 2 3 4 5 6 7 8 9; do printf '@misc{k%d, t = %d}\n' $i $i; done; printf '@misc{k10, t = s}\n'; } >far.bib
run 'differences that are far from one another' 0 '--- far.bib
+++ far.bib
@@ -1,5 +1,5 @@
 @string{s = {x}}
-@misc{k1, t = s}
+@misc{k1, t = {x}}
 @misc{k2, t = 2}
 @misc{k3, t = 3}
 @misc{k4, t = 4}
@@ -8,4 +8,4 @@
 @misc{k7, t = 7}
 @misc{k8, t = 8}
 @misc{k9, t = 9}
-@misc{k10, t = s}
+@misc{k10, t = {x}}
' strings --expand -f far.bib --diff
# the hunk is the one that `diff -u` of GNU diffutils prints
for key in a b c; do printf '@misc{%s,\n  title = {T},\n}\n\n' $key; done | sed '$d' >same.bib
run 'the difference of entries with the same lines' 0 $'--- same.bib\n+++ same.bib\n@@ -2,10 +2,6 @@\n   title = {T},\n }\n \n-@misc{b,\n-  title = {T},\n-}\n-\n @misc{c,\n   title = {T},\n }\n' remove b -f same.bib --diff
printf '@misc{a, title={A}}\n@misc{b, year=1}' >open.bib
run 'a difference before a line without an end' 0 $'--- open.bib\n+++ open.bib\n@@ -1,2 +1,2 @@\n-@misc{a, title={A}}\n+@misc{a, title={B}}\n @misc{b, year=1}\n\\ No newline at end of file\n' set a title=B -f open.bib --diff
run 'a difference in a line without an end' 0 $'--- open.bib\n+++ open.bib\n@@ -1,2 +1,2 @@\n @misc{a, title={A}}\n-@misc{b, year=1}\n\\ No newline at end of file\n+@misc{b, year={2}}\n\\ No newline at end of file\n' set b year=2 -f open.bib --diff
printf '\xef\xbb\xbf@misc{a, title={A}}\r\n@misc{b, year=1}\r\n' >returned.bib
run 'a difference with a byte order mark, and ends of lines' 0 $'--- returned.bib\n+++ returned.bib\n@@ -1,2 +1,2 @@\n-\xef\xbb\xbf@misc{a, title={A}}\r\n+\xef\xbb\xbf@misc{a, title={B}}\r\n @misc{b, year=1}\r\n' set a title=B -f returned.bib --diff
for words in 'set b year=1984' 'unset a year' 'strings --expand' 'strings --collect'; do run "no difference, $words" 0 '' $words -f two.bib --diff; done
refuses 'no difference of a refused edit' 1 $'bibkit: two.bib: `z`: no entry has the key\n' remove a z -f two.bib --diff
printf '@misc{a, title={A}}\n' >unlaid.bib
laid=$'@misc{a,\n  title = {A},\n}\n'
difference=$'--- unlaid.bib\n+++ unlaid.bib\n@@ -1,1 +1,3 @@\n-@misc{a, title={A}}\n+@misc{a,\n+  title = {A},\n+}\n'
run 'the difference of a style' 0 "$difference" fmt --diff unlaid.bib
run 'the difference of a style, and a status' 1 "$difference" fmt --check --diff unlaid.bib
run_messages 'the difference of a style, and a message' 1 $'bibkit: unlaid.bib: not in this style\n' fmt --diff --check unlaid.bib
run_messages 'the difference of a style, and no message' 0 '' fmt --diff unlaid.bib
printf %s "$laid" >laid.bib
run 'no difference of a style' 0 '' fmt --diff laid.bib
run 'no difference of a style, and a status' 0 '' fmt --diff --check laid.bib
run 'differences of files' 1 "$difference$difference" fmt --check --diff unlaid.bib laid.bib unlaid.bib
run 'no difference of a file with an error' 1 "$difference" fmt --diff broken.bib unlaid.bib
cp unlaid.bib input
run 'the difference of a style from standard input' 0 "${difference//unlaid.bib/-}" fmt --diff
: >input
cp unlaid.bib either.bib
run '--diff after --write' 0 "${difference//unlaid/either}" fmt --write --diff either.bib
holds '--diff after --write writes nothing' cmp -s either.bib unlaid.bib
run '--write after --diff' 0 '' fmt --diff --write either.bib
holds '--write after --diff writes' cmp -s either.bib laid.bib
printf '%s\n' "$entry" >either.bib
run '--diff after --write, of an edit' 0 $'--- either.bib\n+++ either.bib\n@@ -1,1 +1,1 @@\n-@misc{a, title={A}, author={B}}\n+@misc{a, title={C}, author={B}}\n' set a title=C -f either.bib --write --diff
holds '--diff after --write writes no edit' cmp -s either.bib <(printf '%s\n' "$entry")
run '--write after --diff, of an edit' 0 '' set a title=C -f either.bib --diff --write
holds '--write after --diff writes the edit' cmp -s either.bib <(printf '@misc{a, title={C}, author={B}}\n')
"$program" fmt --diff unlaid.bib >/dev/full 2>messages
holds 'a difference on a full disk' [ $? = 2 ]
# what `patch` makes of the old file by the difference is the new text: a file, what stands in it then, and the words
patches() {
    local file=$1 want=$2
    shift 2
    cp "$file" patched.bib
    "$program" "$@" "$file" --diff >change.diff 2>messages
    patch --binary -s patched.bib change.diff >output 2>&1
    holds "a patch of $file by $1" eval 'printf %s "$want" | cmp -s - patched.bib'
}
if command -v patch >/dev/null; then
    mixed $'% on b\n@phdthesis{b,\n  date   = "2000-05",\n  author = "{van} Dam, A. and Abel, Q.",\n}' $'@misc{a,\n  editor = "Wirth, N.",\n}' \
        $'% on C\n@inbook{C,\n  year     = 1998,\n  crossref = "d",\n  author   = "Zoe Young",\n}' $'@book{d,\n  year   = "1990",\n  editor = "Adams, D.",\n}'
    patches mixed.bib "$text" fmt --sort author --order year,date --align --delimiters quotes
    patches returns.bib $'@misc{a,\r\n}\r\n@misc{b,\r\n}\r\n' fmt --sort key
    patches open.bib $'@misc{b,\n  year = 1,\n}\n@misc{a,\n  title = {A},\n}' fmt --sort year
    patches open.bib $'@misc{a, title={B}}\n@misc{b, year=1}' set a title=B -f
    patches open.bib $'@misc{a, title={A}}\n@misc{b, year={2}}' set b year=2 -f
    patches expand.bib "$expanded" strings --expand -f
    patches far.bib "$(sed 's/= s}/= {x}}/' far.bib)"$'\n' strings --expand -f
    cp two.bib 'two files.bib'
    "$program" remove a -f 'two files.bib' --diff | patch -s -p0 >output 2>&1
    holds 'a patch of a file whose name has a space' eval '"$program" remove a -f two.bib | cmp -s - "two files.bib"'
else
    lacks patch
fi

# byte order marks, and ends of lines
printf '\xef\xbb\xbf@misc{a, title={A}}\r\n' >mark.bib
run 'a byte order mark stays, and ends of lines do' 0 $'\xef\xbb\xbf@misc{a, title={B}}\r\n' set a title=B -f mark.bib
printf '\xef\xbb\xbf@misc{a, title={A}}\r\n@misc{c\r\n' >broken-mark.bib
refuses 'an error after a byte order mark' 1 $'broken-mark.bib:3:1: error: expected comma [syntax]\n' remove a -f broken-mark.bib

# edits that are written
rm -rf written && mkdir written
has() { printf %s "$2" | cmp -s - "$1"; }
are_in() { [ "$(ls -A "$1" | sort | tr '\n' ' ')" = "$2 " ]; }
printf '%s\n' "$entry" >written/a.bib
chmod 640 written/a.bib
run 'an edit is written, and nothing is printed' 0 '' set a title=C -f written/a.bib --write
holds 'the file has the new text' has written/a.bib $'@misc{a, title={C}, author={B}}\n'
holds 'the file has its rights' [ "$(stat -c %a written/a.bib)" = 640 ]
holds 'nothing is left beside the file' are_in written a.bib
before=$(stat -c '%i %Y' written/a.bib)
run 'an edit that changes nothing' 0 '' set a title=C -f written/a.bib --write
holds 'nothing is written then' [ "$before" = "$(stat -c '%i %Y' written/a.bib)" ]
run 'a refused edit' 1 '' remove a z -f written/a.bib --write
holds 'nothing is written of refused edits' [ "$before" = "$(stat -c '%i %Y' written/a.bib)" ]
mkdir links
ln -s ../written/a.bib links/l.bib
run 'an edit through a link' 0 '' set a title=D -f links/l.bib --write
holds 'the link stays' [ -L links/l.bib ]
holds 'the file behind it has the new text' has written/a.bib $'@misc{a, title={D}, author={B}}\n'
holds 'nothing is left beside the link' are_in links l.bib
mkdir "$(printf 'links/caf\xe9')" links/end
printf '@misc{a, title={C}}\n' >links/end/t.bib
ln -s end/t.bib links/one.bib
ln -s one.bib links/two.bib
ln -s "$PWD/links/two.bib" "$(printf 'links/caf\xe9/three.bib')"
run 'an edit through three links' 0 '' set a title=D -f links/two.bib --write
holds 'the file behind three links has the new text' has links/end/t.bib $'@misc{a, title={D}}\n'
holds 'nothing is left beside the file behind links' are_in links/end t.bib
(cd "$(printf 'links/caf\xe9')" && "$program" set a title=E -f three.bib --write) >/dev/null 2>messages
holds 'a link in a folder whose name is not UTF-8' has links/end/t.bib $'@misc{a, title={E}}\n'
cp links/end/t.bib "$(printf 'links/caf\xe9/own.bib')"
(cd "$(printf 'links/caf\xe9')" && "$program" set a title=F -f own.bib --write) >/dev/null 2>messages
holds 'a file in a folder whose name is not UTF-8' has "$(printf 'links/caf\xe9/own.bib')" $'@misc{a, title={F}}\n'
holds 'nothing is left in that folder' are_in "$(printf 'links/caf\xe9')" 'own.bib three.bib'
mkdir "$(printf 'links/caf\xe9/deep')"
printf '@article{a, nofields={x}}\n' >"$(printf 'links/caf\xe9/deep/own.bib')"
printf 'only = ["unknown-field"]\n' >"$(printf 'links/caf\xe9/bibkit.toml')"
(cd "$(printf 'links/caf\xe9/deep')" && "$program" lint own.bib) >output 2>messages
count 'settings above a folder whose name is not UTF-8' $? 1 $'own.bib:1:13: warning: unknown field `nofields` [unknown-field]\nerrors: 0, warnings: 1\n'
rm -r "$(printf 'links/caf\xe9/deep')" "$(printf 'links/caf\xe9/bibkit.toml')"
run_messages 'writing into a folder' 2 $'bibkit: written: it is a folder\n' remove a -f written --write
printf '\xef\xbb\xbf@misc{a, title={A}}\r\n' >written/m.bib
run 'a byte order mark in a file' 0 '' set a title=B -f written/m.bib --write
holds 'the byte order mark is written' has written/m.bib $'\xef\xbb\xbf@misc{a, title={B}}\r\n'
rm written/m.bib
printf '@misc{x, title={X}}\n' >input
run 'entries are written' 0 '' add -f written/a.bib --write
holds 'the added entry is there' has written/a.bib $'@misc{a, title={D}, author={B}}\n\n@misc{x, title={X}}\n'
: >input
cp "$program" program 2>/dev/null && chmod 755 program
as_nobody=()
[ "$(id -u)" = 0 ] && as_nobody=(setpriv --reuid 65534 --clear-groups)
if [ "$(id -u)" != 0 ] || [ -x /usr/bin/setpriv ]; then
    chmod 755 written
    chmod 666 written/a.bib
    [ "$(id -u)" = 0 ] || chmod 555 written
    want=$(cat written/a.bib)
    "${as_nobody[@]}" ./program set a title=E -f written/a.bib --write >results 2>output
    count 'a folder without rights' $? 2 $'bibkit: written/a.bib: can\'t be written: permission denied\n'
    holds 'the file is as it was' has written/a.bib "$want"$'\n'
    holds 'nothing is left beside it' are_in written a.bib
    chmod 777 written
    chmod 444 written/a.bib
    "${as_nobody[@]}" ./program set a title=E -f written/a.bib --write >results 2>output
    count 'a file without rights is not written' $? 2 $'bibkit: written/a.bib: can\'t be written: permission denied\n'
    chmod 644 written/a.bib
    chmod 755 written
else
    lacks setpriv
fi
for i in $(seq 1 5000); do printf '@misc{key%d, title={T}}\n' "$i"; done >written/a.bib
want=$(cat written/a.bib)
# a limit of 8 blocks of 512 or 1024 bytes for files stands for a full disk
(ulimit -f 8 && trap '' XFSZ && exec "$program" set key1 title=U -f written/a.bib --write) >output 2>messages
holds 'no room for the new text' [ $? = 2 ]
holds 'the old text stays' has written/a.bib "$want"$'\n'
holds 'no part of the new text stays' are_in written a.bib
(ulimit -f 8 && exec "$program" set key1 title=U -f written/a.bib --write) >output 2>messages
holds 'a run that is killed' [ $? != 0 ]
holds 'the old text stays then too' has written/a.bib "$want"$'\n'
rm -f written/a.bib.bibkit-*
new=$(sed '1s/{T}/{U}/' written/a.bib)
for i in 1 2 3 4 5 6; do
    cp written/a.bib written/b.bib
    "$program" set key1 title=U -f written/b.bib --write >output 2>messages & pid=$!
    sleep "0.0$i" && kill -9 $pid 2>/dev/null
    wait $pid 2>/dev/null
    holds 'a stopped run leaves one of both texts' eval 'has written/b.bib "$want"$'"'\n'"' || has written/b.bib "$new"$'"'\n'"
done
rm -f written/b.bib.bibkit-*
cp written/a.bib written/b.bib
for i in 1 2 3 4; do "$program" set key1 "title=R$i" -f written/b.bib --write >/dev/null 2>&1 & done
wait
holds 'runs at once leave the text of one of them' eval '"$program" get key1 written/b.bib | grep -qE "^@misc\{key1, title=\{R[1-4]\}\}$" && [ "$(wc -l <written/b.bib)" = 5000 ]'
holds 'runs at once leave nothing beside' are_in written 'a.bib b.bib'
# Another program changes the file all the time. Where processors are few it may not run between reading and writing; then the file is
# written, which is right, and the run is repeated.
for try in $(seq 1 200); do
    cp written/a.bib written/b.bib
    while :; do printf '%% x\n' >>written/b.bib; done & pid=$!
    while cmp -s written/a.bib written/b.bib; do :; done
    "$program" set key1 title=U -f written/b.bib --write >output 2>messages
    status=$?
    kill $pid
    wait $pid 2>/dev/null
    [ $status = 0 ] || break
done
holds 'a file that changes is not written' [ $status = 2 ]
holds 'and is named' messages_have "bibkit: written/b.bib: another program changed it, so it isn't written"
holds 'and its text stays' [ "$(head -c "${#want}" written/b.bib)" = "$want" ]

# outputs that refuse
: >output
"$program" keys two.bib >&- 2>messages
holds 'a closed output' [ $? = 2 ]
"$program" keys two.bib >/dev/full 2>messages
holds 'a full disk' [ $? = 2 ]
holds 'a full disk is reported' messages_have "bibkit: the output can't be written"
"$program" lint two.bib >/dev/full 2>messages
holds 'findings on a full disk' [ $? = 2 ]
"$program" lint --explain syntax >/dev/full 2>messages
holds 'a meaning on a full disk' [ $? = 2 ]
"$program" --help >/dev/full 2>messages
holds 'help on a full disk' [ $? = 2 ]
for i in $(seq 1 5000); do printf '@misc{key%d, title={T}}\n' "$i"; done >many.bib
("$program" lint many.bib 2>messages; echo $? >status) | head -0
holds 'a closed pipe' [ "$(cat status)" -ne 0 ]
"$program" keys many.bib | sed -n 5000p >output
count 'a pipe' 0 0 $'key5000\n'

# many files
names=()
want=''
for i in $(seq 1 100); do
    printf '@misc{k%d, title={T}}' "$i" >"many$i.bib"
    names+=("many$i.bib")
    want+="k$i"$'\n'
done
run 'a hundred files' 0 "$want" keys "${names[@]}"
run_messages 'no progress on a file' 0 '' keys "${names[@]}"
want=''
for i in $(seq 1 100); do want+="many$i.bib:1:7: warning: k$i: missing year [missing-field]"$'\n'; done
run 'findings of a hundred files' 1 "$want"$'errors: 0, warnings: 100\n' lint "${names[@]}"

# settings of a project
mkdir -p project/deep/er
cp one.bib project/deep/er/one.bib
cp one.bib project/one.bib
printf 'ignore = ["missing-field"]\n' >project/bibkit.toml
run 'settings beside a file' 0 $'errors: 0, warnings: 0\n' lint project/one.bib
run 'settings above a file' 0 $'errors: 0, warnings: 0\n' lint project/deep/er/one.bib
run 'settings of the first of two files' 1 $'one.bib:1:1: error: duplicate key "test" [duplicate-key]\nerrors: 1, warnings: 0\n' lint project/one.bib one.bib
run 'no settings of the second of two files' 1 "$lines_of_one"$'project/one.bib:1:1: error: duplicate key "test" [duplicate-key]\nerrors: 1, warnings: 3\n' lint one.bib project/one.bib
run 'the command line wins' 1 "$lines_of_one"$'errors: 0, warnings: 3\n' lint --ignore syntax one.bib
(cd project && "$program" lint <one.bib >../output)
count 'settings of the current folder' $? 0 $'errors: 0, warnings: 0\n'
"$program" lint --ignore syntax project/one.bib >output
holds 'the command line wins over settings' prints 'missing title'
printf 'format = "json"\nonly = ["syntax"]\ncolor = "always"\n' >project/deep/bibkit.toml
run 'nearer settings' 0 $'[\n]\n' lint project/deep/er/one.bib
run 'a format of the command line' 0 $'errors: 0, warnings: 0\n' lint --format text project/deep/er/one.bib
run 'codes of the command line, in the place of those of settings' 1 '[
{"file":"project/deep/er/one.bib","line":1,"column":10,"end_line":1,"end_column":14,"severity":"warning","code":"missing-field","message":"test: missing title"},
{"file":"project/deep/er/one.bib","line":1,"column":10,"end_line":1,"end_column":14,"severity":"warning","code":"missing-field","message":"test: missing journaltitle"},
{"file":"project/deep/er/one.bib","line":1,"column":10,"end_line":1,"end_column":14,"severity":"warning","code":"missing-field","message":"test: missing year"}
]
' lint --only missing-field project/deep/er/one.bib
run 'codes that are left out of those of settings' 0 $'[\n]\n' lint --ignore missing-field project/deep/er/one.bib
printf 'only = ["no-code"]\n' >project/bibkit.toml
run 'a wrong code in settings' 2 '' lint project/one.bib
holds 'its file is named' messages_have 'project/bibkit.toml: expected a list of codes for `only`'
printf 'format = "xml"\n' >project/bibkit.toml
run 'a wrong format in settings' 2 '' lint project/one.bib
holds 'the formats are named' messages_have 'expected "text", "json", "jsonl", "github", "checkstyle" or "sarif" for `format`'
printf 'fail-on = "note"\n' >project/bibkit.toml
run 'a wrong severity in settings' 2 '' lint project/one.bib
holds 'the severities are named' messages_have 'expected "error", "warning", "info" or "never" for `fail-on`'
printf 'fail-on = "error"\nformat = "github"\n' >project/bibkit.toml
run 'a severity and a format of settings' 0 "$(commands_of project/one.bib)"$'\n' lint project/one.bib
run 'a severity of the command line wins' 1 "$(commands_of project/one.bib)"$'\n' lint --fail-on warning project/one.bib
# names of the project's own style
printf '@Whatever{k, noField = {x}, title = acm}\n@other{l, nofield2 = {x}, title = ieee}\n' >project/own.bib
printf '@misc{m, noField = {x}, nofield2 = {y}, title={T}, year={2000}}\n' >>project/own.bib
unknown='unknown-field,unknown-type,unknown-abbreviation'
own_fields=$'project/own.bib:3:10: warning: unknown field `noField` [unknown-field]\n'
own_types=$'project/own.bib:1:2: warning: unknown entry type `Whatever` [unknown-type]\n'
own_abbreviations=$'project/own.bib:1:37: warning: unknown abbreviation "acm" [unknown-abbreviation]\n'
others=$'project/own.bib:2:2: warning: unknown entry type `other` [unknown-type]\nproject/own.bib:2:35: warning: unknown abbreviation "ieee" [unknown-abbreviation]\n'
last=$'project/own.bib:3:25: warning: unknown field `nofield2` [unknown-field]\n'
printf '[own]\nfields = []\n' >project/bibkit.toml
run 'unknown names' 1 "$own_types$own_abbreviations$others$own_fields$last"$'errors: 0, warnings: 6\n' lint --only "$unknown" project/own.bib
printf '[own]\nfields = ["title2", "NOFIELD"]\n' >project/bibkit.toml
run 'own fields' 1 "$own_types$own_abbreviations$others$last"$'errors: 0, warnings: 5\n' lint --only "$unknown" project/own.bib
printf '[own]\ntypes = ["whatever"]\n' >project/bibkit.toml
run 'own entry types' 1 "$own_abbreviations$others$own_fields$last"$'errors: 0, warnings: 5\n' lint --only "$unknown" project/own.bib
printf '[own]\nabbreviations = ["ACM"]\n' >project/bibkit.toml
run 'own abbreviations' 1 "$own_types$others$own_fields$last"$'errors: 0, warnings: 5\n' lint --only "$unknown" project/own.bib
printf '[own]\nfields = ["whatever", "acm"]\ntypes = ["nofield", "acm"]\nabbreviations = ["whatever", "nofield"]\n' >project/bibkit.toml
run 'own names of another kind' 1 "$own_types$own_abbreviations$others$own_fields$last"$'errors: 0, warnings: 6\n' lint --only "$unknown" project/own.bib
printf '[own]\nfields = ["nofield", "nofield2"]\ntypes = ["whatever", "other"]\nabbreviations = ["acm", "ieee"]\n' >project/bibkit.toml
run 'own names of two files' 0 $'errors: 0, warnings: 0\n' lint --only "$unknown" project/own.bib one.bib
printf '@a`b{k, title={T}}\n@misc{l, title={T}, year={2000}, note`2={x}, note2`={x}, titel`={x}}\n' >project/backtick.bib
printf '[own]\nfields = ["note", "titel"]\ntypes = ["a"]\n' >project/bibkit.toml
"$program" lint --only "$unknown" project/backtick.bib >output
holds 'names up to a backtick are not own names' prints 'errors: 0, warnings: 4'
printf '[own]\nfields = ["note`2", "note2`", "titel`"]\ntypes = ["A`B"]\n' >project/bibkit.toml
run 'own names with backticks' 0 $'errors: 0, warnings: 0\n' lint --only "$unknown" project/backtick.bib
while IFS='|' read -r key value wanted; do
    printf '[own]\n%s = %s\n' "$key" "$value" >project/bibkit.toml
    run "wrong own names, $key = $value" 2 '' lint project/one.bib
    holds "wrong own names, $key = $value: what is said" messages_have "project/bibkit.toml: $wanted"
done <<'ROWS'
fields|"note2"|expected a list of field names for `own.fields`
fields|[1]|expected a list of field names for `own.fields`
types|true|expected a list of entry types for `own.types`
abbreviations|["a", 2]|expected a list of abbreviations for `own.abbreviations`
field|["note2"]|unknown setting `own.field`
ROWS
printf 'own = ["note2"]\n' >project/bibkit.toml
run 'own names that are no table' 2 '' lint project/one.bib
holds 'own names that are no table: what is said' messages_have 'project/bibkit.toml: expected a table for `own`'
printf 'colour = "always"\n' >project/bibkit.toml
run 'an unknown setting' 2 '' lint project/one.bib
holds 'an unknown setting is named' messages_have 'unknown setting `colour`'
printf 'only = [\n' >project/bibkit.toml
run 'settings that are no TOML' 2 '' lint project/one.bib
printf '\xff' >project/bibkit.toml
run 'settings that are not UTF-8' 2 '' lint project/one.bib
run 'other commands read no settings' 0 $'test\n' keys project/one.bib

# settings of a style
mkdir -p styled/below
printf '@Book{a, title={X}, YEAR=1999}\n' >styled/a.bib
cp styled/a.bib styled/below/b.bib
printf '@book{a,\n  title = {X},\n  year = 1999,\n}\n' >usual.bib
printf '@book{a,\n    title = {X},\n    year  = 1999\n}\n' >other.bib
printf '@book{a, title={X}, year=1999}\n' >one-line.bib
printf '[fmt]\nindent = 4\nalign = true\ntrailing-comma = false\n' >styled/bibkit.toml
run 'a style of settings' 0 "$(cat other.bib)"$'\n' fmt styled/a.bib
run 'a style of settings above the file' 0 "$(cat other.bib)"$'\n' fmt styled/below/b.bib
run 'the first file says which settings hold' 0 "$(cat other.bib other.bib)"$'\n' fmt styled/a.bib one-line.bib
run 'the first file says which settings hold, and there are none' 0 "$(cat usual.bib usual.bib)"$'\n' fmt one-line.bib styled/a.bib
run 'a style of the command line wins' 0 "$(cat usual.bib)"$'\n' fmt --indent 2 --no-align --trailing-comma styled/a.bib
run 'a part of a style of the command line wins' 0 $'@book{a,\n  title = {X},\n  year  = 1999\n}\n' fmt --indent 2 styled/a.bib
run 'the last of two options wins' 0 $'@book{a,\n    title = {X},\n    year = 1999,\n}\n' fmt --align --no-align --no-trailing-comma --trailing-comma styled/a.bib
run 'the last of two options wins, the other way' 0 "$(cat other.bib)"$'\n' fmt --no-align --align --trailing-comma --no-trailing-comma styled/a.bib
(cd styled && "$program" fmt <a.bib >../output)
count 'a style of settings of the current folder' $? 0 "$(cat other.bib)"$'\n'
run 'a file that is in the style of settings' 1 '' fmt --check styled/a.bib
cp other.bib styled/a.bib
run 'a file that is in the style of settings' 0 '' fmt --check styled/a.bib
run 'lint passes over the style' 0 $'errors: 0, warnings: 0\n' lint --only syntax styled/a.bib
printf '[fmt]\nblank-lines = 1\n' >styled/bibkit.toml
cp close.bib styled/close.bib
run 'blank lines of settings' 0 $'@misc{a,\n}\n\n@misc{b,\n}\n\n@misc{c,\n}\n' fmt styled/close.bib
run 'blank lines of the command line win' 0 $'@misc{a,\n}@misc{b,\n}\n\n\n@misc{c,\n}\n' fmt --blank-lines keep styled/close.bib
printf '[fmt]\nblank-lines = "keep"\n' >styled/bibkit.toml
run 'settings that keep what stands between entries' 0 $'@misc{a,\n}@misc{b,\n}\n\n\n@misc{c,\n}\n' fmt styled/close.bib
cat options.bib close.bib >styled/options.bib
empty=$'@misc{a,\n}' others=$'@misc{b,\n}\n\n\n@misc{c,\n}\n'
listed=$'  author = {say "x"},\n' titled=$'  title = "T" # {U},\n' dated=$'  year = 1999,\n' timed=$'  month = jan,\n}'
printf '[fmt]\ndelimiters = "braces"\norder = ["author", "title"]\nwidth = 19\nsort = "key"\n' >styled/bibkit.toml
run 'delimiters, orders and a width of settings' 0 "$empty"$'\n@misc{b,\n}@misc{c,\n}\n\n\n@misc{k,\n'"$listed"$'  title = {T}\n          # {U},\n'"$dated$timed"$'\n' fmt styled/options.bib
run 'delimiters, orders and a width of the command line win' 0 $'@misc{k,\n'"$dated"$'  title = "T" # "U",\n'"$listed$timed"$'\n'"$empty$others" \
    fmt --delimiters quotes --order year --width 0 --sort keep styled/options.bib
printf '[fmt]\ndelimiters = "keep"\norder = []\nwidth = 0\nsort = "keep"\n' >styled/bibkit.toml
run 'settings that change nothing' 0 $'@misc{k,\n'"$dated$titled$listed$timed"$'\n'"$empty$others" fmt styled/options.bib
printf '[fmt]\ndelimiters = "quotes"\n' >styled/bibkit.toml
run 'delimiters of settings' 0 $'@misc{k,\n'"$dated"$'  title = "T" # "U",\n'"$listed$timed"$'\n'"$empty$others" fmt styled/options.bib
printf '[fmt]\norder = ["Month", "TITLE"]\n' >styled/bibkit.toml
run 'an order of fields of settings' 0 $'@misc{k,\n  month = jan,\n'"$titled$dated$listed"$'}\n'"$empty$others" fmt styled/options.bib
printf '[fmt]\nwidth = 19\n' >styled/bibkit.toml
run 'a width of settings' 0 $'@misc{k,\n'"$dated"$'  title = "T"\n          # {U},\n'"$listed$timed"$'\n'"$empty$others" fmt styled/options.bib
for order in key year author type; do
    printf '[fmt]\nsort = "%s"\n' $order >styled/bibkit.toml
    cp mixed.bib styled/mixed.bib
    case $order in
        key) mixed "$entry_a" "$entry_b" "$entry_c" "$entry_d" ;;
        year) mixed "$entry_c" "$entry_b" "$entry_a" "$entry_d" ;;
        author) mixed "$entry_b" "$entry_a" "$entry_c" "$entry_d" ;;
        type) mixed "$entry_c" "$entry_a" "$entry_b" "$entry_d" ;;
    esac
    run "an order of settings, $order" 0 "$text" fmt styled/mixed.bib
done
printf '[fmt]\nindent = 0\n' >styled/bibkit.toml
run 'a part of a style' 0 $'@book{a,\ntitle = {X},\nyear = 1999,\n}\n' fmt styled/a.bib
# settings of a style that are wrong: the key, the value, and the message
while IFS='|' read -r key value wanted; do
    printf '[fmt]\n%s = %s\n' "$key" "$value" >styled/bibkit.toml
    run "a wrong setting, $key = $value" 2 '' fmt styled/a.bib
    holds "a wrong setting, $key = $value: what is said" messages_have "styled/bibkit.toml: $wanted"
    run "lint passes over it, $key = $value" 0 $'errors: 0, warnings: 0\n' lint --only syntax styled/a.bib
done <<'ROWS'
indent|9|expected a number from 0 to 8 for `fmt.indent`
indent|-1|expected a number from 0 to 8 for `fmt.indent`
indent|"4"|expected a number from 0 to 8 for `fmt.indent`
align|1|expected true or false for `fmt.align`
trailing-comma|"no"|expected true or false for `fmt.trailing-comma`
blank-lines|4|expected "keep" or a number from 0 to 3 for `fmt.blank-lines`
blank-lines|"one"|expected "keep" or a number from 0 to 3 for `fmt.blank-lines`
delimiters|"brackets"|expected "keep", "braces" or "quotes" for `fmt.delimiters`
delimiters|true|expected "keep", "braces" or "quotes" for `fmt.delimiters`
order|"author"|expected a list of field names for `fmt.order`
order|["author", 1]|expected a list of field names for `fmt.order`
width|-1|expected a number (0 for none) for `fmt.width`
width|"80"|expected a number (0 for none) for `fmt.width`
sort|"editor"|expected "keep", or up to four of key, year, author, title and type, such as "author,-year" for `fmt.sort`
sort|["key"]|expected "keep", or up to four of key, year, author, title and type, such as "author,-year" for `fmt.sort`
diff|true|unknown setting `fmt.diff`
aligned|true|unknown setting `fmt.aligned`
ROWS
printf 'fmt = true\n' >styled/bibkit.toml
run 'a style that is no table' 2 '' fmt styled/a.bib
holds 'a style that is no table: what is said' messages_have 'styled/bibkit.toml: expected a table for `fmt`'
printf 'indent = 4\n' >styled/bibkit.toml
run 'a setting of no table' 2 '' fmt styled/a.bib
holds 'a setting of no table: what is said' messages_have 'styled/bibkit.toml: unknown setting `indent`'
printf 'ignore = ["unknown-field"]\nonly = ["no-code"]\ncolor = "never"\nformat = "text"\nfail-on = "none"\n[own]\nfields = 1\n' >styled/bibkit.toml
run 'fmt passes over settings of lint' 0 "$(cat usual.bib)"$'\n' fmt styled/a.bib
printf '[fmt]\nindent = 9\n' >styled/bibkit.toml
run 'edits read no settings' 0 $'@book{a,\n    title = {X},\n    year  = {2000}\n}\n' set a year=2000 -f styled/a.bib
run_start 'meanings read no settings' 0 'syntax (error): ' lint --explain syntax project/one.bib

# colours, on no terminal
bold=$'\e[1m' plain=$'\e[0m' yellow=$'\e[1;33m' red=$'\e[1;31m' green=$'\e[1;32m'
want="${bold}broken.bib:3:1:$plain ${red}error:$plain c: expected comma [syntax]
  
  $green^$plain
errors: 1, warnings: 0
"
run 'colours' 1 "$want" lint --only syntax --color always broken.bib
run 'colours for the second of two files' 1 "${bold}key2.bib:2:1:$plain ${red}error:$plain duplicate key \"k\" [duplicate-key]
  @misc{k, title={Two}, year={2002}}
  $green^$plain
errors: 1, warnings: 0
" lint --color always key1.bib key2.bib
frame="  @article{test, author={A}}
           $green^$plain
"
want_settings="${bold}project/deep/er/one.bib:1:10:$plain ${yellow}warning:$plain test: missing title [missing-field]
$frame${bold}project/deep/er/one.bib:1:10:$plain ${yellow}warning:$plain test: missing journaltitle [missing-field]
$frame${bold}project/deep/er/one.bib:1:10:$plain ${yellow}warning:$plain test: missing year [missing-field]
${frame}errors: 0, warnings: 3
"
run 'colours of settings' 1 "$want_settings" lint --format text --only missing-field project/deep/er/one.bib
run 'no colours of the command line' 1 "${lines_of_one//one.bib/project/deep/er/one.bib}"$'errors: 0, warnings: 3\n' lint --format text --only missing-field --color never project/deep/er/one.bib
run 'no colours' 1 $'broken.bib:3:1: error: c: expected comma [syntax]\nerrors: 1, warnings: 0\n' lint --only syntax --color never broken.bib
printf '@misc{a,\n\tt\x1b[31m\xc3\xa9itle={x}, nofield={1}, author={B}}\n' >frame.bib
"$program" lint --color always --only unknown-field frame.bib >output
holds 'a control character is not printed' bash -c '! grep -q "$(printf "\033\[31m")" output'

# a terminal
cat >terminal.py <<'PY'
import os, pty, sys
output = b""
def read(fd):
    global output
    data = os.read(fd, 65536)
    output += data
    return data
status = pty.spawn(sys.argv[1:], read)
open("output", "wb").write(output.replace(b"\r\n", b"\n"))
sys.exit(os.waitstatus_to_exitcode(status))
PY
if command -v python3 >/dev/null; then
    python3 terminal.py "$program" lint --only syntax broken.bib </dev/null >/dev/null
    count 'colours on a terminal' $? 1 "$want"
    NO_COLOR=1 python3 terminal.py "$program" lint --only syntax broken.bib </dev/null >/dev/null
    count 'NO_COLOR' $? 1 $'broken.bib:3:1: error: c: expected comma [syntax]\nerrors: 1, warnings: 0\n'
    NO_COLOR=1 python3 terminal.py "$program" lint --color always --only syntax broken.bib </dev/null >/dev/null
    count 'colours although NO_COLOR is set' $? 1 "$want"
    clear=$'\r\e[K'
    python3 terminal.py "$program" keys two.bib one.bib </dev/null >/dev/null
    count 'progress' $? 0 "$clear[1/2] two.bib$clear"$'a\nb\n'"$clear[2/2] one.bib$clear"$'test\n'"$clear"
    python3 terminal.py "$program" keys two.bib </dev/null >/dev/null
    count 'no progress on one file' $? 0 $'a\nb\n'
else
    lacks python3
fi

# no memory
head -c 67108864 /dev/zero >zeros.bib
(ulimit -v 32768 && exec "$program" keys zeros.bib) >output 2>messages
holds 'no memory for a file' [ $? = 3 ]
holds 'no memory is reported' messages_have 'bibkit: out of memory'
rm zeros.bib

# convert
cat >convert.bib <<'BIB'
@string{aw = {Addison-Wesley}}
@book{tex, author = {Knuth, Donald E.}, title = {The {TeX}book}, publisher = aw, date = {1984-05}, pages = {1--3}} % kept
@xdata{x, location = {Paris}}
@book{m, xdata = {x}, title = {A \emph{b} & <c>}}
BIB
printf '@misc{a, title={A}}\n' >a.bib
items='{"author":[{"family":"Knuth","given":"Donald E."}],"id":"tex","issued":{"date-parts":[[1984,5]]},"page":"1–3","publisher":"Addison-Wesley","title":"The <span class=\"nocase\">TeX</span>book","type":"book"},
{"id":"m","publisher-place":"Paris","title":"A <i>b</i> & <c>","type":"book"}'
records='TY  - BOOK
AU  - Knuth, Donald E.
TI  - The TeXbook
PY  - 1984
DA  - 1984/05//
SP  - 1
EP  - 3
PB  - Addison-Wesley
ID  - tex
ER  - 

TY  - BOOK
TI  - A b & <c>
CY  - Paris
ID  - m
ER  - 

'
run 'items of CSL-JSON' 0 "[
$items
]
" convert --to csl convert.bib
# titles in sentence case, as pandoc writes them
printf '@book{l, title={{LaTeX}: A Document Preparation System}}\n@book{g, title={Das Kapital}, langid={german}}\n' >cased.bib
run 'items with titles in sentence case' 0 '[
{"id":"l","title":"<span class=\"nocase\">LaTeX</span>: A document preparation system","type":"book"},
{"id":"g","language":"de","title":"Das Kapital","type":"book"}
]
' convert --to csl --sentence-case cased.bib
run_messages 'records with titles in sentence case' 2 $'bibkit: `--sentence-case` requires `--to csl`\n' convert --to ris --sentence-case cased.bib
run_messages 'a dialect with titles in sentence case' 2 $'bibkit: `--sentence-case` requires `--to csl`\n' convert --to bibtex --sentence-case cased.bib
run 'items of two files' 0 "[
$items,
{\"id\":\"a\",\"title\":\"A\",\"type\":\"document\"}
]
" convert --to csl convert.bib a.bib
run 'entries as JSON' 0 '[
{"fields":{"title":{"chunks":[{"end":17,"kind":"normal","start":16,"text":"A"}]}},"key":"a","type":"misc"}
]
' convert --to json a.bib
run 'records of RIS' 0 "$records" convert --to ris convert.bib
run 'records of two files' 0 "$records"$'TY  - GEN\nTI  - A\nID  - a\nER  - \n\n' convert --to ris convert.bib a.bib
run 'BibTeX' 0 '@string{aw = {Addison-Wesley}}
@book{tex, author = {Knuth, Donald E.}, title = {The {TeX}book}, publisher = aw, year = {1984}, month = may, pages = {1--3}} % kept
@misc{x, address = {Paris}}
@book{m, xdata = {x}, title = {A \emph{b} & <c>}}
' convert --to bibtex convert.bib
run_messages 'fields that stay are named' 0 $'convert.bib:4:10: note: no standard style of BibTeX reads `xdata`\n' convert --to bibtex convert.bib
run 'BibLaTeX' 0 "$(cat convert.bib)"$'\n' convert --to biblatex convert.bib
printf '@phdthesis{p, school={S}, Journal="J", journaltitle={K}}\n' >thesis.bib
run 'a thesis of BibLaTeX' 0 $'@thesis{p, institution={S}, type={phdthesis}, Journal="J", journaltitle={K}}\n' convert --to biblatex thesis.bib
run_messages 'a name that is there' 0 $'thesis.bib:1:27: note: `Journal` is kept: the entry already has the field that would replace it\n' convert --to biblatex thesis.bib
printf '@misc{a,\n  year = {2020},\n  month = may,\n  title = {A},\n}\n@misc{b, year = 1999, month = {Fall}}\n' >months.bib
run 'a year and a month' 0 $'@misc{a,\n  date = {2020-05},\n  title = {A},\n}\n@misc{b, year = 1999, month = {Fall}}\n' convert --to biblatex months.bib
run_messages 'a month that stays' 0 $'months.bib:6:23: note: `month` is kept: it can\'t be joined with a year to a date\n' convert --to biblatex months.bib
printf '@string{JAN = {Winter}}\n@misc{a, date = {2020-01-05}}\n' >months.bib
run 'a month that the file defines' 0 $'@string{JAN = {Winter}}\n@misc{a, year = {2020}, month = {January}, day = {05}}\n' convert --to bibtex months.bib
printf '@misc{a,\r\n\tauthor = {A},\r\n\tdate   = {2020-05},\r\n}\r\n' >aligned.bib
run 'new fields on lines of their own, in one column' 0 $'@misc{a,\r\n\tauthor = {A},\r\n\tyear   = {2020},\r\n\tmonth  = may,\r\n}\r\n' convert --to bibtex aligned.bib
rm aligned.bib
run_messages 'a day of a date' 0 $'months.bib:2:10: note: `date` becomes several fields, but no standard style of BibTeX reads a day or a second date\n' convert --to bibtex months.bib
rm months.bib
for format in csl json; do
    : >input
    run "$format of nothing" 0 $'[]\n' convert --to $format
done
item='{"id":"a","title":"A","type":"document"}'
run 'items of a file with an error' 1 "[
$item
]
" convert --to csl broken.bib
run 'JSON of a file with an error' 1 '[
{"fields":{"title":{"chunks":[{"end":17,"kind":"normal","start":16,"text":"A"}]}},"key":"a","type":"misc"}
]
' convert --to json broken.bib
run 'RIS of nothing' 0 '' convert --to ris
cat >parents.bib <<'BIB'
@inproceedings{c, title={T}, crossref={p}, year=2020}
@misc{m, title={M}}
@proceedings{p, title={P}, address={Paris}, date={2019}, subtitle={Sub}}
BIB
inherited='{"container-title":"P: Sub","id":"c","issued":{"date-parts":[[2020]]},"publisher-place":"Paris","title":"T","type":"paper-conference"}'
run 'items with what BibLaTeX inherits' 0 "[
$inherited
]
" convert --to csl --where 'key = c' parents.bib
run 'records with what BibLaTeX inherits' 0 $'TY  - CPAPER\nTI  - T\nT2  - P: Sub\nBT  - P: Sub\nPY  - 2020\nCY  - Paris\nID  - c\nER  - \n\n' convert --to ris --where 'key = c' parents.bib
run 'items of entries that meet two conditions' 0 $'[\n{"id":"m","title":"M","type":"document"}\n]\n' convert --to csl --where 'not has year' --where 'title = M' parents.bib
run 'JSON of entries that meet a condition' 0 $'[\n{"fields":{"title":{"chunks":[{"end":71,"kind":"normal","start":70,"text":"M"}]}},"key":"m","type":"misc"}\n]\n' convert --to json --where 'type = misc' parents.bib
run 'no entry meets the condition' 1 $'[]\n' convert --to csl --where 'type = book' parents.bib
run_messages 'a condition for BibTeX' 2 $'bibkit: `--where` requires `--to csl`, `--to json` or `--to ris`\n' convert --to bibtex --where 'type = book' parents.bib
run_messages 'a condition that is none' 2 $'bibkit: --where `type`: expected `=` or `!=` at byte 4\n' convert --to csl --where type parents.bib
# several files are one database: the first entry with a key counts
printf '@misc{e, title={E}}\n' >other.bib
run 'a file with an error, and another' 1 "[
$item,
{\"id\":\"e\",\"title\":\"E\",\"type\":\"document\"}
]
" convert --to csl broken.bib other.bib
run_messages 'the error of a file is said' 1 $'broken.bib:3:1: error: c: expected comma [syntax]\n' convert --to csl broken.bib other.bib
run 'one key in two files' 1 "[
$item
]
" convert --to csl a.bib a.bib
run_messages 'one key in two files is said' 1 $'a.bib:1:1: error: duplicate key "a" [duplicate-key]\n' convert --to csl a.bib a.bib
printf '@string{jsl = {Journal of Symbolic Logic}}\n@proceedings{p, title={P}, year=2020}\n' >first.bib
printf '@article{x, title={X}, journal=jsl}\n@inproceedings{y, title={Y}, crossref={p}}\n' >second.bib
parent='{"id":"p","issued":{"date-parts":[[2020]]},"title":"P","type":"book"}'
article='{"container-title":"Journal of Symbolic Logic","id":"x","title":"X","type":"article-journal"}'
child='{"container-title":"P","id":"y","issued":{"date-parts":[[2020]]},"title":"Y","type":"paper-conference"}'
run 'definitions and references across files, as pandoc reads them' 0 "[
$parent,
$article,
$child
]
" convert --to csl first.bib second.bib
run 'a definition in a later file' 0 "[
$article,
$child,
$parent
]
" convert --to csl second.bib first.bib
run 'records across files' 0 $'TY  - CPAPER\nTI  - Y\nT2  - P\nBT  - P\nPY  - 2020\nID  - y\nER  - \n\n' convert --to ris --where 'key = y' first.bib second.bib
run 'objects have byte offsets of their own file, and none for a text from another file' 0 '[
{"fields":{"journal":{"chunks":[{"kind":"normal","text":"Journal of Symbolic Logic"}]},"title":{"chunks":[{"end":20,"kind":"normal","start":19,"text":"X"}]}},"key":"x","type":"article"}
]
' convert --to json --where 'type = article' first.bib second.bib
printf '@misc{x, title={Y} year=1}\n' >cut.bib
run 'objects whose key a cut entry of another file has' 1 '[
{"fields":{"journal":{"chunks":[{"kind":"normal","text":"Journal of Symbolic Logic"}]},"title":{"chunks":[{"end":20,"kind":"normal","start":19,"text":"X"}]}},"key":"x","type":"article"}
]
' convert --to json --where 'type = article' cut.bib first.bib second.bib
printf '@misc{u, title={U}, note={V\n' >open.bib
run 'an entry that never ends ends with its file' 1 "[
$item
]
" convert --to csl open.bib a.bib
run_messages 'the place of an error in its file' 1 $'open.bib:1:21: error: u: incomplete field; is a brace or a quote open? [syntax]\n' convert --to csl a.bib open.bib
cat >errors.bib <<'BIB'
@misc{b, title={B} year=2020}
@misc{a, title={A}, note={$x}}
@inproceedings{d, title={T}, crossref={p}}
@misc{c, title=nope}
@misc{c, title={Again}}
@proceedings{p, title={P}, year=2019, address={Paris}}
BIB
child='{"container-title":"P","id":"d","issued":{"date-parts":[[2019]]},"publisher-place":"Paris","title":"T","type":"paper-conference"}'
parent='{"id":"p","issued":{"date-parts":[[2019]]},"publisher-place":"Paris","title":"P","type":"book"}'
undefined='{"id":"c","title":"nope","type":"document"}'
run 'items of the entries that can be parsed' 1 "[
$item,
$child,
$undefined,
$parent
]
" convert --to csl errors.bib
run 'items of entries that can be parsed and meet a condition' 1 "[
$undefined
]
" convert --to csl --where 'key = c' --where 'title = nope' errors.bib
run 'records of the entries that can be parsed' 1 $'TY  - GEN\nTI  - nope\nID  - c\nER  - \n\n' convert --to ris --where 'key = c' errors.bib
run 'JSON has the byte offsets of the file' 1 '[
{"fields":{"title":{"chunks":[{"end":47,"kind":"normal","start":46,"text":"A"}]}},"key":"a","type":"misc"}
]
' convert --to json --where 'key = a' errors.bib
errors=syntax,unread-field,unknown-abbreviation,circular-abbreviation,duplicate-key,circular-reference,unread-date
"$program" lint --only $errors errors.bib | head -n -1 >lines
"$program" convert --to csl errors.bib >output 2>messages
holds 'convert reports the errors that lint reports' cmp messages lines
holds 'convert reports four errors' test "$(wc -l <messages)" = 4
run 'BibTeX of a file with errors' 1 '' convert --to bibtex errors.bib
run 'no entry that can be parsed' 1 $'[]\n' convert --to csl --where 'key = b' errors.bib
run 'a file that is not there, and another' 2 $'[\n{"id":"a","title":"A","type":"document"}\n]\n' convert --to csl nothing.bib a.bib
run 'BibTeX of a file with an error' 1 '' convert --to bibtex broken.bib
printf '@string{jan = {Winter}}\n' >winter.bib
printf '\xef\xbb\xbf@misc{a, date={2020-01}}\n' >dated.bib
printf '@misc{b, year=2020, month=jan}\n' >parted.bib
printf '@misc{c, date={2020-01-05}}\n' >day.bib
run 'a month that another file defines' 0 $'@string{jan = {Winter}}\n@misc{a, year={2020}, month={January}}\n' convert --to bibtex winter.bib dated.bib
run 'a month that a later file defines' 0 $'\xef\xbb\xbf@misc{a, year={2020}, month={January}}\n@string{jan = {Winter}}\n' convert --to bibtex dated.bib winter.bib
run 'a month that no file defines' 0 $'@misc{b, date={2020-01}}\n@misc{b, date={2020-01}}\n' convert --to biblatex parted.bib parted.bib
printf '%%' >comment-end.bib
run 'a line comment ends with its file' 0 $'@string{jan = {Winter}}\n%\n@misc{a, year={2020}, month={January}}\n' convert --to bibtex winter.bib comment-end.bib dated.bib
run 'nothing of several files is converted as one text' 1 '' convert --to bibtex winter.bib broken.bib dated.bib
run_messages 'the note on a file of several' 0 $'day.bib:1:10: note: `date` becomes several fields, but no standard style of BibTeX reads a day or a second date\n' convert --to bibtex winter.bib day.bib
printf '@misc{a, title=b}\n@misc{a, title={A}}\n' >abbreviated.bib
run_messages 'an abbreviation that is not defined' 1 $'abbreviated.bib:1:16: warning: unknown abbreviation "b" [unknown-abbreviation]\nabbreviated.bib:2:1: error: duplicate key "a" [duplicate-key]\n' convert --to csl abbreviated.bib
printf '@misc{a, title={\xe9}}\n' >latin.bib
run 'items of a file in Windows-1252' 0 $'[\n{"id":"a","title":"é","type":"document"}\n]\n' convert --to csl latin.bib
run 'BibTeX of a file in Windows-1252' 2 '' convert --to bibtex latin.bib
# all kinds of values of JSON, by the schema
cat >values.bib <<'BIB'
@book{b, author = {family=Cruz, given=Maria, prefix=de la, useprefix=true}, date = {-0044-03-15T10:00:00Z/2001?}, pages = {1--3, 7},
  volume = 2, edition = {Second}, keywords = {x, y}, langid = {english}, pagination = {page}, title = {$x$ {Y} z}, editor = {{A B}}, editortype = {compiler},
  eventdate = {2001/..}, urldate = {../2002}, origdate = {199X}}
@misc{c, crossref = {b}, author = {A and B}, date = {nothing}}
@misc{d, year = 2020, month = may, day = 7}
@misc{e, year = {2020}, month = {Sept 3}}
@misc{f, year = {in press}, month = 5}
BIB
is_by_schema() {
    python3 -W ignore -c 'import json, sys, jsonschema; jsonschema.validate(json.load(open("output")), json.load(open(sys.argv[1])))' "$schema" 2>/dev/null
}
if python3 -W ignore -c 'import jsonschema' 2>/dev/null; then
    "$program" convert --to json values.bib convert.bib a.bib >output
    holds 'JSON is as the schema says' is_by_schema
    printf '[{"key": "a", "type": "misc", "fields": {"title": {"chunks": [{"kind": "bold", "text": "A"}]}}}]' >output
    is_by_schema
    holds 'the schema refuses another kind of chunk' [ $? != 0 ]
else
    lacks 'jsonschema for python3'
fi

# items of CSL-JSON
cat >items.json <<'JSON'
[
  {"id": "a b", "type": "book", "title": "A <i>b</i>", "author": [{"family": "Doe", "given": "J."}, {"literal": "Foo, Inc."}],
   "issued": {"date-parts": [[2020, 5], [2021]]}, "page": "1-9", "medium": "CD"},
  {"id": "c", "type": "thesis", "publisher": "U", "genre": "PhD thesis"}
]
JSON
run 'entries of items' 0 $'@book{a_b,\n  title = {A \\emph{b}},\n  author = {Doe, J. and {Foo, Inc.}},\n  date = {2020-05/2021},\n  pages = {1--9},\n}\n\n@thesis{c,\n  institution = {U},\n  type = {PhD thesis},\n}\n' convert --from csl --to biblatex items.json
printf '[{"id":"c","type":"thesis","publisher":"U"}]' >thesis.json
run 'entries of BibTeX' 0 $'@phdthesis{c,\n  school = {U},\n}\n' convert --from csl --to bibtex thesis.json
run_messages 'what no field has' 0 $'items.json: note: `a b`: `id` is changed: its field reads back as another value\nitems.json: note: `a b`: `medium` is left out: no field for it\n' convert --from csl --to biblatex items.json
printf '[\n  {"id": "a", "type": "book"},\n  {"type": "book"}\n]\n' >noid.json
run_messages 'an item without an id' 1 $'noid.json:3:3: error: expected a text or a number as the `citation-key`, the `id` or the `DOI` of the item\n' convert --from csl --to biblatex noid.json
printf '[\n  {"id": "a",}\n]\n' >nojson.json
run_messages 'a file that is no JSON' 1 $'nojson.json:2:14: error: expected JSON\n' convert --from csl --to biblatex nojson.json
run_messages 'items that go nowhere' 2 $'bibkit: `--from csl` requires `--to biblatex` or `--to bibtex`\n' convert --from csl --to ris items.json
printf '[{"id":"a","type":"document"}]' >one.json
run 'a file that is not there, and items' 2 $'@misc{a,\n}\n' convert --from csl --to biblatex nothing.json one.json
printf '[]' >noitems.json
run 'no items' 0 '' convert --from csl --to biblatex noitems.json
run_messages 'no items: it says so' 0 $'noitems.json: note: no items\n' convert --from csl --to biblatex noitems.json
# the JSON of --to json
printf '@book{k, author = {Knuth, Donald E.}, title = {The {TeX}book}, url = {https://a.b/c}, note = {$x_1$ and {Y}}, year = 1984}\n@misc{m, ids = {n, o}, crossref = {k}}\n' >known.bib
"$program" convert --to json known.bib >known.json
"$program" convert --to json --where 'key = k' known.bib >book.json
run 'entries of JSON' 0 $'@book{k,\n  author = {Knuth, Donald E.},\n  note = {$x_1$ and {Y}},\n  title = {The {TeX}book},\n  url = {https://a.b/c},\n  year = {1984},\n}\n' convert --from json --to biblatex book.json
"$program" convert --from json --to biblatex known.json >again.bib
"$program" convert --to json again.bib >output
"$program" convert --from json --to biblatex output >twice.bib
holds 'entries of JSON stay the same' cmp again.bib twice.bib
printf '{"type":"misc","key":"a","fields":{"title":{"chunks":[{"kind":"normal","text":"A  B"}]}}}' >spaces.json
run_messages 'a text that would be parsed as another one' 1 $'spaces.json:1:1: error: `a`: `title`: the written field would be parsed as another text\n' convert --from json --to biblatex spaces.json
printf '[{"type":"misc","key":"a","fields":{}},\n {"type":"misc","key":"a","fields":{}}]' >twins.json
run_messages 'two entries of JSON with one key' 1 $'twins.json:2:2: error: `a`: an earlier entry has this key, or has it in `ids`\n' convert --from json --to biblatex twins.json
printf '[{"type":"misc","key":"a","fields":{},"note":1}]' >member.json
run_messages 'an unknown member' 1 $'member.json:1:2: error: `a`: expected one `type`, one `key`, one `fields`, one `date` or none, and no other member\n' convert --from json --to bibtex member.json
run_messages 'objects that go nowhere' 2 $'bibkit: `--from json` requires `--to biblatex` or `--to bibtex`\n' convert --from json --to csl member.json
# without --from, the ending of a name decides
run 'a file of items by its ending' 0 $'@thesis{c,\n  institution = {U},\n}\n' convert --to biblatex thesis.json
run 'a file of entries in spite of its ending' 0 '[{"id":"c","type":"thesis","publisher":"U"}]' convert --from bib --to biblatex thesis.json
run_messages 'no entry: it says so' 0 $'thesis.json: note: no entry\n' convert --from bib --to biblatex thesis.json
run_messages 'files of both kinds' 2 $'bibkit: files that end in `.json` or `.ris` can\'t be converted together with others\n' convert --to biblatex thesis.json a.bib
printf 'Only a text.\n' >text.bib
run_messages 'no entry to print' 0 $'bibkit: note: no entry to print\n' convert --to csl text.bib
# records of RIS
printf 'TY  - JOUR\r\nAU  - Knuth, Donald E.\r\nTI  - Literate Programming\r\nJO  - The Computer Journal\r\nPY  - 1984\r\nSP  - 97\r\nEP  - 111\r\nC1  - 12\r\nID  - k\r\nER  - \r\n' >paper.ris
ris_entry=$'@article{k,\n  author = {Knuth, Donald E.},\n  title = {Literate {Programming}},\n  journaltitle = {The Computer Journal},\n  date = {1984},\n  pages = {97--111},\n}\n'
run 'entries of records' 0 "$ris_entry" convert --from ris --to biblatex paper.ris
run 'a file of records by its ending' 0 "$ris_entry" convert --to biblatex paper.ris
run_messages 'a line that no field has' 0 $'paper.ris: note: `k`: `C1` is left out: no field for it\n' convert --to biblatex paper.ris
run 'records as entries of BibTeX' 0 $'@article{k,\n  author = {Knuth, Donald E.},\n  title = {Literate {Programming}},\n  journal = {The Computer Journal},\n  year = {1984},\n  pages = {97--111},\n}\n' convert --to bibtex paper.ris
run_messages 'no record' 1 $'bibkit: thesis.json: expected a record, which begins with a line `TY  - TYPE`\n' convert --from ris --to biblatex thesis.json
printf 'TY  - BOOK\nID  - k\nER  - \nTY  - BOOK\nID  - k\nER  - \n' >twice.ris
run_messages 'two records with one key' 1 $'bibkit: twice.ris: the record with the index 1 has the key of an earlier one\n' convert --to biblatex twice.ris
printf 'Exported today\nTY  - BOOK\nID  - k\nER  - \n' >outside.ris
run_messages 'a line outside of records' 0 $'outside.ris: note: outside of records: `Exported today` is left out: no field for it\n' convert --to biblatex outside.ris
run_messages 'records that go nowhere' 2 $'bibkit: `--from ris` requires `--to biblatex` or `--to bibtex`\n' convert --from ris --to csl paper.ris
# one item, as doi.org returns it
printf '{"score":1,"DOI":"10.1/x","type":"article-journal","title":"T","source":"Crossref","member":"2","ISSN":["1745-2473","1745-2481"]}' >doi.json
run 'one item from doi.org' 0 $'@article{10.1/x,\n  doi = {10.1/x},\n  title = {T},\n  issn = {1745-2473, 1745-2481},\n}\n' convert --to biblatex doi.json
run_messages 'what it lacks, in one line' 0 $'doi.json: note: `10.1/x`: `score`, `source`, `member` are left out: no fields for them\n' convert --to biblatex doi.json

run 'no format' 2 '' convert a.bib
run 'a wrong format' 2 '' convert --to xml a.bib
if [ -e /dev/full ]; then
    "$program" convert --to csl a.bib >/dev/full 2>messages
    holds 'items that can not be written' [ $? = 2 ]
    holds 'items that can not be written: what is said' messages_have "bibkit: the output can't be written"
fi

# resolve
cat >resolve.bib <<'BIB'
% parents stand anywhere
@proceedings{p, title = {T \foo{U}}, year = 1999, publisher = acm # " x", editor = {E}}
@string{acm = {ACM}}
@inproceedings{c,
  author = {A},
  crossref = {p},
  title = {C}
}
@misc{m, xdata={x}} text
@xdata{x, organization={O}}
BIB
resolved=$'% parents stand anywhere
@proceedings{p, title = {T \\foo{U}}, year = 1999, publisher = acm # " x", editor = {E}}
@string{acm = {ACM}}
@inproceedings{c,
  author = {A},
  booktitle = {T \\foo{U}},
  year = 1999,
  publisher = acm # " x",
  editor = {E},
  title = {C}
}
@misc{m, organization = {O}} text
@xdata{x, organization={O}}
'
run 'inherited fields' 0 "$resolved" resolve resolve.bib
cp resolve.bib input
run 'inherited fields of standard input' 0 "$resolved" resolve
run 'inherited fields of two files' 0 "$resolved"$'@misc{a, title={A}}\n' resolve resolve.bib a.bib
: >input
run 'inherited fields of nothing' 0 '' resolve
run 'no inherited field' 0 "$(cat two.bib)"$'\n' resolve two.bib
run 'the difference of inherited fields' 0 $'--- resolve.bib
+++ resolve.bib
@@ -3,8 +3,11 @@
 @string{acm = {ACM}}
 @inproceedings{c,
   author = {A},
-  crossref = {p},
+  booktitle = {T \\foo{U}},
+  year = 1999,
+  publisher = acm # " x",
+  editor = {E},
   title = {C}
 }
-@misc{m, xdata={x}} text
+@misc{m, organization = {O}} text
 @xdata{x, organization={O}}
' resolve --diff resolve.bib
run 'no difference of inherited fields' 0 '' resolve --diff two.bib
cp resolve.bib resolving.bib
run 'inherited fields are written' 0 '' resolve --write resolving.bib
holds 'the file has the inherited fields' eval 'printf %s "$resolved" | cmp -s - resolving.bib'
run 'inherited fields are written again' 0 '' resolve --write resolving.bib two.bib
holds 'the file has the inherited fields still' eval 'printf %s "$resolved" | cmp -s - resolving.bib'
run_messages 'inherited fields are not written into standard input' 2 $'bibkit: `--write` needs the name of a file\n' resolve --write
printf '\xef\xbb\xbf@misc{a, xdata={b}}\r\n@xdata{b, type={T}}\r\n' >resolve-mark.bib
run 'inherited fields after a byte order mark' 0 $'\xef\xbb\xbf@misc{a, type = {T}}\r\n@xdata{b, type={T}}\r\n' resolve resolve-mark.bib
printf '@misc{a, title={A}}\n@misc{b, crossref={c}}\n@misc{c, crossref={b}}\n' >circle.bib
run 'entries that refer to themselves are not resolved' 1 '' resolve circle.bib
run_messages 'the first entry that refers to itself' 1 $'circle.bib:2:7: error: entry `b` inherits from itself [circular-reference]\n' resolve circle.bib
printf '@misc{a, title={A}}\n@misc{a, title={B}}\n' >twice.bib
run 'a key that stands twice' 0 "$(cat twice.bib)"$'\n' resolve twice.bib
printf '@book{a, crossref={b}}\n@mvbook{b, year={soon}}\n' >undated.bib
run 'an inherited year that is no number' 0 $'@book{a, year = {soon}}\n@mvbook{b, year={soon}}\n' resolve undated.bib
printf '@misc{a, xdata={b}}\n@xdata{b, note=unknown # {!}}\n' >unknown.bib
run 'an inherited abbreviation that the file does not explain' 0 $'@misc{a, note = unknown # {!}}\n@xdata{b, note=unknown # {!}}\n' resolve unknown.bib
refuses 'inherited fields of a file with an error' 1 $'broken.bib:3:1: error: expected comma [syntax]\n' resolve broken.bib
run 'a file with an error, and one that is resolved' 1 "$resolved" resolve broken.bib resolve.bib
run 'a file that is not there, and one that is resolved' 2 "$resolved" resolve nothing.bib resolve.bib
cp circle.bib circular.bib
run 'a circle is not written' 1 '' resolve --write circular.bib
holds 'a file that is refused stays' cmp -s circle.bib circular.bib
cat >uninherited.bib <<'BIB'
@proceedings{p, title={T}, shorttitle={S}, label={L}, publisher={P}, ids={q}}
@inproceedings{c,
  title={C},
  crossref={p},
}
@misc{m, xdata={x, y}, title={M}, label={own}, crossref={p}}
@xdata{x, options={useprefix=true}, organization={O}}
@xdata{y, note+an={=z}, note={N}}
@misc{k, crossref={none}, xdata={x, none}, title={K}}
BIB
uninherited=$'uninherited.bib:4:3: note: entry `c` doesn\'t inherit `shorttitle`, `label` of `p`
uninherited.bib:6:10: note: entry `m` doesn\'t inherit `options` of `x`
uninherited.bib:6:10: note: entry `m` doesn\'t inherit `note+an` of `y`
'
run 'inherited fields with notes' 0 "$resolved" resolve --not-inherited resolve.bib
run_messages 'no note on fields that entries inherit' 0 '' resolve --not-inherited resolve.bib
run_messages 'fields that entries do not inherit are reported' 0 "$uninherited" resolve --not-inherited uninherited.bib
run_messages 'without the option no field is reported' 0 '' resolve uninherited.bib
run_messages 'fields of two files are reported' 0 "$uninherited$uninherited" resolve --not-inherited uninherited.bib resolve.bib uninherited.bib
run_messages 'fields are reported beside a diff' 0 "$uninherited" resolve --diff --not-inherited uninherited.bib
cp uninherited.bib uninheriting.bib
run_messages 'fields are reported when the file is written' 0 "${uninherited//uninherited.bib/uninheriting.bib}" resolve --not-inherited --write uninheriting.bib
run_messages 'a file that is resolved has no references to report' 0 '' resolve --not-inherited uninheriting.bib
printf '\xef\xbb\xbf@misc{c, crossref={p}, title={C}}\r\n@misc{p, label={L}}\r\n' >uninherited-mark.bib
run_messages 'fields are reported after a byte order mark' 0 $'uninherited-mark.bib:1:10: note: entry `c` doesn\'t inherit `label` of `p`\n' resolve --not-inherited uninherited-mark.bib
cp uninherited.bib input
run_messages 'fields of standard input are reported' 0 "${uninherited//uninherited.bib/-}" resolve --not-inherited
: >input
run_messages 'a refused file has no notes' 1 $'circle.bib:2:7: error: entry `b` inherits from itself [circular-reference]\n' resolve --not-inherited circle.bib
printf '@misc{c, crossref={p}, title={\xff}}\n@misc{p, label={L}}\n' >uninherited-bytes.bib
run 'a file with other bytes has no notes' 2 '' resolve --not-inherited uninherited-bytes.bib

# diff
printf '@misc{a, title={A}, author={B}}\n\n@misc{b, title={x y}, author={Knuth, D.}, year={1984}}\n' >diff1.bib
printf '@misc{a, author={B}, TITLE="A2"}\n\n@misc{c, title = "x  y", author={Knuth, D.}, year=1984}\n' >diff2.bib
printf '@misc{a, title={A}, author={B}}\n\n@misc{b, title={x y} author={Knuth, D.}, year={1984}}\n' >diff3.bib
printf '@misc{a,\n  author = {B},\n  title = {A},\n}\n\n@misc{b, title={x\ny}, author={Knuth, D.}, year={1984}}\n' >diff4.bib
printf '@misc{b, title={x y}, author={Knuth, D.}, year={1984}}\n\n@misc{a, title={A}, author={B}}\n' >diff5.bib
changes=$'  changed  a  TITLE: {A} -> {A2}\n  renamed  b -> c\n'
run 'changes of a file' 1 $'diff2.bib\n'"$changes" diff diff1.bib diff2.bib
cp diff1.bib input
run 'changes from standard input' 1 $'diff2.bib\n'"$changes" diff - diff2.bib
run 'no changes' 0 '' diff diff1.bib diff1.bib
run 'changes of the layout only' 0 $'diff4.bib\n  layout   of 2 units\n' diff diff1.bib diff4.bib
run 'another order' 1 $'diff5.bib\n  changed  the order of the entries\n' diff diff1.bib diff5.bib
run 'changes as JSON' 1 $'[\n{"change":"field-set","kind":"entry","name":"a","line":1,"field":"TITLE","old":"{A}","new":"{A2}"},\n{"change":"renamed","kind":"entry","name":"c","line":3,"old":"b","new":"c"}\n]\n' \
    diff --format json diff1.bib diff2.bib
run 'no changes as JSON' 0 $'[\n]\n' diff --format json diff1.bib diff1.bib
run 'changes for git' 0 $'refs.bib\n'"$changes" diff --git refs.bib diff1.bib 0123456 100644 diff2.bib 89abcde 100644
run 'a renamed file for git' 0 $'refs.bib\n'"$changes" diff --git refs.bib diff1.bib 0123456 100644 diff2.bib 89abcde 100644 new.bib $'similarity index 90%\n'
run 'a new file for git' 0 $'new.bib\n  added    a  (@misc, 2 fields)\n  added    b  (@misc, 3 fields)\n' diff --git new.bib /dev/null . . diff1.bib 0123456 100644
run 'a removed file for git' 0 $'old.bib\n  removed  a  (@misc, 2 fields)\n  removed  b  (@misc, 3 fields)\n' diff --git old.bib diff1.bib 0123456 100644 /dev/null . .
run 'an unmerged file for git' 0 $'* Unmerged path refs.bib\n' diff --git refs.bib
run 'a version with a syntax error for git' 0 $'--- refs.bib\n+++ refs.bib\n@@ -1,3 +1,3 @@\n @misc{a, title={A}, author={B}}\n \n-@misc{b, title={x y}, author={Knuth, D.}, year={1984}}\n+@misc{b, title={x y} author={Knuth, D.}, year={1984}}\n' \
    diff --git refs.bib diff1.bib 0123456 100644 diff3.bib 89abcde 100644
run 'too few arguments of git' 2 '' diff --git refs.bib diff1.bib diff2.bib
run 'a version with a syntax error: nothing is printed' 2 '' diff diff1.bib diff3.bib
run_messages 'a version with a syntax error' 2 $'diff3.bib:3:22: error: expected comma [syntax]\n' diff diff1.bib diff3.bib
run_messages 'a version that is not there' 2 $'bibkit: nothing.bib: there is no such file\n' diff diff1.bib nothing.bib
run_messages 'one version' 2 $'bibkit: `diff` requires two files, one of which may be `-`\n' diff diff1.bib
run_messages 'standard input twice' 2 $'bibkit: `diff` requires two files, one of which may be `-`\n' diff - -

# merge
printf '@misc{a, title={A}, year=2001}\n\n@misc{b, title={B}}\n' >merge0.bib
printf '@misc{a, title={A1}, year=2001}\n\n@misc{b, title={B}}\n\n@misc{c, title={C}}\n' >merge1.bib
printf '@misc{a, title={A}, year=2002}\n\n@misc{b, title={B}}\n\n@misc{d, title={D}}\n' >merge2.bib
merged=$'@misc{a, title={A1}, year=2002}\n\n@misc{b, title={B}}\n\n@misc{c, title={C}}\n\n@misc{d, title={D}}\n'
run 'changes of both sides' 0 "$merged" merge merge0.bib merge1.bib merge2.bib
run_messages 'changes of both sides: no message' 0 '' merge merge0.bib merge1.bib merge2.bib
run 'an unchanged side' 0 "$(cat merge1.bib)"$'\n' merge merge0.bib merge1.bib merge0.bib
run 'the same change on both sides' 0 "$(cat merge2.bib)"$'\n' merge merge0.bib merge2.bib merge2.bib
cp merge0.bib input
run 'the base from standard input' 0 "$merged" merge - merge1.bib merge2.bib
cp merge1.bib input
run 'our version from standard input' 0 "$merged" merge merge0.bib - merge2.bib
: >input
cp merge1.bib written.bib
run 'a merge that is written' 0 '' merge --write merge0.bib written.bib merge2.bib
holds 'the merge is in the file of our version' has written.bib "$merged"

printf '@misc{a,\n  title = {A},\n  year = 2001,\n  note = {n},\n}\n' >field0.bib
sed 's/2001/2002/; s/{n}/{N}/' field0.bib >field1.bib
sed 's/2001/2003/' field0.bib >field2.bib
conflict=$'@misc{a,\n  title = {A},\n<<<<<<< ours\n  year = 2002,\n=======\n  year = 2003,\n>>>>>>> theirs\n  note = {N},\n}\n'
run 'a field that both sides changed' 1 "$conflict" merge field0.bib field1.bib field2.bib
run_messages 'a field that both sides changed: the message' 1 $'field1.bib:3: a: year: changed by both sides\n' merge field0.bib field1.bib field2.bib
run_messages 'the name of the file in messages' 1 $'refs.bib:3: a: year: changed by both sides\n' merge --path refs.bib field0.bib field1.bib field2.bib
cp field1.bib written.bib
run 'a conflict that is written' 1 '' merge --write field0.bib written.bib field2.bib
holds 'the markers are in the file of our version' has written.bib "$conflict"
run 'markers of nine signs' 1 $'@misc{a,\n  title = {A},\n<<<<<<<<< ours\n  year = 2002,\n=========\n  year = 2003,\n>>>>>>>>> theirs\n  note = {N},\n}\n' \
    merge --marker-size 9 field0.bib field1.bib field2.bib
for size in 0 1001 x; do
    run "markers of $size signs" 2 '' merge --marker-size $size field0.bib field1.bib field2.bib
done
sed 's/2001/2003/; s/{A}/{A3}/' field0.bib >field3.bib
sed 's/{A}/{A1}/' field1.bib >field4.bib
run_messages 'two fields that both sides changed' 1 $'field4.bib:2: a: title, year: changed by both sides\n' merge field0.bib field4.bib field3.bib
printf '@misc{a,\n    title = {A},\n    year = 2001,\n    note = {n},\n}\n' >field5.bib
laid_out=$'@misc{a,\n    title = {A},\n    year = 2003,\n    note = {n},\n}\n'
run 'our layout and their field' 0 "$laid_out" merge field0.bib field5.bib field2.bib
run 'their layout and our field' 0 "$laid_out" merge field0.bib field2.bib field5.bib
printf '@misc{a,\n  title = {A},\n  year = 2001,\n  timestamp = {2016.05.01},\n}\n' >time0.bib
sed 's/{A}/{A1}/; s/05.01/05.03/' time0.bib >time1.bib
sed 's/2001/2002/; s/05.01/05.02/' time0.bib >time2.bib
timed=$'@misc{a,\n  title = {A1},\n  year = 2002,\n  timestamp = {2016.05.03},\n}\n'
run 'two modification times: ours is later' 0 "$timed" merge time0.bib time1.bib time2.bib
run 'two modification times: theirs is later' 0 "$timed" merge time0.bib time2.bib time1.bib

printf '@misc{a, title={A}, year=2001}\n' >merge3.bib
printf '@misc{a, title={A}, year=2001}\n\n@misc{b, title={B2}}\n' >merge4.bib
run 'removed by ours, changed by theirs' 1 $'@misc{a, title={A}, year=2001}\n\n<<<<<<< ours\n=======\n@misc{b, title={B2}}\n>>>>>>> theirs\n' \
    merge merge0.bib merge3.bib merge4.bib
run_messages 'removed by ours, changed by theirs: the message' 1 $'merge3.bib:3: b: removed by ours, changed by theirs\n' merge merge0.bib merge3.bib merge4.bib
run 'changed by ours, removed by theirs' 1 $'@misc{a, title={A}, year=2001}\n\n<<<<<<< ours\n@misc{b, title={B2}}\n=======\n>>>>>>> theirs\n' \
    merge merge0.bib merge4.bib merge3.bib
run_messages 'changed by ours, removed by theirs: the message' 1 $'merge4.bib:3: b: changed by ours, removed by theirs\n' merge merge0.bib merge4.bib merge3.bib
run 'removed by both sides' 0 "$(cat merge3.bib)"$'\n' merge merge0.bib merge3.bib merge3.bib
printf '@misc{a, title={A}, year=2001}\n\n@misc{b, title={B}}\n\n@misc{c, title={C2}}\n' >merge5.bib
run 'added by both sides' 1 $'@misc{a, title={A1}, year=2001}\n\n@misc{b, title={B}}\n\n<<<<<<< ours\n@misc{c, title={C}}\n=======\n@misc{c, title={C2}}\n>>>>>>> theirs\n' \
    merge merge0.bib merge1.bib merge5.bib
run_messages 'added by both sides: the message' 1 $'merge1.bib:5: c: title: added by both sides\n' merge merge0.bib merge1.bib merge5.bib
printf '@book{a, title={A}, year=2001}\n' >type1.bib
printf '@report{a, title={A}, year=2002}\n' >type2.bib
run 'two new types' 1 $'<<<<<<< ours\n@book{a, title={A}, year=2001}\n=======\n@report{a, title={A}, year=2002}\n>>>>>>> theirs\n' \
    merge merge3.bib type1.bib type2.bib
run_messages 'two new types: the message' 1 $'type1.bib:1: a: changed by both sides\n' merge merge3.bib type1.bib type2.bib
printf '@book{a, title={A}, year=2001, note={n}}\n' >type3.bib
printf '@misc{a, title={A}, year=2001, note={n}}\n' >note.bib
run 'a new type and a new field' 0 "$(cat type3.bib)"$'\n' merge merge3.bib type1.bib note.bib
for number in 1 2 3; do
    printf '@string{s = {x%s}}\n' $number >string$number.bib
    printf '@misc{a, title={A}, title={B%s}, year=2001}\n' $number >twice$number.bib
done
run_messages 'a definition that both sides changed' 1 $'string2.bib:1: @string s: changed by both sides\n' merge string1.bib string2.bib string3.bib
run_messages 'an entry with a field twice' 1 $'twice2.bib:1: a: changed by both sides\n' merge twice1.bib twice2.bib twice3.bib
printf '@misc{k, title={A}, year=2001}\n' >key.bib
run 'a new key and a changed field' 0 $'@report{k, title={A}, year=2002}\n' merge merge3.bib key.bib type2.bib
printf '@string{s = {x}}\n\n@misc{a, title={A}}\n' >lost0.bib
printf '@misc{a, title={A}}\n' >lost1.bib
printf '@string{s = {x}}\n\n@misc{a, title={A}}\n\n@misc{b, title=S}\n' >lost2.bib
run_messages 'a removed definition that theirs uses' 1 $'lost1.bib:1: @string s: removed by ours, but used\n' merge lost0.bib lost1.bib lost2.bib
run_messages 'a removed definition that ours uses' 1 $'lost2.bib:1: @string s: removed by theirs, but used\n' merge lost0.bib lost2.bib lost1.bib

printf '@misc{a, title={A}}\n\n@misc{b, title={B}}\n\n@misc{c, title={C}}\n' >order0.bib
printf '@misc{b, title={B}}\n\n@misc{a, title={A}}\n\n@misc{c, title={C}}\n' >order1.bib
printf '@misc{a, title={A}}\n\n@misc{c, title={C}}\n\n@misc{b, title={B}}\n' >order2.bib
run 'their order' 0 "$(cat order2.bib)"$'\n' merge order0.bib order0.bib order2.bib
run 'two orders: that of ours' 0 "$(cat order1.bib)"$'\n' merge order0.bib order1.bib order2.bib
run_messages 'two orders: a note' 0 $'order1.bib: note: both sides changed the order of the entries; the order is that of ours\n' merge order0.bib order1.bib order2.bib

for name in field0 field1 field2 merge0 merge1 merge2; do
    sed 's/$/\r/' $name.bib >crlf-$name.bib
done
run 'CR LF' 0 "${merged//$'\n'/$'\r\n'}" merge crlf-merge0.bib crlf-merge1.bib crlf-merge2.bib
run 'a conflict with CR LF' 1 "${conflict//$'\n'/$'\r\n'}" merge crlf-field0.bib crlf-field1.bib crlf-field2.bib
run_messages 'a conflict with CR LF: the message' 1 $'crlf-field1.bib:3: a: year: changed by both sides\n' merge crlf-field0.bib crlf-field1.bib crlf-field2.bib
{ printf '\xef\xbb\xbf'; cat merge1.bib; } >mark.bib
{ printf '\xef\xbb\xbf'; cat merge0.bib; } >mark0.bib
run 'a byte order mark of ours stays' 0 $'\xef\xbb\xbf'"$merged" merge merge0.bib mark.bib merge2.bib
run 'a byte order mark of theirs does not count' 0 "$(cat merge0.bib)"$'\n' merge merge0.bib merge0.bib mark0.bib

printf '@misc{a, title={\xff}}\n' >merge-bytes.bib
printf '@misc{a, title={A} year=2001}\n' >merge-syntax.bib
printf '@misc{a, title={A}}\n<<<<<<< HEAD\n=======\n>>>>>>> other\n' >merge-marker.bib
printf '@misc{a, title={A}}\n<<<<<<< HEAD\n' >merge-first.bib
printf '@misc{a, title={A}}\n>>>>>>> other\n' >merge-last.bib
printf '@misc{a, title={A}}\n<<<<<<<<< ours\n=========\n>>>>>>>>> theirs\n' >merge-markers.bib
for name in bytes syntax marker first last; do
    run "a refused version ($name): nothing is printed" 2 '' merge merge0.bib merge1.bib merge-$name.bib
    cp merge-$name.bib written.bib
    run "a refused version ($name): nothing is written" 2 '' merge --write merge0.bib written.bib merge2.bib
    holds "a refused version ($name): the file is unchanged" cmp -s written.bib merge-$name.bib
done
run_messages 'a version with other bytes' 2 $'bibkit: merge-bytes.bib: not UTF-8 from byte 16 on\n' merge merge0.bib merge1.bib merge-bytes.bib
run_messages 'a base with other bytes' 2 $'bibkit: refs.bib (base): not UTF-8 from byte 16 on\n' merge --path refs.bib merge-bytes.bib merge1.bib merge2.bib
run_messages 'their version with a syntax error' 2 $'merge-syntax.bib:1:20: error: expected comma [syntax]\n' merge merge0.bib merge1.bib merge-syntax.bib
run_messages 'our version with a syntax error' 2 $'refs.bib (ours):1:20: error: expected comma [syntax]\n' merge --path refs.bib merge0.bib merge-syntax.bib merge2.bib
run_messages 'a version with a marker line' 2 $'merge-marker.bib:2:1: error: conflict marker; resolve this conflict first\n' merge merge0.bib merge1.bib merge-marker.bib
run_messages 'a version with a marker line of nine signs' 2 $'merge-markers.bib:2:1: error: conflict marker; resolve this conflict first\n' merge --marker-size 9 merge0.bib merge1.bib merge-markers.bib
run_messages 'a missing version' 2 $'bibkit: nothing.bib: there is no such file\n' merge merge0.bib merge1.bib nothing.bib
for words in '' 'merge0.bib' 'merge0.bib merge1.bib' 'merge0.bib merge1.bib merge2.bib merge3.bib'; do
    run_messages "three files are required: $words" 2 $'bibkit: `merge` requires three files: the base, our version and their version\n' merge $words
done
run_messages 'standard input twice: the base and ours' 2 $'bibkit: `merge` can read only one version from standard input\n' merge - - merge2.bib
run_messages 'standard input twice: the base and theirs' 2 $'bibkit: `merge` can read only one version from standard input\n' merge - merge1.bib -
run_messages '--write requires a file' 2 $'bibkit: `merge --write` requires the name of a file with our version\n' merge --write merge0.bib - merge2.bib

"$program" merge --install >install.sh
install=$(cat <<'SH'
grep -qs '^[*].bib merge=bibkit' .gitattributes || {
  test -z "$(tail -c 1 .gitattributes 2>/dev/null)" || echo >> .gitattributes
  echo '*.bib merge=bibkit diff=bibtex' >> .gitattributes
}
git config merge.bibkit.name 'bibkit merge'
git config merge.bibkit.recursive binary
git config merge.bibkit.driver 'bibkit merge --write --path=%P --marker-size %L %O %A %B || { test $? -eq 1 && exit 1; git merge-file --marker-size=%L -L ours -L base -L theirs %A %O %B; }'
SH
)
run 'the commands for git are printed without files' 0 "$install"$'\n' merge --install
if command -v git >/dev/null; then
    mkdir installed
    (cd installed && git init -q && sh -e ../install.sh && sh -e ../install.sh)
    holds 'the line for git occurs once' has installed/.gitattributes $'*.bib merge=bibkit diff=bibtex\n'
    holds 'git knows the driver' grep -q 'driver = "bibkit merge --write --path=%P' installed/.git/config
    printf '*.txt text' >installed/.gitattributes
    (cd installed && sh -e ../install.sh)
    holds 'a last line without a line feed is kept' has installed/.gitattributes $'*.txt text\n*.bib merge=bibkit diff=bibtex\n'
    holds 'the merges of git' python3 "$tests/git.py" "$program"
else
    skip git 4
fi

# select
cat >select.bib <<'BIB'
@book{knuth1984, author={Knuth, Donald E.}, title={The TeXbook}, year=1984}
@article{church1936, author={Church, Alonzo}, title={A Note}, journaltitle={JSL}, date={1936-03}, doi={10/x}}
@misc{n, title={No Year}}
BIB
church='@article{church1936, author={Church, Alonzo}, title={A Note}, journaltitle={JSL}, date={1936-03}, doi={10/x}}'
run 'the entries that meet a condition' 0 "$church"$'\n' select --where 'type = article' select.bib
run 'their keys' 0 $'knuth1984\n' select --keys --where 'year >= 1950' select.bib
run 'entries meet all conditions' 1 '' select --where 'type = book' --where 'has doi' select.bib
cat >uses.bib <<'BIB'
@misc{n, title={N}}
@inproceedings{c, title={T}, crossref={p}, publisher=acm}
@proceedings{p, title={P}}
@string{acm = {ACM}}
BIB
run 'what they use is printed, too' 0 $'@string{acm = {ACM}}\n@inproceedings{c, title={T}, crossref={p}, publisher=acm}\n@proceedings{p, title={P}}\n' \
    select --complete --where 'has publisher' uses.bib
run 'keys of entries and of those that they use' 0 $'c\np\n' select --complete --keys --where 'key = c' uses.bib
printf '@preamble{"x"}\n@misc{a, title={T}}\n' >before.bib
run 'nothing that no entry uses' 1 '' select --complete --where 'key = b' before.bib
run 'without a condition, all keys' 0 $'knuth1984\nchurch1936\nn\n' select --keys select.bib
run 'keys by a regular expression' 0 $'knuth1984\n' select --keys --where 'author ~ "^Knuth"' select.bib
run 'keys by alternatives' 0 $'knuth1984\nn\n' select --keys --where 'author contains Knuth or not has author' select.bib
cp select.bib input
run 'selected entries of standard input' 0 "$church"$'\n' select --where 'has doi'
run 'selected keys of two files' 0 $'church1936\nb\n' select --keys --where 'has doi or key = b' select.bib two.bib
run 'selected keys of a file with an error' 1 $'a\n' select --keys --where 'has title' broken.bib
run_messages 'a condition that ends too early' 2 $'bibkit: --where `year >`: expected a year at byte 6\n' select --where 'year >' select.bib
run 'a condition that ends too early: nothing is printed' 2 '' select --where 'year >' select.bib
run 'a file that is not there, and selected keys' 2 $'n\n' select --keys --where 'key = n' nothing.bib select.bib
run 'a selected entry of a file with CR LF' 1 $'@misc{b, title={B}}\r\n' select --where 'key = b' crlf.bib
run 'what a selected entry of a file with CR LF uses' 1 $'@string{acm = {ACM}}\r\n@preamble{"p"}\r\n@preamble{"q" # "r"}\r\n@misc{b, title={B}}\r\n' select --complete --where 'key = b' crlf.bib
run 'keys of selected entries of a file with CR LF' 1 $'a\nb\n' select --keys --where 'has title' crlf.bib
run 'an entry of a file with CR LF that meets a condition' 1 $'@misc{b, title={B}}\r\n' get a,b --where 'title = B' crlf.bib

# keys, get and lint with conditions
cp two.bib input
run 'keys of entries that meet a condition' 0 $'b\n' keys --where 'has year' two.bib
run 'keys of entries that meet all conditions' 1 '' keys --where 'has year' --where 'key = a' two.bib
run 'keys of selected entries of two files' 0 $'a\nb\n' keys --where 'type = misc' two.bib one.bib
run 'keys of selected entries of standard input' 0 $'a\n' keys --where 'not has year'
run 'keys of selected entries beside a block with an error' 1 $'a\n' keys --where 'has title' broken.bib
run 'keys of selected entries beside a file that is not there' 2 $'b\n' keys --where 'has year' no.bib two.bib
run 'keys of entries that inherit a field' 0 $'d\nc\n' keys --where 'year = 2000' parent.bib
run 'entries with these keys that meet a condition' 0 $'@misc{b, title={x y}, author={Knuth, D.}, year={1984}}\n' get a,b --where 'has year' two.bib
run 'no entry with these keys meets the condition' 1 '' get a --where 'has year' two.bib
run 'no entry that meets the condition has one of these keys' 1 '' get c --where 'has year' two.bib
run 'an entry that meets all conditions' 0 $'@misc{a, title={A}, author={B}}\n' get --where 'has author' --where 'title = A' a,b,z two.bib
for command in keys 'get a' lint; do
    run_messages "a condition of $command that ends too early" 2 $'bibkit: --where `year >`: expected a year at byte 6\n' $command --where 'year >' two.bib
    run "a condition of $command that ends too early: nothing is printed" 2 '' $command --where 'year >' two.bib
done
run 'findings about selected entries' 1 $'broken.bib:1:7: warning: a: missing year [missing-field]\nerrors: 0, warnings: 1\n' lint --where 'key = a' broken.bib
run 'no findings about selected entries' 0 $'errors: 0, warnings: 0\n' lint --where 'key = z' broken.bib
run 'findings about selected entries of two files' 1 "$lines_of_one"$'errors: 0, warnings: 3\n' lint --where 'type = article' broken.bib one.bib
run 'selected findings about selected entries' 0 $'errors: 0, warnings: 0\n' lint --where 'key = a' --only syntax broken.bib
run 'findings about selected entries of a file that is not UTF-8' 1 $'latin.bib:1:7: warning: a: missing year [missing-field]\nerrors: 0, warnings: 1\n' lint --where $'title = "\xc3\xa9"' latin.bib
run 'findings about selected entries in JSON' 1 '[
{"file":"broken.bib","line":1,"column":7,"end_line":1,"end_column":8,"severity":"warning","code":"missing-field","message":"a: missing year"}
]
' lint --format json --where 'key = a' broken.bib
run 'no findings about selected entries in JSON' 0 $'[\n]\n' lint --format json --where 'key = z' broken.bib
run 'a selected entry that is never cited' 1 $'two.bib:1:7: warning: a: never cited [unused-entry]\nerrors: 0, warnings: 1\n' lint --ignore missing-field --cited paper.aux --unused --where 'key = a' two.bib
run 'a selected entry that is cited' 0 $'errors: 0, warnings: 0\n' lint --ignore missing-field --cited paper.aux --unused --where 'key = b' two.bib
run 'a meaning is printed without regard to conditions' 0 "$("$program" lint --explain syntax)"$'\n' lint --explain syntax --where 'key = b'
printf '@misc{a, title={T}, author={Knuth, D.}, year={1984}}\n@misc{b, title={t}, author={Knuth, D.}, year={1984}, note={n}}\n@misc{c, title={C}, author={Y}, year={1990}}\n' >same.bib
same=$'same.bib:2:7: warning: b: likely the same work: same title, year and people as "a" [likely-duplicate]\nerrors: 0, warnings: 1\n'
run 'an entry that is likely the same as an earlier one' 1 "$same" lint same.bib
run 'the earlier one is selected' 1 "$same" lint --where 'key = a' same.bib
run 'the later one is selected' 1 "$same" lint --where 'has note' same.bib
run 'neither is selected' 0 $'errors: 0, warnings: 0\n' lint --where 'year = 1990' same.bib
printf '@misc{a, title={A}, author={X}, year={2000}, ids={b}}\n@misc{b, title={B}, author={Y}, year={2001}}\n@misc{a, title={C}, author={Z}, year={2002}}\n@misc{c, title={C}, author={Z}, year={2003}}\n' >claimed.bib
claimed=$'claimed.bib:2:1: error: duplicate key "b" [duplicate-key]\nclaimed.bib:3:1: error: duplicate key "a" [duplicate-key]\nerrors: 2, warnings: 0\n'
run 'keys that an earlier entry has' 1 "$claimed" lint claimed.bib
run 'the entry with these keys is selected' 1 "$claimed" lint --where 'year = 2000' claimed.bib
run 'no entry is tested that is left out' 0 $'errors: 0, warnings: 0\n' lint --where 'year = 2001 or year = 2002' claimed.bib
run 'entries with the key of a selected one' 0 $'a\na\n' keys --where 'year = 2000' claimed.bib

# edit
edited='@article{church1936, langid={english}, note={x}, author={Church, Alonzo}, title={A Note}, journal={JSL}, date={1936-03}, doi={10/x}}'
run 'fields of selected entries' 0 "$(head -1 select.bib)"$'\n'"$edited"$'\n@misc{n, title={No Year}}\n' \
    edit --where 'type = article' --add langid=english --set note=x --rename journaltitle=journal --file select.bib
run 'fields of all entries' 0 $'@misc{a, note={x}, title={A}, author={B}}\n\n@misc{b, note={x}, title={x y}, author={Knuth, D.}, year={1984}}\n' \
    edit --set note=x -f two.bib
run 'fields of no entry' 0 "$(cat two.bib)"$'\n' edit --where 'key = none' --set note=x -f two.bib
cp two.bib input
run 'fields of entries of standard input' 0 $'@misc{a, title={A}, author={B}}\n\n@misc{b, title={x y}, author={Knuth, D.}, date={1984}}\n' \
    edit --rename year=date
cp two.bib edited.bib
run 'edited fields are written' 0 '' edit --where 'key = a' --add note=x --write --file edited.bib
holds 'the file has the edited fields' eval 'printf "@misc{a, note={x}, title={A}, author={B}}\n\n@misc{b, title={x y}, author={Knuth, D.}, year={1984}}\n" | cmp -s - edited.bib'
run_messages 'a value that can not be written' 1 $'bibkit: two.bib: `note`: the value can\'t be written in braces\n' edit --set 'note=}' -f two.bib
run_messages 'a name that can not be one' 1 $'bibkit: two.bib: `1a`: the text can\'t be the name of a field\n' edit --rename title=1a -f two.bib
run_messages 'an edit without an equals sign' 2 $'bibkit: `note` isn\'t FIELD=VALUE; use `--file` for the name of the file\n' edit --set note -f two.bib
run_messages 'a new name without an equals sign' 2 $'bibkit: `title` isn\'t OLD=NEW; use `--file` for the name of the file\n' edit --rename title -f two.bib
run_messages 'no edit' 2 $'bibkit: `edit` needs `--rename`, `--set`, `--add` or `--unset`\n' edit -f two.bib
run 'a field of all entries is removed' 0 $'@misc{a, author={B}}\n\n@misc{b, author={Knuth, D.}, year={1984}}\n' edit --unset title -f two.bib
run 'fields of selected entries are removed after the other edits' 0 $'@misc{a, title={A}, author={B}}\n\n@misc{b, date={1984}}\n' \
    edit --where 'key = b' --unset title,author --rename year=date -f two.bib
run 'a field between two comments, of all entries' 0 $'@book{k,\n  author = {A},\n  % about the title % about the year\n  year = 2000,\n}\n' edit --unset title -f comments.bib
printf '@misc{a, note={x}, title={T}}\n@misc{c, Note={x}}\n' >lone.bib
refuses 'all fields of an entry' 1 $'bibkit: lone.bib: `c`: `note`: the entry would have no field left\n' edit --unset note -f lone.bib
refuses 'all fields of an entry, in two steps' 1 $'bibkit: two.bib: `a`: `author`: the entry would have no field left\n' edit --unset title,author -f two.bib
run 'selected entries are removed' 0 $'@misc{a, title={A}, author={B}}\n\n' remove --where 'year = 1984' -f two.bib
run 'no entry is removed' 0 "$(cat two.bib)"$'\n' remove --where 'key = z' -f two.bib
run 'neither keys nor a condition' 2 '' remove -f two.bib
run 'keys and a condition' 2 '' remove a --where 'key = b' -f two.bib

# lint --fix: a name that can only mean the suggested one, and a DOI after the address of a resolver
# fixes NAME OLD NEW: the field after the key of an entry, and the field that it becomes; without NEW, it stays
fixes() {
    printf '@misc{k,\n  %s,\n  title = {T}\n}\n' "$2" >fix.bib
    printf '@misc{k,\n  %s,\n  title = {T}\n}\n' "${3-$2}" >fixed.bib
    "$program" lint --fix --fail-on never fix.bib >output 2>messages
    count "$1" $? 0 "$(cat fixed.bib)"$'\n'
    "$program" lint --fix --fail-on never fixed.bib >output 2>messages
    count "$1, a second time" $? 0 "$(cat fixed.bib)"$'\n'
}
fixes 'a letter is missing' 'autor = {A}' 'author = {A}'
fixes 'a letter too many' 'edittion = {2}' 'edition = {2}'
fixes 'a wrong letter' 'organisation = {A}' 'organization = {A}'
fixes 'letters are swapped' 'yaer = 1984' 'year = 1984'
fixes 'letters are swapped, in capitals' 'YAER = 1984' 'year = 1984'
fixes 'a plural' 'editors = {A}' 'editor = {A}'
fixes 'the name of an abbreviation stays' 'mnoth = jan' 'month = jan'
fixes 'two typing errors' 'publshr = {A}'
fixes 'no known name' 'nofield = {A}'
fixes 'a letter of editor or of edition' 'editon = {2}'
fixes 'a letter of urldate or of urlday' 'urldat = {2020}'
fixes 'a letter of each number with is' 'isxn = {0}'
fixes 'one of three fields for users' 'userg = {A}'
fixes 'the new name is there, in capitals' $'autor = {A},\n  AUTHOR = {B}'
fixes 'two fields with the name' $'autor = {A},\n  Autor = {B}'
fixes 'two names that mean the same' $'autor = {A},\n  auhtor = {B}'
fixes 'two fields' $'autor = {A},\n  yaer = 1984' $'author = {A},\n  year = 1984'
fixes 'a malformed date would be new' 'daet = {x}'
fixes 'a special character would be new' 'pulisher = {A & B}'
fixes 'an unknown reference would be new' 'crosref = {z}'
fixes 'a DOI after an address' 'doi = {https://doi.org/10.1/x}' 'doi = {10.1/x}'
fixes 'a DOI after an older address' 'doi = {http://dx.doi.org/10.1/X_y}' 'doi = {10.1/X_y}'
fixes 'a DOI after its scheme' 'DOI = "DOI: 10.1/x "' 'DOI = {10.1/x}'
fixes 'a DOI after the address of a publisher' 'doi = {https://dl.acm.org/doi/10.1/x}'
fixes 'an address that is no DOI' 'doi = {https://doi.org/x/10.1}'
fixes 'a DOI without a suffix' 'doi = {https://doi.org/10.1}'
fixes 'a DOI with a character of an address' 'doi = {https://doi.org/10.1/x%3Cy}'
fixes 'two DOIs' 'doi = {https://doi.org/10.1/x 10.1/y}'
fixes 'a DOI in braces' 'doi = {https://doi.org/10.1/{x}}'
fixes 'a DOI in two parts' 'doi = {https://doi.org/} # {10.1/x}'
fixes 'two fields with a DOI' $'doi = {10.1/x},\n  doi = {https://doi.org/10.1/x}'
fixes 'fields and comments around them stay' $'% one\n  autor = {A} , % two\n  doi={https://doi.org/10.1/x}' $'% one\n  author = {A} , % two\n  doi={10.1/x}'
printf '@misc{a, autor={A}, title={T}, year=2001}\ntext\n@misc{a, autor={A}}\n@misc{b, ids={c}, autor={B}, title={U}, year=2002}\n@misc{c, autor={C}, title={V}, year=2003}\n@misc{, autor={D}}\n' >names.bib
run 'entries with a name of another one, and without a key' 1 "$(sed 's/{b, ids={c}, autor/{b, ids={c}, author/' names.bib)"$'\n' lint --fix names.bib
printf '@misc{a, autor={A}, title={T}, year=2001, doi={https://doi.org/10.1/x}}\n@misc{b, autor={B}, title={U}, year=2002}\n' >two-fixes.bib
run 'all fixes' 0 $'@misc{a, author={A}, title={T}, year=2001, doi={10.1/x}}\n@misc{b, author={B}, title={U}, year=2002}\n' lint --fix two-fixes.bib
holds 'no finding stays' eval 'printf "errors: 0, warnings: 0\n" | cmp -s - messages'
run 'fixes of one code' 0 $'@misc{a, autor={A}, title={T}, year=2001, doi={10.1/x}}\n@misc{b, autor={B}, title={U}, year=2002}\n' lint --fix --only doi-address two-fixes.bib
run 'fixes without one code' 0 $'@misc{a, author={A}, title={T}, year=2001, doi={https://doi.org/10.1/x}}\n@misc{b, author={B}, title={U}, year=2002}\n' lint --fix --ignore doi-address two-fixes.bib
run 'fixes of selected entries' 0 $'@misc{a, autor={A}, title={T}, year=2001, doi={https://doi.org/10.1/x}}\n@misc{b, author={B}, title={U}, year=2002}\n' lint --fix --where 'key = b' two-fixes.bib
mkdir own-fixes
cp two-fixes.bib own-fixes/a.bib
printf 'format = "json"\n[own]\nfields = ["autor"]\n' >own-fixes/bibkit.toml
run 'no fix of an own name, and no format of a project' 0 $'@misc{a, autor={A}, title={T}, year=2001, doi={10.1/x}}\n@misc{b, autor={B}, title={U}, year=2002}\n' lint --fix own-fixes/a.bib
holds 'the counts as a line' eval 'printf "errors: 0, warnings: 0\n" | cmp -s - messages'
printf '@misc{a, autor={A}, title={T}, year=2001}\n@misc{b, author={A}, title={T}, year=2001, nofield={x}}\n' >alike.bib
run 'a likely duplicate would be new' 1 "$(cat alike.bib)"$'\n' lint --fix alike.bib
printf '@misc{a, autor={A}, title={T}, year=2001}\n@misc{b, author={B}, title={U}, year=2001, nofield={x}}\n' >input
run_messages 'findings that stay, with their positions in the new text' 1 $'two.txt:2:44: warning: unknown field `nofield` [unknown-field]\nerrors: 0, warnings: 1\n' lint --fix --stdin-filename two.txt
run 'standard input with fixes' 1 $'@misc{a, author={A}, title={T}, year=2001}\n@misc{b, author={B}, title={U}, year=2001, nofield={x}}\n' lint --fix
run 'findings that stay and do not count' 0 $'@misc{a, author={A}, title={T}, year=2001}\n@misc{b, author={B}, title={U}, year=2001, nofield={x}}\n' lint --fix --fail-on error
: >input
printf '\xef\xbb\xbf@misc{a, autor={A},\r\n  title={T}, year=2001}\r\n' >marked-fix.bib
run 'a byte order mark and line ends stay' 0 $'\xef\xbb\xbf@misc{a, author={A},\r\n  title={T}, year=2001}\r\n' lint --fix marked-fix.bib
cp two-fixes.bib fix1.bib
cp alike.bib fix2.bib
run 'several files, written' 1 '' lint --fix --write fix1.bib fix2.bib
holds 'the first file is mended' eval '"$program" lint fix1.bib >output'
holds 'the second file stays' cmp -s alike.bib fix2.bib
run_messages 'several files, printed' 2 $'bibkit: `--fix` with several files requires `--write` or `--diff`\n' lint --fix fix1.bib fix2.bib
run 'the same with each file by itself' 2 '' lint --fix --each fix1.bib fix2.bib
run 'no difference' 0 '' lint --fix --diff fix1.bib
run 'a difference after --write' 0 $'--- two-fixes.bib\n+++ two-fixes.bib\n@@ -1,2 +1,2 @@\n-@misc{a, autor={A}, title={T}, year=2001, doi={https://doi.org/10.1/x}}\n-@misc{b, autor={B}, title={U}, year=2002}\n+@misc{a, author={A}, title={T}, year=2001, doi={10.1/x}}\n+@misc{b, author={B}, title={U}, year=2002}\n' lint --fix --write --diff two-fixes.bib
run_messages 'a syntax error, as edit reports it' 1 $'broken.bib:3:1: error: expected comma [syntax]\n' lint --fix broken.bib
run 'a syntax error, and nothing is printed' 1 '' lint --fix broken.bib
run 'a file that is not UTF-8' 2 '' lint --fix latin.bib
run 'a file that is missing' 2 '' lint --fix no.bib
run_messages 'standard input can not be written' 2 $'bibkit: `--write` needs the name of a file\n' lint --fix --write
run_messages 'another format' 2 $'bibkit: `--fix` requires `--format text`\n' lint --fix --format json two-fixes.bib
run 'the format text' 0 "$(cat fix1.bib)"$'\n' lint --fix --format text two-fixes.bib
run 'fixes and a document' 2 '' lint --fix --cited thesis.aux two-fixes.bib
run '--write without --fix' 2 '' lint --write two-fixes.bib
run '--diff without --fix' 2 '' lint --diff two-fixes.bib

# what --fix makes of a file has no new finding, and a second run changes nothing: all files of these tests, and those of the documents
cat >fixed.py <<'PY'
import collections, json, subprocess, sys
program, *names = sys.argv[1:]
def run(text, *options):
    return subprocess.run([program, "lint", "--fail-on", "never", *options], input=text, stdout=subprocess.PIPE, stderr=subprocess.DEVNULL)
def found(text):
    return collections.Counter((it["code"], it["message"]) for it in json.loads(run(text, "--format", "json").stdout))
wrong = changed = 0
for name in names:
    text = open(name, "rb").read()
    made = run(text, "--fix")
    if made.returncode == 0:
        changed += made.stdout != text
        if run(made.stdout, "--fix").stdout != made.stdout or found(made.stdout) - found(text):
            wrong += 1
            print("failed: --fix of " + name)
sys.exit(wrong > 0 or changed == 0)
PY
holds 'fixes of all files' python3 fixed.py "$program" *.bib

# texts in quotes whose braces don't balance
printf '@misc{a, title = "The {"}Big{"} one"}\n@misc{b, note={x}, doi={10/y}}\n' >quotes.bib
unbalanced=$'quotes.bib:1:19: error: the braces of this text in quotes don\'t balance, so BibTeX and Biber end it elsewhere; write it in braces first\n'
for edit in 'set b note=y -f' 'unset b note -f' 'rename b c -f' 'remove b -f' 'edit --set note=y -f' 'edit --unset note -f' 'remove --where key=b -f' \
    'rekey -f' 'recode --accents characters -f' 'recode --accents commands -f' 'strings --expand -f' 'strings --collect -f' resolve 'fmt --sort key' 'convert --to biblatex' 'convert --to bibtex'; do
    refuses "an edit that could cut a text in quotes: $edit" 1 "$unbalanced" $edit quotes.bib
done
run 'a format keeps such a text' 0 $'@misc{a, title = "The {"}Big{"} one"}\n@misc{b,\n  note = {x},\n  doi = {10/y},\n}\n' fmt quotes.bib
run_messages 'a wrong condition of an edit' 2 $'bibkit: --where `or`: expected a test, for example `type = article` or `has doi` at byte 0\n' edit --where or --set note=x -f two.bib
refuses 'fields of a file with an error' 1 $'broken.bib:3:1: error: expected comma [syntax]\n' edit --set note=x -f broken.bib

# rekey
cat >rekey.bib <<'BIB'
@book{a, author={Knuth, Donald E.}, title={The TeXbook}, year=1984}
@inbook{b, author={Knuth, Donald E.}, title={Boxes}, crossref={a}, year=1984}
BIB
run 'keys by a pattern' 0 $'@book{Knuth1984, author={Knuth, Donald E.}, title={The TeXbook}, year=1984}
@inbook{Knuth1984a, author={Knuth, Donald E.}, title={Boxes}, crossref={Knuth1984}, year=1984}
' rekey --pattern '{Author}{year}' -f rekey.bib
run 'keys by the usual pattern' 0 $'@book{knuth1984texbook, author={Knuth, Donald E.}, title={The TeXbook}, year=1984}
@inbook{knuth1984boxes, author={Knuth, Donald E.}, title={Boxes}, crossref={knuth1984texbook}, year=1984}
' rekey -f rekey.bib
run 'the old and the new keys' 0 $'a,knuth1984\nb,knuth1984a\n' rekey --pattern '{author}{year}' --map -f rekey.bib
cp rekey.bib rekeyed.bib
run 'new keys are written, and their map is printed' 0 $'a,k\nb,ka\n' rekey --pattern k --map --write -f rekeyed.bib
run 'new keys are written again' 0 '' rekey --pattern k --map --write -f rekeyed.bib
holds 'the file has the new keys' grep -qF '@inbook{ka, author={Knuth, Donald E.}, title={Boxes}, crossref={k}, year=1984}' rekeyed.bib
run 'keys follow the pattern' 0 '' rekey --pattern k --check -f rekeyed.bib
run_messages 'keys do not follow the pattern' 1 $'rekeyed.bib:1:7: error: the key of `k` isn\'t `k84`
rekeyed.bib:2:9: error: the key of `ka` isn\'t `k84a`
' rekey --pattern 'k{year:2}' --check -f rekeyed.bib
printf '@misc{a, title={Tea}}\n@misc{b, title={Bee}, ids={TEA}}\n' >taken.bib
run_messages 'a new key that is an alias' 1 $'bibkit: taken.bib: `a` to `tea`: entry `b` has the name already, as its key or in its field `ids`\n' rekey --pattern '{title}' -f taken.bib
printf '@misc{a, title={Milk}, ids={x, tea}}\n@misc{b, title={Tea}}\n' >claimed.bib
run_messages 'a new key that is an alias of an earlier entry' 1 $'bibkit: claimed.bib: `b` to `tea`: entry `a` has the name already, as its key or in its field `ids`\n' rekey --pattern '{title}' -f claimed.bib
printf '@misc{a, title={Tea}}\n@xdata{TEA, note={N}}\n' >kept.bib
run_messages 'a new key that is a key that stays' 1 $'bibkit: kept.bib: `a` to `tea`: entry `TEA` has the name already, as its key or in its field `ids`\n' rekey --pattern '{title}' -f kept.bib
printf '@misc{a, title={Tea}, ids={tea}}\n' >own.bib
run_messages 'a new key that is an own alias' 1 $'bibkit: own.bib: `a` to `tea`: entry `a` has the name already, as its key or in its field `ids`\n' rekey --pattern '{title}' -f own.bib
run 'the map of refused keys is not printed' 1 '' rekey --pattern '{title}' --map -f taken.bib
printf '@xdata{x, title={T}}\n@set{s, entryset={a}}\n@misc{a, title={Tea}, xdata={x}}\n' >data.bib
run 'keys of data of other entries' 0 $'@xdata{x, title={T}}\n@set{s, entryset={tea}}\n@misc{tea, title={Tea}, xdata={x}}\n' rekey --pattern '{title}' -f data.bib
run_messages 'a pattern that is none' 2 $'bibkit: --pattern `{x}`: expected `{author}`, `{title}` or `{year}` at byte 0, or one of them with a number, such as `{title:3}`\n' rekey --pattern '{x}' -f rekey.bib
cat >dangling.bib <<'BIB'
@misc{a, title={Old}}
@misc{b, title={New}, related={old, x}}
BIB
run 'a reference that gets an entry' 0 $'@misc{old, title={Old}}\n@misc{new, title={New}, related={old, x}}\n' rekey --pattern '{title}' -f dangling.bib
run_messages 'a reference that gets an entry is reported' 0 $'dangling.bib:2:7: note: the reference to `old` led to no entry, and now leads to one with this new key\n' rekey --pattern '{title}' -f dangling.bib
cat >parts.bib <<'BIB'
@string{b = {b}}
@misc{a, title={Old}, related={b}}
@misc{b, title={New}, related={a,} # b, xdata = a}
@misc{c, title={Tea}, related={te} # {a}, xref = {x} # b}
BIB
run_messages 'references that name rekeyed entries in parts are reported' 0 $'parts.bib:3:23: note: `related` of entry `b` names `a` by an abbreviation or in parts, so it isn\'t changed\n' rekey --pattern '{title}' -f parts.bib
run 'their keys are checked without notes' 1 '' rekey --pattern '{title}' --check -f parts.bib
run 'a check and a map of keys' 2 '' rekey --check --map -f rekey.bib
run 'a check of keys that writes' 2 '' rekey --check --write -f rekey.bib
run 'a map of keys and a diff' 2 '' rekey --map --diff -f rekey.bib
refuses 'new keys of a file with an error' 1 $'broken.bib:3:1: error: expected comma [syntax]\n' rekey -f broken.bib

# recode: what the files say is what `iconv` makes of them
printf '@misc{k, title = {na\357ve \223x\224}}\r\n' >western.bib
printf '\377\376' >wide.bib
printf '@misc{k, title = {\303\251}}\n' | iconv -f utf-8 -t utf-16le >>wide.bib
printf '\377\376@' >half.bib
printf '\357\273\277@misc{k, title = {\303\251}}\n' >marked.bib
run 'a file in Windows-1252' 0 "$(iconv -f windows-1252 -t utf-8 western.bib)"$'\n' recode --from windows-1252 --file western.bib
run 'a file in Windows-1252 with other line ends' 0 $'@misc{k, title = {na\303\257ve \342\200\234x\342\200\235}}\n' \
    recode --from windows-1252 --line-ends lf -f western.bib
run 'a file with the byte order mark of UTF-16' 0 $'@misc{k, title = {\303\251}}\n' recode -f wide.bib
run 'a file without its byte order mark' 0 $'@misc{k, title = {\303\251}}\n' recode -f marked.bib
run 'a file with a byte order mark' 0 "$(cat marked.bib)"$'\n' recode --bom -f marked.bib
run 'a file with returns' 0 $'@misc{k, title = {\303\251}}\r\n' recode --line-ends crlf -f marked.bib
cp marked.bib input
run 'standard input without its byte order mark' 0 $'@misc{k, title = {\303\251}}\n' recode
cp western.bib recoded.bib
run 'a file is written as UTF-8' 0 '' recode --from windows-1252 --write -f recoded.bib
holds 'the file is in UTF-8' cmp -s recoded.bib <(iconv -f windows-1252 -t utf-8 western.bib)
refuses 'a file whose encoding is not known' 2 $'bibkit: western.bib: not UTF-8; `--from` names its encoding, such as windows-1252\n' recode -f western.bib
refuses 'a file in another encoding' 1 $'bibkit: western.bib: not UTF-8 from byte 20 on\n' recode --from utf-8 -f western.bib
refuses 'a file with half a character' 1 $'bibkit: half.bib: not UTF-16: an odd number of bytes; the last is byte 2\n' recode -f half.bib
run 'a byte order mark against an encoding' 0 $'@misc{k, title = {\303\251}}\n' recode --from latin1 -f marked.bib
run 'a byte order mark of UTF-16 against an encoding' 0 $'@misc{k, title = {\303\251}}\n' recode --from utf-16be -f wide.bib
run 'an encoding that is none' 2 '' recode --from koi8 -f western.bib
run 'line ends that are none' 2 '' recode --line-ends cr -f marked.bib

# recode --accents: what `biber --tool` makes of the same commands, and what DECISIONS.md lists as different
cat >accents.bib <<'END'
@string{m = {M{\"u}ller}}
@article{a1, title = {M{\"u}ller \'e \`a \^o \~n \=a \.z \"{o} \v{s} \v s \c c {\c c} \H{o} \u{g} \r{a} \k{a} \d{s}}}
@article{a2, title = {Stra\ss e Stra\ss{}e, \aa ngstr, \AE{}, {\"O}ster, {{\"O}}ster, {ABC {\"o} \"o}}}
@article{a3, title = {\'{\ae} {\'\ae} \emph{\"o \ss} \textbf{{\'e}} \"q \&}}
@article{a4, title = "Die {\"O}ber, {\"o}b", url = {\"o}, DOI = {\'e}, author = m # " and \'E"}
@article{b1, title = {$\"o$ \url{http://a.b/\~n} \href{\~n}{x\"o} \\"o \{\'e\} \S 5}}
@article{b2, title = {\'\i \'{\i} {\'\i} \`\i x {\O}re Stra{\ss}e \l\'od\'z}}
@article{b3, title = {\d{\^e} \'{\^e} \it\"o \emph{\ss} \"{\ss} \o{x} \c {c}}}
@article{b4, title = {Costs $5 and \"o}}
END
run 'accents as characters' 0 '@string{m = {M{\"u}ller}}
@article{a1, title = {Müller é à ô ñ ā ż ö š š ç ç ő ğ å ą ṣ}}
@article{a2, title = {Straße Straße, ångstr, Æ, Öster, {Ö}ster, {ABC ö ö}}}
@article{a3, title = {ǽ ǽ \emph{ö ß} \textbf{é} \"q \&}}
@article{a4, title = "Die Öber, öb", url = {\"o}, DOI = {\'"'"'e}, author = m # " and É"}
@article{b1, title = {$\"o$ \url{http://a.b/\~n} \href{\~n}{xö} \\"o \{é\} \S 5}}
@article{b2, title = {íí í ìx Øre Straße łódź}}
@article{b3, title = {ệ ế \it{ö} \emph{ß} \"{ß} \o{x} ç}}
@article{b4, title = {Costs $5 and \"o}}
' recode --accents characters -f accents.bib
cp accents.bib plain.bib
run 'accents are written as characters' 0 '' recode --accents characters --write -f plain.bib
run 'characters stay' 0 "$(cat plain.bib)"$'\n' recode --accents characters -f plain.bib
printf '@misc{k, title = {na\357ve \\"o}}\r\n' >both.bib
run 'accents of a file in Windows-1252' 0 $'@misc{k, title = {na\303\257ve \303\266}}\n' \
    recode --from windows-1252 --line-ends lf --accents characters -f both.bib
refuses 'accents of a file with an error' 1 $'broken.bib:3:1: error: expected comma [syntax]\n' recode --accents characters -f broken.bib
run 'a form of accents that is none' 2 '' recode --accents tex -f accents.bib

# recode --accents commands: what LaTeX prints, and Biber and pandoc read, as these characters; DECISIONS.md lists what stays
cat >letters.bib <<'END'
@string{m = {Müller}}
@article{a1, title = {Müller Škoda Ç İ ą ñ ő ṣ Straße Åberg Łódź}}
@article{a2, title = "Müller {École} \emph{é}", author = m # " and Éric"}
@article{a3, title = {í ì î ï ị į ǿ ǽ ø Ø æ Æ œ Œ å ł ı}}
@article{b1, title = {ĩ ǐ ĵ ệ ấ þ ð đ ŋ ẞ α я – “é”}}
@article{b2, url = {ü}, crossref = {große}, Keywords = {économie}, IDS = {é}, note = {é}}
@article{b3, title = {$ü$ \url{http://a/ü} \cite{müller} \é}}
@article{b4, note = {\parencite[vgl.][5]{größe} \autoref {ü} \Citet*{é}{é} \foo{é}}, Groups = {Größe}, local-url = {é}}
END
cat >wanted.bib <<'END'
@string{m = {Müller}}
@article{a1, title = {M{\"u}ller {\v{S}}koda {\c{C}} {\.I} {\k{a}} {\~n} {\H{o}} {\d{s}} Stra{\ss}e {\AA}berg {\L}{\'o}d{\'z}}}
@article{a2, title = "M{\"u}ller {{\'E}cole} \emph{{\'e}}", author = m # " and {\'E}ric"}
@article{a3, title = {{\'i} {\`i} {\^i} {\"i} {\d{i}} {\k{i}} {\'{\o}} {\'{\ae}} {\o} {\O} {\ae} {\AE} {\oe} {\OE} {\aa} {\l} {\i}}}
@article{b1, title = {ĩ ǐ ĵ ệ ấ þ ð đ ŋ ẞ α я – “{\'e}”}}
@article{b2, url = {ü}, crossref = {große}, Keywords = {économie}, IDS = {é}, note = {{\'e}}}
@article{b3, title = {$ü$ \url{http://a/ü} \cite{müller} \é}}
@article{b4, note = {\parencite[vgl.][5]{größe} \autoref {ü} \Citet*{é}{{\'e}} \foo{{\'e}}}, Groups = {Größe}, local-url = {é}}
END
run 'accents as commands' 0 "$(cat wanted.bib)"$'\n' recode --accents commands -f letters.bib
run 'commands as characters again' 0 "$(cat letters.bib)"$'\n' recode --accents characters -f wanted.bib
run 'commands stay' 0 "$(cat wanted.bib)"$'\n' recode --accents commands -f wanted.bib
printf '@misc{k, title = {\\textbf \303\251 \342\204\253}}\n' >marks.bib
run 'an argument without braces, and the sign for the unit' 0 '@misc{k, title = {\textbf {\'"'"'e} {\r{A}}}}
' recode --accents commands -f marks.bib
cat >marks.bib <<'END'
@misc{k, title = {\d{ê} \'{ø} \v é {\'e}é ệ \verb é, \'e é}}
END
run 'the argument of an accent, and a character before a combining one' 0 "$(cat <<'END'
@misc{k, title = {\d{ê} \'{ø} \v é {\'e}{\'e} ệ \verb {\'e}, \'e {\'e}}}
END
)"$'\n' recode --accents commands -f marks.bib
refuses 'commands for a file with an error' 1 $'broken.bib:3:1: error: expected comma [syntax]\n' recode --accents commands -f broken.bib

# completions, in the shells that are there: each row is a line, and what its last word can be
completed() {
    if printf %s "$3" | cmp -s - output; then
        passed=$((passed + 1))
    else
        failed=$((failed + 1))
        echo "failed: completions of $1 for $2"
        diff <(printf %s "$3") output | head -5
    fi
}
in_bash() {
    local line=$1 want=$2
    (
        source "$completions/bibkit.bash"
        read -ra COMP_WORDS <<<"$line"
        [[ $line == *' ' ]] && COMP_WORDS+=('')
        COMP_CWORD=$((${#COMP_WORDS[@]} - 1))
        COMPREPLY=()
        _bibkit
        printf '%s\n' "${COMPREPLY[@]}"
    ) >output
    completed bash "$line" "$want"
}
in_fish() {
    HOME=$files fish -N -c "source $completions/bibkit.fish; complete -C '$1'" </dev/null 2>&1 | cut -f 1 >output
    completed fish "$1" "$2"
}
# in zsh a line is typed, each `>` in it as a tab, and then run: what is compared are the words that it ended up as
in_zsh() {
    rm -f output
    timeout 60 zsh -f type.zsh "${1//>/$'\t'}" </dev/null >/dev/null 2>&1
    completed zsh "$1" "$2"
}
touch references.bib
in_bash 'bibkit li' $'lint\n'
in_bash 'bibkit lint --on' $'--only\n'
in_bash 'bibkit lint --only syntax,dup' $'syntax,duplicate-key\n'
in_bash 'bibkit lint --format j' $'json\njsonl\n'
in_bash 'bibkit lint --fail-on w' $'warning\n'
in_bash 'bibkit lint --color ne' $'never\n'
in_bash 'bibkit keys refe' $'references.bib\n'
in_bash 'bibkit rem' $'remove\n'
in_bash 'bibkit conv' $'convert\n'
in_bash 'bibkit res' $'resolve\n'
in_bash 'bibkit resolve --' $'--not-inherited\n--write\n--diff\n--help\n'
in_bash 'bibkit sel' $'select\n'
in_bash 'bibkit select --' $'--where\n--complete\n--keys\n--help\n'
in_bash 'bibkit edit --re' $'--rename\n'
in_bash 'bibkit mer' $'merge\n'
in_bash 'bibkit merge --' $'--path\n--marker-size\n--write\n--install\n--help\n'
in_bash 'bibkit keys --' $'--where\n--help\n'
in_bash 'bibkit get --' $'--where\n--help\n'
in_bash 'bibkit lint --wh' $'--where\n'
in_bash 'bibkit lint --ea' $'--each\n'
in_bash 'bibkit lint --fi' $'--fix\n'
in_bash 'bibkit rekey --m' $'--map\n'
in_bash 'bibkit convert --to ' $'csl\njson\nris\nbiblatex\nbibtex\n'
in_bash 'bibkit set --wr' $'--write\n'
in_bash 'bibkit fmt --no-al' $'--no-align\n'
in_bash 'bibkit fmt --tr' $'--trailing-comma\n'
in_bash 'bibkit remove --file refe' $'references.bib\n'
in_bash 'bibkit str' $'strings\n'
in_bash 'bibkit strings --' $'--expand\n--collect\n--fields\n--at-least\n--file\n--write\n--diff\n--help\n'
in_bash 'bibkit strings --fields publisher,ser' $'publisher,series\n'
in_bash 'bibkit strings --file refe' $'references.bib\n'
in_bash 'bibkit set --di' $'--diff\n'
in_bash 'bibkit fmt --d' $'--delimiters\n--diff\n'
in_bash 'bibkit fmt --so' $'--sort\n'
in_bash 'bibkit fmt --or' $'--order\n'
in_bash 'bibkit fmt --wi' $'--width\n'
in_bash 'bibkit fmt --sort ' $'keep\nkey\nyear\nauthor\ntitle\ntype\n'
in_bash 'bibkit rec' $'recode\n'
in_bash 'bibkit recode --from win' $'windows-1252\n'
in_bash 'bibkit recode --accents ' $'characters\ncommands\n'
in_bash 'bibkit convert --from b' $'bib\n'
in_bash 'bibkit convert --wh' $'--where\n'
in_bash 'bibkit fmt --delimiters ' $'keep\nbraces\nquotes\n'
in_bash 'bibkit fmt --order author,ti' $'author,title\n'
if command -v fish >/dev/null; then
    in_fish 'bibkit li' $'lint\n'
    in_fish 'bibkit lint --on' $'--only\n'
    in_fish 'bibkit lint --only syn' $'syntax\n'
    in_fish 'bibkit lint --format s' $'sarif\n'
    in_fish 'bibkit lint --fail-on w' $'warning\n'
    in_fish 'bibkit lint --color ne' $'never\n'
    in_fish 'bibkit keys refe' $'references.bib\n'
    in_fish 'bibkit str' $'strings\n'
    in_fish 'bibkit strings --col' $'--collect\n'
    in_fish 'bibkit fmt --sort au' $'author\n'
    in_fish 'bibkit fmt --delimiters q' $'quotes\n'
else
    skip fish 11
fi
if command -v zsh >/dev/null; then
    mkdir zsh
    cat >zsh/.zshrc <<ZSH
fpath=($completions \$fpath)
autoload -Uz compinit
compinit -u -D
bibkit() { print -r -- bibkit "\$@" >output; exit }
ZSH
    cat >type.zsh <<'ZSH'
zmodload zsh/zpty
export ZDOTDIR=$PWD/zsh TERM=dumb
zpty shell zsh -i
zpty -n -w shell $1$'\n'
while zpty -r shell line; do :; done
ZSH
    in_zsh 'bibkit li>' $'bibkit lint\n'
    in_zsh 'bibkit lint --on>' $'bibkit lint --only\n'
    in_zsh 'bibkit lint --only syntax,dup>' $'bibkit lint --only syntax,duplicate-key\n'
    in_zsh 'bibkit lint --format s>' $'bibkit lint --format sarif\n'
    in_zsh 'bibkit lint --fail-on w>' $'bibkit lint --fail-on warning\n'
    in_zsh 'bibkit lint --color ne>' $'bibkit lint --color never\n'
    in_zsh 'bibkit keys refe>' $'bibkit keys references.bib\n'
    in_zsh 'bibkit str>' $'bibkit strings\n'
    in_zsh 'bibkit strings --col>' $'bibkit strings --collect\n'
    in_zsh 'bibkit fmt --sort au>' $'bibkit fmt --sort author\n'
    in_zsh 'bibkit fmt --delimiters q>' $'bibkit fmt --delimiters quotes\n'
    in_zsh 'bibkit fmt --order author,ti>' $'bibkit fmt --order author,title\n'
else
    skip zsh 12
fi

# the sessions of documents: a block is one session in a folder of its own; `$ COMMAND` and the lines that it prints
cat >sessions.py <<'PY'
import os, re, shutil, subprocess, sys, tempfile
program, document = sys.argv[1:]
folder = tempfile.mkdtemp()
os.symlink(program, os.path.join(folder, "bibkit"))
failed = ran = 0
for kind, block in re.findall(r"^```(\S*)\n(.*?)^```$", open(document, encoding="utf-8").read(), re.S | re.M):
    name = re.match(r"(?:bib|tex|toml|json|ris):(\S+)$", kind)
    if name:
        open(os.path.join(folder, name.group(1)), "w", encoding="utf-8").write(block)
    if kind != "console":
        continue
    if "$ git " in block and not shutil.which("git"):
        print("sessions: not run: the session with git, which is missing")
        continue
    for command, want in re.findall(r"^\$ (.*)\n((?:(?!\$ ).*\n)*)", block, re.M):
        ran += 1
        path = folder + ":" + os.environ["PATH"]
        made = subprocess.run(["bash", "-c", command], cwd=folder, env={**os.environ, "PATH": path}, stdout=subprocess.PIPE,
                              stderr=subprocess.STDOUT, text=True)
        if made.stdout != want:
            failed += 1
            print("failed: $ " + command + "\n" + made.stdout)
if os.path.exists(os.path.join(folder, "typos.bib")):
    open(os.path.join(folder, "typo.bib"), "w").write("@misc{a, autor={A}, title={T}, year=2001}\n")
    files = [os.path.join(folder, it) for it in os.listdir(folder) if it.endswith(".bib")]
    failed += subprocess.run([sys.executable, "fixed.py", program, *files]).returncode
shutil.rmtree(folder)
print(f"sessions: {ran} commands, {failed} failed")
sys.exit(failed > 0 or ran == 0)
PY
for document in "${documents[@]+"${documents[@]}"}"; do
    holds "the sessions of $document" python3 sessions.py "$program" "$document"
done

echo "runs: $passed passed, $failed failed, $skipped skipped${missing/,/:}"
[ "$failed" = 0 ]
