# Completions of bibkit for bash: source this file, or put it into the folder of bash-completion.
_bibkit() {
    local current=${COMP_WORDS[COMP_CWORD]} previous=${COMP_WORDS[COMP_CWORD - 1]} command=${COMP_WORDS[1]-}
    local codes='unread-bytes escape-sequence syntax unread-field unknown-abbreviation circular-abbreviation duplicate-key
        circular-reference unread-date unknown-type missing-field superfluous-field malformed-field not-a-number malformed-date unknown-field foreign-field
        repeated-field empty-field wrong-isbn wrong-issn doi-address url-scheme malformed-name special-character html two-years empty-key
        stray-field comment-in-entry unbalanced-quote unknown-reference likely-duplicate key-case early-parent repeated-definition unused-definition missing-entry unused-entry'
    local fields='author editor title subtitle booktitle journaltitle journal series edition volume number pages publisher location address
        institution school organization date year month doi isbn issn url urldate note keywords abstract crossref'
    if [ "$COMP_CWORD" = 1 ]; then
        mapfile -t COMPREPLY < <(compgen -W 'lint keys get select grep cited stats diff merge fmt convert resolve set unset rename rekey edit remove add strings recode help --help --version' -- "$current")
        return
    fi
    case $previous in
        --only | --ignore)
            local before=''
            [[ $current == *,* ]] && before=${current%,*},
            mapfile -t COMPREPLY < <(compgen -P "$before" -W "$codes" -- "${current##*,}")
            return
            ;;
        --explain)
            mapfile -t COMPREPLY < <(compgen -W "$codes" -- "$current")
            return
            ;;
        --format)
            local formats='text json jsonl github checkstyle sarif'
            [ "$command" = diff ] && formats='text json'
            mapfile -t COMPREPLY < <(compgen -W "$formats" -- "$current")
            return
            ;;
        --fail-on)
            mapfile -t COMPREPLY < <(compgen -W 'error warning info never' -- "$current")
            return
            ;;
        --to)
            mapfile -t COMPREPLY < <(compgen -W 'csl json ris biblatex bibtex' -- "$current")
            return
            ;;
        --from)
            local from='bib csl ris json'
            [ "$command" = recode ] && from='utf-8 utf-16 utf-16le utf-16be windows-1252 latin1'
            mapfile -t COMPREPLY < <(compgen -W "$from" -- "$current")
            return
            ;;
        --accents)
            mapfile -t COMPREPLY < <(compgen -W 'characters commands' -- "$current")
            return
            ;;
        --line-ends)
            mapfile -t COMPREPLY < <(compgen -W 'lf crlf' -- "$current")
            return
            ;;
        --indent)
            mapfile -t COMPREPLY < <(compgen -W '0 1 2 3 4 5 6 7 8' -- "$current")
            return
            ;;
        --blank-lines)
            mapfile -t COMPREPLY < <(compgen -W 'keep 0 1 2 3' -- "$current")
            return
            ;;
        --delimiters)
            mapfile -t COMPREPLY < <(compgen -W 'keep braces quotes' -- "$current")
            return
            ;;
        --sort)
            mapfile -t COMPREPLY < <(compgen -W 'keep key year author title type' -- "$current")
            return
            ;;
        --order | --fields)
            local before=''
            [[ $current == *,* ]] && before=${current%,*},
            mapfile -t COMPREPLY < <(compgen -P "$before" -W "$fields" -- "${current##*,}")
            return
            ;;
        --width | --at-least | --where | --pattern | --unset)
            COMPREPLY=()
            return
            ;;
        --color)
            mapfile -t COMPREPLY < <(compgen -W 'auto always never' -- "$current")
            return
            ;;
        --cited | --file | -f)
            mapfile -t COMPREPLY < <(compgen -f -- "$current")
            return
            ;;
    esac
    if [[ $current == -* ]]; then
        local options='--help'
        [[ $command =~ ^(set|unset|rename|add)$ ]] && options='--file --write --diff --help'
        [ "$command" = remove ] && options='--where --file --write --diff --help'
        [ "$command" = rekey ] && options='--pattern --map --check --file --write --diff --help'
        [ "$command" = edit ] && options='--where --rename --set --add --unset --file --write --diff --help'
        [ "$command" = select ] && options='--where --complete --keys --help'
        [ "$command" = diff ] && options='--format --git --help'
        [ "$command" = merge ] && options='--path --marker-size --write --install --help'
        [ "$command" = strings ] && options='--expand --collect --fields --at-least --file --write --diff --help'
        [ "$command" = fmt ] && options='--indent --align --no-align --trailing-comma --no-trailing-comma --blank-lines --delimiters --order
            --width --sort --check --write --diff --help'
        [ "$command" = convert ] && options='--to --from --sentence-case --where --help'
        [ "$command" = recode ] && options='--from --line-ends --bom --accents --file --write --help'
        [ "$command" = resolve ] && options='--not-inherited --write --diff --help'
        [ "$command" = lint ] && options='--only --ignore --explain --format --fail-on --cited --unused --each --where --color --stdin-filename
            --baseline --fix --write --diff --help'
        [[ $command =~ ^(keys|get)$ ]] && options='--where --help'
        mapfile -t COMPREPLY < <(compgen -W "$options" -- "$current")
        return
    fi
    mapfile -t COMPREPLY < <(compgen -f -- "$current")
}
complete -o filenames -F _bibkit bibkit
