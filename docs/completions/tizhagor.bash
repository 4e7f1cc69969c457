# Completions of tizhagor for bash; scripts/install puts them in place, and scripts/check-install compares them with the help texts.
# shellcheck shell=bash

# The options of a command.
_tizhagor_options() {
    local shown="-u --untracked-files --untracked-files= --ignored --ignored= --collapsed= --tracked --no-tracked --pruned --no-pruned
        --empty-directories --no-empty-directories --origins --no-origins --submodules --no-submodules --permissions= --outcome
        --no-outcome --recurse-repositories --no-recurse-repositories --bare-repositories --no-bare-repositories --for-deletion="
    local looked="--excludes --no-excludes --precious --no-precious --strict-parents --no-strict-parents --links-as-directories
        --no-links-as-directories --strategy= --depth --depth="
    local written="-z --null"
    local colour="--color --color= --no-color"
    case $1 in
    report) echo "$shown $looked $written --plain $colour -h --help" ;;
    plan) echo "-x -X --nonbare $looked $written -h --help" ;;
    modules) echo "--permissions= -h --help" ;;
    state) echo "$shown --by-stat $looked $written $colour -h --help" ;;
    ls-files) echo "-c --cached -s --stage -u --unmerged -o --others -k --killed -d --deleted -m --modified -i --ignored --exclude-standard -x --exclude=
        -X --exclude-from= --exclude-per-directory=.gitignore --directory --no-empty-directory -t -v
        -z --deduplicate --full-name --error-unmatch -h --help" ;;
    clean) echo "-n --dry-run --no-dry-run -d -x -X -e --exclude= -f --force --no-force -q --quiet --no-quiet -h --help" ;;
    diff-files) echo "--raw --name-status --name-only -z -q --exit-code --no-exit-code --quiet --no-quiet
        --ignore-submodules --ignore-submodules= -h --help" ;;
    check-ignore) echo "-v --verbose --no-verbose -n --non-matching --no-non-matching -q --quiet --no-quiet --stdin --no-stdin -z --no-index --index -h --help" ;;
    *) echo "-C -h --help --version" ;;
    esac
}

# The values of an option.
_tizhagor_values() {
    case $1 in
    --untracked-files) echo "matching collapse" ;;
    --ignored) echo "matching collapse no" ;;
    --collapsed) echo "mismatch all no" ;;
    --permissions) echo "secure all isolated" ;;
    --for-deletion) echo "hide nonbare all no" ;;
    --strategy) echo "held at-once" ;;
    --color) echo "auto always never" ;;
    --ignore-submodules) echo "all dirty untracked none" ;;
    esac
}

# Takes words as candidates for the word at the cursor; those that want a value have no blank behind them.
_tizhagor_words() {
    mapfile -t COMPREPLY < <(compgen -W "$1" -- "$2")
    if [[ ${#COMPREPLY[@]} -eq 1 && ${COMPREPLY[0]} == *= ]]; then compopt -o nospace 2>/dev/null; fi
}

_tizhagor() {
    local word=${COMP_WORDS[COMP_CWORD]} before=${COMP_WORDS[COMP_CWORD - 1]} command= at ended=
    COMPREPLY=()
    for ((at = 1; at < COMP_CWORD; at++)); do
        case ${COMP_WORDS[at]} in
        -C) [[ -n $command ]] || at=$((at + 1)) ;;
        --) [[ -z $command ]] || ended=1 ;;
        report | plan | modules | state | ls-files | clean | diff-files | check-ignore) [[ -n $command ]] || command=${COMP_WORDS[at]} ;;
        esac
    done
    # Bash parts a word at `=`.
    if [[ $word == = ]]; then
        word=
    elif [[ $before == = ]]; then
        before=${COMP_WORDS[COMP_CWORD - 2]}
    fi
    if [[ -z $ended && -n $(_tizhagor_values "$before") && ${COMP_LINE:0:COMP_POINT} == *"$before="* ]]; then
        _tizhagor_words "$(_tizhagor_values "$before")" "$word"
    elif [[ -z $command && $before == -C ]]; then
        mapfile -t COMPREPLY < <(compgen -d -- "$word")
    elif [[ -z $command && $word != -* ]]; then
        _tizhagor_words "report plan modules state ls-files clean diff-files check-ignore" "$word"
    elif [[ -z $ended && $word == -* ]]; then
        _tizhagor_words "$(_tizhagor_options "$command")" "$word"
    elif [[ $command == report || $command == plan || $command == ls-files || $command == clean || $command == check-ignore ||
        ($command == diff-files && -n $ended) ]]; then
        mapfile -t COMPREPLY < <(compgen -f -- "$word")
    fi
}

complete -o filenames -F _tizhagor tizhagor
