# The `git` that scripts/git-suite puts before git itself; it stands there behind lines that set
#
#   git      git itself            program  tizhagor               handed   the commands that are handed over, with blanks around each
#   log      the file that each call handed over, refused or left is noted in, a line a call
#   compare  yes, where git is asked too and the calls are noted that are answered otherwise; then a `clean` that is to remove is first
#            asked with -n, of both
#
# A call of a command that is handed over is answered by the program. Where the program refuses its form by name, or does not have the
# command, git answers it, and the call is noted as refused. Git answers too where there are options of git's own before the command, but
# for one -C, where a variable asks for a trace, and `clean` that is to remove; these calls are noted as left. Status, output and standard
# error are those of who answers.
# shellcheck shell=sh disable=SC2154

# Notes a call: what became of it, the command, the directory and the words.
note() {
    told=$1
    shift
    printf '#suite %s\t%s\t%s\t%s\n' "$told" "$command" "$(pwd)" "$(printf '%s ' "$@" | tr '\n\t' '  ')" >> "$log"
}

# Whether the words of `git clean` say that nothing is to be removed.
only_says() {
    value=
    for word do
        if [ -n "$value" ]; then
            value=
            continue
        fi
        case $word in
        --) return 1 ;;
        --dry*) return 0 ;;
        --exclude) value=1 ;;
        --*) ;;
        -*)
            case ${word%%e*} in *n*) return 0 ;; esac
            case $word in *e) [ "${word%%e*}e" != "$word" ] || value=1 ;; esac
            ;;
        esac
    done
    return 1
}

# Whether what the program said to standard error says that it does not have the command or the form.
is_refused() {
    case $1:$(head -n 1 "$2") in
    129:*": unknown command "* | 129:*": unknown option "* | 129:*": unknown switch "* | 129:*" is git's, and is not answered here"*) return 0 ;;
    129:*"' may be a revision; write "*) return 0 ;;
    0:* | 1:*) return 1 ;;
    *"not supported"* | *"is set, which is not heeded"* | *"the index is split"* | *" is not read"* | *" are not read"*) return 0 ;;
    *"the index leaves out directory"*) return 0 ;;
    esac
    return 1
}

# Notes how a text differs from git's, where it does: the name of the text, the two files, and the words of the call.
compared() {
    name=$1
    ours=$2
    gits=$3
    shift 3
    ! cmp -s "$ours" "$gits" || return 0
    note "otherwise $name" "$@"
    diff -a "$gits" "$ours" | head -n 20 | sed 's/^/#diff /' >> "$log"
}

# Asks git what the program was asked, and notes how the two differ.
beside_git() {
    wanted=0
    "$git" "$@" > "$kept/answer.git" 2> "$kept/told.git" < /dev/null || wanted=$?
    [ "$status" -eq "$wanted" ] || note "otherwise status $status for $wanted" "$@"
    compared output "$kept/answer" "$kept/answer.git" "$@"
    compared "standard error" "$kept/told" "$kept/told.git" "$@"
}

# Asks for what a `clean` is to remove, by -n behind its name, which is the word of this number.
asked_dry() {
    count=$1
    shift
    at=0
    for word do
        shift
        set -- "$@" "$word"
        at=$((at + 1))
        [ "$at" -ne "$count" ] || set -- "$@" -n
    done
    kept=$(mktemp -d) || exit 125
    status=0
    timeout --foreground 60 "$program" "$@" > "$kept/answer" 2> "$kept/told" < /dev/null || status=$?
    if is_refused "$status" "$kept/told"; then
        note "dry refused $(head -n 1 "$kept/told" | tr '\t' ' ')" "$@"
    else
        note "dry answered" "$@"
        beside_git "$@"
    fi
    rm -rf "$kept"
}

command=
own=
value=
directories=0
before=0
for word do
    before=$((before + 1))
    if [ -n "$value" ]; then
        value=
        continue
    fi
    case $word in
    -C)
        value=1
        directories=$((directories + 1))
        ;;
    -c | --git-dir | --work-tree | --namespace | --super-prefix | --config-env | --exec-path)
        own=$word
        [ "$word" = --exec-path ] || value=1
        ;;
    -*) own=$word ;;
    *)
        command=$word
        break
        ;;
    esac
done
case $handed in
*" ${command:-/} "*) ;;
*) exec "$git" "$@" ;;
esac
# A trace that a variable asks git for is no part of an answer.
if [ -n "$own" ] || [ "$directories" -gt 1 ] || [ -n "${GIT_TRACE2_EVENT-}${GIT_TRACE2_PERF-}${GIT_TRACE2-}${GIT_TRACE-}" ]; then
    note left "$@"
    exec "$git" "$@"
fi
if [ "$command" = clean ]; then
    # Only the words behind the command, in a shell of their own.
    if ! (shift "$before" && only_says "$@"); then
        [ "$compare" != yes ] || (asked_dry "$before" "$@")
        note left "$@"
        exec "$git" "$@"
    fi
fi

kept=$(mktemp -d) || exit 125
status=0
streamed=
for word do
    [ "$word" != --stdin ] || streamed=1
done
if [ -n "$streamed" ]; then
    # What comes in and what goes out may be a talk: the output is not held back, and git is not asked too.
    timeout --foreground 60 "$program" "$@" 2> "$kept/told" || status=$?
else
    timeout --foreground 60 "$program" "$@" > "$kept/answer" 2> "$kept/told" || status=$?
fi
if is_refused "$status" "$kept/told"; then
    note "refused $(head -n 1 "$kept/told" | tr '\t' ' ')" "$@"
    rm -rf "$kept"
    exec "$git" "$@"
fi
note answered "$@"
if [ -z "$streamed" ]; then
    [ "$compare" != yes ] || beside_git "$@"
    cat "$kept/answer"
fi
cat "$kept/told" >&2
rm -rf "$kept"
exit "$status"
