# What the scripts share; each begins by finding it beside itself.
#
# It takes git's own variables out of the environment, so that the repository that is asked is the one at ROOT and no
# other, and CDPATH, so that `cd` goes where it is told. It sets $here to the top of this repository, and ends the script
# with 2 and a word where anything that the script calls fails.
# shellcheck shell=bash
set -Eeuo pipefail
shopt -s inherit_errexit
export LC_ALL=C
# Functions that the caller exports, and what it has bash run before a script, have no say in what follows.
while IFS= read -r name; do unset -f -- "$name" || true; done < <(compgen -A function || true)
unset BASH_ENV ENV CDPATH PERL_UNICODE PERL5OPT PERL5LIB PERLLIB PERLIO PERL5DB POSIXLY_CORRECT
here=${BASH_SOURCE[0]%/*/*}
script=${0##*/}

# Says why the script ends, and ends it with 2.
fail() {
    echo "$script: $1" >&2
    exit 2
}

# Ends the script with 2 where a command of its own fails, and says where; one that ended with 2 has said why.
failed() {
    [ "$1" -eq 2 ] || echo "$script: line $2 ended with $1: ${3%%$'\n'*}" >&2
    exit 2
}
trap 'failed "$?" "$LINENO" "$BASH_COMMAND"' ERR

# git's variables, by git's own list where git runs.
unset GIT_DIR GIT_WORK_TREE GIT_INDEX_FILE GIT_COMMON_DIR GIT_OBJECT_DIRECTORY GIT_ALTERNATE_OBJECT_DIRECTORIES GIT_CONFIG \
    GIT_CONFIG_PARAMETERS GIT_CONFIG_COUNT GIT_NAMESPACE GIT_PREFIX GIT_CEILING_DIRECTORIES GIT_DISCOVERY_ACROSS_FILESYSTEM \
    GIT_OPTIONAL_LOCKS GIT_LITERAL_PATHSPECS GIT_GLOB_PATHSPECS GIT_NOGLOB_PATHSPECS GIT_ICASE_PATHSPECS GIT_ATTR_SOURCE \
    GIT_TEMPLATE_DIR GIT_DEFAULT_HASH GIT_DEFAULT_REF_FORMAT
# shellcheck disable=SC2046
unset $(git rev-parse --local-env-vars 2>/dev/null || true)

# No hook of the repository that is asked runs, and nothing is written to its index. By variables, so that each git that is called here,
# and each that it calls, goes by them.
export GIT_CONFIG_COUNT=1 GIT_CONFIG_KEY_0=core.fsmonitor GIT_CONFIG_VALUE_0=false GIT_OPTIONAL_LOCKS=0

# Prints the comment at the head of the script, which says how it is used.
help() {
    sed -n '2,/^[^#]/{/^#/!d;s/^# \{0,1\}//;p}' "$0"
}

# Prints the help and ends where it is asked for, before a word `--`.
help_if_asked() {
    for word in "$@"; do
        case $word in
        --) return ;;
        -h | --help)
            help
            exit 0
            ;;
        esac
    done
}

# The directory at $1, whole and without links. A name that begins with `-` is one all the same.
directory() {
    local path=$1 whole
    [ -n "$path" ] || fail "the name of the directory is empty"
    [ "${path:0:1}" = / ] || path=./$path
    # The last byte keeps the line feeds before it, which are looked for then.
    whole=$(cd -- "$path" 2>/dev/null && pwd -P && echo /) || fail "${1@Q} is no directory that can be entered"
    whole=${whole%$'\n/'}
    case $whole in
    *$'\n'*) fail "the path of ${1@Q} has a line feed, and fits no line" ;;
    esac
    echo "$whole"
}

# Fails unless a command is there.
need() {
    command -v "$1" >/dev/null || fail "there is no $1"
}

# The directory at $1, where it is the top of a git work tree.
work_tree() {
    need git
    local root top said
    root=$(directory "$1")
    if ! top=$(git -C "$root" rev-parse --show-toplevel 2>/dev/null); then
        said=$(git -C "$root" rev-parse --show-toplevel 2>&1 >/dev/null || true)
        fail "git finds no work tree at $root; it says: ${said:-nothing}"
    fi
    [ "$top" = "$root" ] || fail "$root is not the top of its git work tree, which is $top"
    echo "$root"
}

# A folder of the script's own, at $work, which goes when the script ends.
own_folder() {
    need mktemp
    work=$(mktemp -d 2>/dev/null) || fail "no folder can be made in ${TMPDIR:-/tmp}; set TMPDIR to one in which it can"
    # shellcheck disable=SC2064
    trap "$(printf 'rm -rf -- %q' "$work")" EXIT
    work=$(directory "$work")
}

# From here on no configuration, file of attributes or excludes file of the user or of the system has a say in what git does.
without_user() {
    export GIT_CONFIG_GLOBAL=/dev/null GIT_CONFIG_NOSYSTEM=1 GIT_ATTR_NOSYSTEM=1 HOME=/dev/null
    unset XDG_CONFIG_HOME
}

# What the program `tizhagor` at $program says in the directory at $1, with the words behind it. It refuses variables that give git
# a configuration, as they are set above.
tizhagor_in() {
    local from=$1
    shift
    (cd -- "$from" && env -u GIT_CONFIG_COUNT "$program" "$@") || fail "tizhagor $* ended with $? in $from"
}
