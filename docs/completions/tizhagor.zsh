#compdef tizhagor
# Completions of tizhagor for zsh; scripts/install puts them in place, and scripts/check-install compares them with the help texts.

_tizhagor() {
    local -a shown looked written colour listed cleaned compared checked help
    shown=(
        '(-u --untracked-files)'{-u,--untracked-files=-}'[untracked paths]::mode:(matching collapse)'
        '--ignored=-[ignored paths too]::mode:(matching collapse no)'
        '--collapsed=[what a directory stands for, too]:which:(mismatch all no)'
        '(--tracked --no-tracked)'{--tracked,--no-tracked}'[tracked paths]'
        '(--pruned --no-pruned)'{--pruned,--no-pruned}'[what is left out]'
        '(--empty-directories --no-empty-directories)'{--empty-directories,--no-empty-directories}'[directories without names]'
        '(--origins --no-origins)'{--origins,--no-origins}'[the rule that decided]'
        '(--submodules --no-submodules)'{--submodules,--no-submodules}'[the submodule at the path]'
        '--permissions=[the configurations that are read]:which:(secure all isolated)'
        '(--outcome --no-outcome)'{--outcome,--no-outcome}'[a last line with the counts of the walk]'
        '(--recurse-repositories --no-recurse-repositories)'{--recurse-repositories,--no-recurse-repositories}'[nested repositories as directories]'
        '(--bare-repositories --no-bare-repositories)'{--bare-repositories,--no-bare-repositories}'[bare repositories as repositories]'
        '--for-deletion=[as what is to be deleted]:mode:(hide nonbare all no)'
    )
    looked=(
        '(--excludes --no-excludes)'{--excludes,--no-excludes}'[ignore rules are asked]'
        '(--precious --no-precious)'{--precious,--no-precious}'[rules that begin with $ keep what they match]'
        '(--strict-parents --no-strict-parents)'{--strict-parents,--no-strict-parents}'[what lies in an excluded directory stays excluded]'
        '(--links-as-directories --no-links-as-directories)'{--links-as-directories,--no-links-as-directories}'[rules see a link as what it leads to]'
        '--strategy=[how the walk goes]:how:(held at-once)'
        '--depth=[how deep directories are entered]:number:'
    )
    written=('(-z --null)'{-z,--null}'[a NUL behind each line]')
    colour=('(--no-color)--color=-[lines in the colour of their status]::when:(auto always never)' '(--color)--no-color[no colours]')
    listed=(
        '(-c --cached)'{-c,--cached}'[what the index has]'
        '(-s --stage)'{-s,--stage}'[the same with mode, object and stage]'
        '(-u --unmerged)'{-u,--unmerged}'[what is not merged]'
        '(-o --others)'{-o,--others}'[what the index does not have]'
        '(-k --killed)'{-k,--killed}'[what lies in the way of the index]'
        '(-d --deleted)'{-d,--deleted}'[of the index, that of which nothing is there]'
        '(-m --modified)'{-m,--modified}'[of the index, that of which nothing is there or something else]'
        '(-i --ignored)'{-i,--ignored}'[what is ignored]'
        '--exclude-standard[ignore rules are asked]'
        '--exclude-per-directory=-[those of each directory are]:name:(.gitignore)'
        '*'{-x,--exclude=}'[an ignore rule before all others]:pattern:'
        '*'{-X,--exclude-from=}'[the ignore rules of a file]:file:_files'
        '--directory[directories in place of what they hold]'
        '--no-empty-directory[no directories without files]'
        '-t[a letter before each path]'
        '-v[the same, in lower case where assumed unchanged]'
        '-z[a NUL behind each path]'
        '--deduplicate[each path once]'
        '--full-name[paths from the top]'
        '--error-unmatch[a path that is about nothing is an error]'
    )
    cleaned=(
        '(-n --dry-run)'{-n,--dry-run}'[nothing is removed]'
        '--no-dry-run[takes -n back]'
        '-d[untracked directories too]'
        '(-X)-x[ignored paths too]'
        '(-x)-X[ignored paths alone]'
        '*'{-e,--exclude=}'[an ignore rule before all others]:pattern:'
        '*'{-f,--force}'[twice: untracked repositories too]'
        '--no-force[takes each -f back]'
        '(-q --quiet)'{-q,--quiet}'[nothing that would go is named]'
        '--no-quiet[takes -q back]'
    )
    compared=(
        '--raw[modes, ids, a letter and the path]'
        '--name-status[a letter and the path]'
        '--name-only[the path]'
        '-z[a NUL behind each field]'
        '-q[changes nothing]'
        '(--exit-code --no-exit-code)'{--exit-code,--no-exit-code}'[the status tells whether something changed]'
        '(--quiet --no-quiet)'{--quiet,--no-quiet}'[the same, and nothing is written]'
        '--ignore-submodules=-[submodules are left out, or none is]::when:(all dirty untracked none)'
    )
    checked=(
        '(-q --quiet)'{-v,--verbose}'[the rule that decides]'
        '--no-verbose[takes -v back]'
        '(-n --non-matching)'{-n,--non-matching}'[paths too that no rule decides about]'
        '--no-non-matching[takes -n back]'
        '(-q --quiet -v --verbose)'{-q,--quiet}'[nothing is written]'
        '--no-quiet[takes -q back]'
        '(--stdin --no-stdin)'{--stdin,--no-stdin}'[the paths of the standard input, or not]'
        '-z[with --stdin: NULs in place of line feeds]'
        '(--no-index --index)'{--no-index,--index}'[the index is left aside, or asked]'
    )
    help=('(- *)'{-h,--help}'[the help text]')
    local context state line
    typeset -A opt_args
    _arguments -C '-C[the directory to work in]:directory:_files -/' $help '(- *)--version[the version]' \
        '1:command:((report\:"the untracked paths, and others" plan\:"what may be removed" modules\:"what an update of the submodules would do" state\:"the paths of the index, and the report" ls-files\:"paths, as git ls-files" clean\:"what git clean would remove" diff-files\:"how paths changed" check-ignore\:"which rule excludes a path"))' \
        '*::word:->words'
    [[ $state == words ]] || return
    case $line[1] in
    report) _arguments -s $shown $looked $written '--plain[two letters in place of words]' $colour $help '*:path:_files' ;;
    plan) _arguments -s '-x[ignored paths too]' '-X[ignored paths alone]' '--nonbare[bare repositories as directories]' $looked $written $help '*:path:_files' ;;
    modules) _arguments '--permissions=[the configurations that are read]:which:(secure all isolated)' $help ;;
    state) _arguments -s $shown '--by-stat[by stat fields, and not by bytes]' $looked $written $colour $help ;;
    ls-files) _arguments -s $listed $help '*:path:_files' ;;
    clean) _arguments -s $cleaned $help '*:path:_files' ;;
    diff-files) _arguments -s $compared $help '*:path:_files' ;;
    check-ignore) _arguments -s $checked $help '*:path:_files' ;;
    esac
}

_tizhagor "$@"
