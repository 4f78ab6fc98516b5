# shellcheck shell=bash
# Completes the command line of lta in bash. tools/build_usage.py writes this file from tools/lta/commands.py.
# In a release bash finds it by itself; in the repository: . tools/lta_completion.sh

_lta() {
    local word=${COMP_WORDS[COMP_CWORD]} before=${COMP_WORDS[COMP_CWORD - 1]} words=''
    if ((COMP_CWORD == 1)); then
        words='judge explain shortfalls intuitive dump column restore page show field build diff help version --help --version'
    elif [[ ${COMP_WORDS[1]} == help ]]; then
        words='judge explain shortfalls intuitive dump column restore page show field build diff help version text'
    else
        case ${COMP_WORDS[1]} in
            judge) words='--csv --json --jsonl --junit --refused --strict --pairs --joined --text --families --no-families --ignore -o --force --quiet --help' ;;
            explain) words='--pairs --joined --text --families --no-families --ignore -o --force --quiet --help' ;;
            shortfalls) words='--csv --json --jsonl --pairs --joined --text --families --no-families --ignore -o --force --quiet --help' ;;
            intuitive) words='--links --pairs --json --jsonl --joined --text --families --no-families --ignore -o --force --quiet --help' ;;
            dump) words='-o --force --quiet --pairs --text --ignore --help' ;;
            column) words='-o --force --quiet --help' ;;
            restore) words='-o --force --quiet --help' ;;
            page) words='-o --force --time --quiet --pairs --joined --text --families --no-families --ignore --help' ;;
            show) words='--joined -o --force --quiet --help' ;;
            field) words='--help' ;;
            build) words='--case --proposal --joined --families --dump --force --quiet --help' ;;
            diff) words='--library --no-families --ignore --csv --json --jsonl -o --force --quiet --help' ;;
            help) words='--help' ;;
            version) words='--help' ;;
        esac
        # Operands, and the values of most options, are names of files, which bash completes.
        [[ $word == -* ]] || words=''
        case "${COMP_WORDS[1]} $before" in
            'judge --junit' | 'judge --families' | 'judge --ignore' | 'judge -o') words='' ;;
            'explain --families' | 'explain --ignore' | 'explain -o') words='' ;;
            'shortfalls --families' | 'shortfalls --ignore' | 'shortfalls -o') words='' ;;
            'intuitive --pairs' | 'intuitive --families' | 'intuitive --ignore' | 'intuitive -o') words='' ;;
            'dump -o' | 'dump --ignore') words='' ;;
            'column -o') words='' ;;
            'restore -o') words='' ;;
            'page -o' | 'page --families' | 'page --ignore') words='' ;;
            'show -o') words='' ;;
            'build --case' | 'build --proposal' | 'build --joined' | 'build --families' | 'build --dump') words='' ;;
            'diff --library' | 'diff --ignore' | 'diff -o') words='' ;;
        esac
    fi
    mapfile -t COMPREPLY < <(compgen -W "$words" -- "$word")
}
complete -o bashdefault -o default -F _lta lta
