# Completions of abt for bash. Written by .ci/documents/pages.py from the help of the program.
_abt() {
    local word=${COMP_WORDS[COMP_CWORD]}
    if [ "$COMP_CWORD" -eq 1 ]; then
        COMPREPLY=($(compgen -W "rate cell port run threads explain check audit police shape step play code write draw switch source help -h --help -V --version" -- "$word"))
        return
    fi
    case ${COMP_WORDS[1]} in
        rate) COMPREPLY=($(compgen -W "--json -h --help" -- "$word")) ;;
        cell) COMPREPLY=($(compgen -W "--json --stdin -h --help" -- "$word")) ;;
        port) COMPREPLY=($(compgen -W "--json --stdin -h --help" -- "$word")) ;;
        run) COMPREPLY=($(compgen -f -W "--json --explain --strict --quiet -h --help" -- "$word")) ;;
        threads) COMPREPLY=($(compgen -f -W "--workers --json --journals --events --explain --quiet -h --help" -- "$word")) ;;
        explain) COMPREPLY=($(compgen -f -W "--json --quiet -h --help" -- "$word")) ;;
        check) COMPREPLY=($(compgen -f -W "--json --located --expect -h --help" -- "$word")) ;;
        audit) COMPREPLY=($(compgen -f -W "--events --draw --only --from --to --port --source --json --quiet -h --help" -- "$word")) ;;
        police) COMPREPLY=($(compgen -W "--tau --rate --json -h --help" -- "$word")) ;;
        shape) COMPREPLY=($(compgen -W "--rate --json -h --help" -- "$word")) ;;
        step) COMPREPLY=($(compgen -f -W "--json --state --possible -h --help" -- "$word")) ;;
        play) COMPREPLY=($(compgen -f -W "--seed --loss --repeat --delay --events --draw --only --from --to -h --help" -- "$word")) ;;
        code) COMPREPLY=($(compgen -W "--json -h --help" -- "$word")) ;;
        write) COMPREPLY=($(compgen -W "$([ "$COMP_CWORD" -eq 2 ] && echo request yes no) --json -h --help" -- "$word")) ;;
        draw) COMPREPLY=($(compgen -f -W "-o --output --only --from --to --workers --events -h --help" -- "$word")) ;;
        switch) COMPREPLY=($(compgen -f -W "--port --journal --binary -h --help" -- "$word")) ;;
        source) COMPREPLY=($(compgen -f -W "--store --journal --new --binary --clock -h --help" -- "$word")) ;;
        help) COMPREPLY=($(compgen -W "rate cell port run threads explain check audit police shape step play code write draw switch source help" -- "$word")) ;;
        *) COMPREPLY=() ;;
    esac
}
complete -o filenames -F _abt abt
