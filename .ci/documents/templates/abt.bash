# Completions of abt for bash. Written by .ci/documents/pages.py from the help of the program.
_abt() {{
    local word=${{COMP_WORDS[COMP_CWORD]}}
    if [ "$COMP_CWORD" -eq 1 ]; then
        COMPREPLY=($(compgen -W "{names}" -- "$word"))
        return
    fi
    case ${{COMP_WORDS[1]}} in
{cases}
        *) COMPREPLY=() ;;
    esac
}}
complete -o filenames -F _abt abt
