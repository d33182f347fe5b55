#compdef abt
# Completions of abt for zsh. Written by .ci/documents/pages.py from the help of the program.
_abt() {{
    local -a commands
    commands=(
{commands}
    )
    if (( CURRENT == 2 )); then
        _describe command commands
        _arguments {flags}
        return
    fi
    local command=$words[2]
    shift words
    (( CURRENT-- ))
    case $command in
{cases}
    esac
}}
_abt "$@"
