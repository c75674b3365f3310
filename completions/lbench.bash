# Completion of lbench for bash. Source it, or put it into the folder
# /usr/share/bash-completion/completions under the name lbench.

_lbench() {
    local word=${COMP_WORDS[COMP_CWORD]} before=${COMP_WORDS[COMP_CWORD - 1]}
    COMPREPLY=()
    case $before in
        --workers)
            COMPREPLY=($(compgen -W '0 1 2 4 8 16 32 64' -- "$word"))
            return
            ;;
        --batch)
            COMPREPLY=($(compgen -W '1 16 32 64' -- "$word"))
            return
            ;;
        --format)
            COMPREPLY=($(compgen -W 'lines junit table csv vcd svg' -- "$word"))
            return
            ;;
        --node | --observe | --show | --last | --vars | --part)
            return
            ;;
    esac
    if [[ $word == -* ]]; then
        COMPREPLY=($(compgen -W '--node --observe --workers --batch --by-length --follow
            --show --format --last --vars --all --explain --explain-all --check --header
            --strict --baseline --part --merge
            --version --help' -- "$word"))
        return
    fi
    COMPREPLY=($(compgen -f -- "$word"))
}

complete -o filenames -F _lbench lbench
