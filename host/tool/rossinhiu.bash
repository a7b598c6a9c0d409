# Completion of rossinhiu for bash: source this file, or copy it to the folder of completions under the name rossinhiu.
_rossinhiu() {
    local word=${COMP_WORDS[COMP_CWORD]} before=${COMP_WORDS[COMP_CWORD - 1]} options
    COMPREPLY=()
    if ((COMP_CWORD == 1)); then
        mapfile -t COMPREPLY < <(compgen -W 'bench list stretch --help' -- "$word")
        return
    fi
    # A number stands behind these: there is nothing to complete.
    case $before in
        --records | --client | --last) return ;;
    esac
    case ${COMP_WORDS[1]} in
        bench) options='--records --refusals --help' ;;
        list) options='--client --last --help' ;;
        stretch) options='--client --help' ;;
        *) return ;;
    esac
    if [[ $word == -* ]]; then
        mapfile -t COMPREPLY < <(compgen -W "$options" -- "$word")
    else
        compopt -o filenames 2> /dev/null
        mapfile -t COMPREPLY < <(compgen -f -- "$word")
    fi
}
complete -F _rossinhiu rossinhiu
