# Completion of smlc's words for bash: `source docs/smlc.bash`, or copy it as /usr/share/bash-completion/completions/smlc.
_smlc() {
    local word=${COMP_WORDS[COMP_CWORD]} before=${COMP_WORDS[COMP_CWORD - 1]}
    if ((COMP_CWORD == 1)); then
        mapfile -t COMPREPLY < <(compgen -W "run compile types plan gen exec" -- "$word")
        return
    fi
    case $before in
        --arena|--steps) COMPREPLY=() ;;
        -o) mapfile -t COMPREPLY < <(compgen -f -- "$word") ;;
        *)
            case ${COMP_WORDS[1]} in
                run) mapfile -t COMPREPLY < <(compgen -f -X '!*.sml' -- "$word"; compgen -d -- "$word"; compgen -W "--arena --steps" -- "$word") ;;
                compile) mapfile -t COMPREPLY < <(compgen -f -X '!*.sml' -- "$word"; compgen -d -- "$word"; compgen -W "-o --arena" -- "$word") ;;
                types|plan) mapfile -t COMPREPLY < <(compgen -f -X '!*.sml' -- "$word"; compgen -d -- "$word") ;;
                exec) mapfile -t COMPREPLY < <(compgen -f -- "$word"; compgen -W "--steps" -- "$word") ;;
            esac ;;
    esac
}
complete -o filenames -F _smlc smlc ./smlc
