# Completions of `dc` for bash: source this file, for a `dc` on the PATH or ./dc.
_dc() {
    local word=${COMP_WORDS[COMP_CWORD]} before=${COMP_WORDS[COMP_CWORD - 1]} command="" k
    for ((k = 1; k < COMP_CWORD; k++)); do
        case ${COMP_WORDS[k]} in
            --edges | --) ;;
            *) command=${COMP_WORDS[k]}; break ;;
        esac
    done
    case $before in
        '<' | '>' | '>>' | '2>') COMPREPLY=(); compopt -o default ;;   # a file name, as bash completes it
        *)
            case $command in
                '') mapfile -t COMPREPLY < <(compgen -W 'check delays run migrate gen drill show --edges' -- "$word") ;;
                run) mapfile -t COMPREPLY < <(compgen -W '--edges' -- "$word") ;;
                *) COMPREPLY=() ;;
            esac
            ;;
    esac
}
complete -F _dc dc ./dc
