# bash completion for taps(1)
_taps() {
    local word=${COMP_WORDS[COMP_CWORD]}
    case $COMP_CWORD in
        1) mapfile -t COMPREPLY < <(compgen -W 'plan sim run frame unframe gen' -- "$word") ;;
        2)
            case ${COMP_WORDS[1]} in
                gen) ;;
                *) compopt -o filenames; mapfile -t COMPREPLY < <(compgen -f -- "$word") ;;
            esac
            ;;
        3)
            case ${COMP_WORDS[1]} in
                sim | unframe) compopt -o filenames; mapfile -t COMPREPLY < <(compgen -f -- "$word") ;;
            esac
            ;;
    esac
}
complete -F _taps taps
