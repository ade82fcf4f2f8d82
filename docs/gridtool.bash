# bash completion for gridtool: source this file
_gridtool() {
    local word=${COMP_WORDS[COMP_CWORD]} options=
    if [ "$COMP_CWORD" -eq 1 ]; then
        COMPREPLY=($(compgen -W "split join move check run load" -- "$word"))
        return
    fi
    case ${COMP_WORDS[1]} in
        move | run) options="--threads --seed" ;;
    esac
    case $word in
        -*) COMPREPLY=($(compgen -W "$options" -- "$word")) ;;
        *) [ "${COMP_WORDS[1]}" = load ] || COMPREPLY=($(compgen -f -- "$word")) ;;
    esac
}
complete -F _gridtool gridtool ./gridtool
