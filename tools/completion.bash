# shellcheck shell=bash
# Completes the words of tkernel and tkwatch in bash, which reads this where tools/install linked it.
_tkernel_words() {
    local before=$3 command=${COMP_WORDS[1]} options='--steps --quantum --swap' words=
    if [ "$COMP_CWORD" = 1 ]; then
        case ${1##*/} in
        tkwatch) words='lines state memory profile trace visits changes accesses help' ;;
        *) words='run dump restart tasks check generate asm help' ;;
        esac
    else
        case $before/$command in
        --*/* | */check | */generate | */asm | */help) ;;
        */tasks) words="--tasks $options" ;;
        *) words=$options ;;
        esac
    fi
    mapfile -t COMPREPLY < <(compgen -W "$words" -- "$2")
}
complete -o default -F _tkernel_words tkernel tkwatch
