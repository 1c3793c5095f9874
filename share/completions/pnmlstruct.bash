# Completions of pnmlstruct for bash: the task, then its options, each once and in their order.
_pnmlstruct() {
    local word=${COMP_WORDS[COMP_CWORD]} before=${COMP_WORDS[COMP_CWORD - 1]} words=
    if [ "$COMP_CWORD" -eq 1 ]; then
        words="check canon class places transitions siphons traps bounds commoner live sub cert-bounds cert-commoner verify resume replay sample"
    elif [ "${COMP_WORDS[1]}" != sample ] && [ "$before" != --net ] && [ "$before" != --rows ] && [ "$before" != --sets ]; then
        case " ${COMP_WORDS[*]:1:COMP_CWORD-1} " in
            *" --sets "*) ;;
            *" --rows "*) words="--sets" ;;
            *" --net "*) words="--rows --sets" ;;
            *) words="--net --rows --sets" ;;
        esac
    fi
    COMPREPLY=($(compgen -W "$words" -- "$word"))
}
complete -F _pnmlstruct pnmlstruct
