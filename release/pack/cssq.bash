# Completion of bash for cssq.
_cssq() {
    local word=${COMP_WORDS[COMP_CWORD]} command=${COMP_WORDS[1]-}
    if [ "$COMP_CWORD" = 1 ]; then
        COMPREPLY=($(compgen -W 'selector sheet match style --help --version' -- "$word"))
        return
    fi
    case $command/$COMP_CWORD in
        sheet/* | match/[23] | style/[23]) COMPREPLY=($(compgen -f -- "$word")) ;;
        *) COMPREPLY=() ;;
    esac
}
complete -o filenames -F _cssq cssq
