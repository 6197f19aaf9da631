# bash completion of wasmloop
_wasmloop() {
    local word=${COMP_WORDS[COMP_CWORD]} options
    if [ "$COMP_CWORD" = 1 ]; then
        mapfile -t COMPREPLY < <(compgen -W 'check invoke work script serve help --help --version' -- "$word")
        return
    fi
    case ${COMP_WORDS[1]} in
    check) options='--help' ;;
    invoke) options='--fuel --depth --trace --help' ;;
    work) options='--in --text --out --raw --fuel --depth --trace --help' ;;
    script) options='--help' ;;
    serve) options='--loops --workers --fuel --work-fuel --depth --trace --help' ;;
    help) mapfile -t COMPREPLY < <(compgen -W 'check invoke work script serve' -- "$word"); return ;;
    esac
    case $word in
    -*) mapfile -t COMPREPLY < <(compgen -W "$options" -- "$word") ;;
    *) mapfile -t COMPREPLY < <(compgen -f -- "$word") ;;
    esac
}
complete -o filenames -F _wasmloop wasmloop
