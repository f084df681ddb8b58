# Completions of mdlsim for bash.
_mdlsim() {
    local words=
    if [ "$COMP_CWORD" -eq 1 ]; then
        words='lock matrix replay explain run help --help --version'
    else
        case ${COMP_WORDS[1]} in
            lock) words='--scoped --help' ;;
            matrix | replay | explain) words='--help' ;;
            run) words='--patience --cache --help' ;;
            help) words='lock matrix replay explain run' ;;
        esac
    fi
    COMPREPLY=($(compgen -W "$words" -- "${COMP_WORDS[COMP_CWORD]}"))
}
complete -F _mdlsim mdlsim
