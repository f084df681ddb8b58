# Completions of mdlview for bash.
_mdlview() {
    local words=
    if [ "$COMP_CWORD" -eq 1 ]; then
        words='why locks waits graph timeline query help --script --at --json --help --version'
    else
        case ${COMP_WORDS[1]} in
            graph) words='--script --at --help' ;;
            timeline) words='--script --at --html --help' ;;
            query) words='--server --help mysql mariadb' ;;
            help) words='why locks waits graph timeline query' ;;
            *) words='--script --at --json --help' ;;
        esac
    fi
    COMPREPLY=($(compgen -W "$words" -- "${COMP_WORDS[COMP_CWORD]}"))
}
complete -F _mdlview mdlview
