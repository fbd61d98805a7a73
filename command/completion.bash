# Completion of `lernazhup` for bash: verbs, options, modes, and else names of files.
_lernazhup() {
    local word=${COMP_WORDS[COMP_CWORD]} before=${COMP_WORDS[COMP_CWORD - 1]} choices=''
    case ${COMP_WORDS[1]} in
    read) choices='-m -c --json --help' ;;
    write | pcap) choices='-m -c -o --help' ;;
    look) choices='-m -o --help' ;;
    esac
    if [[ $COMP_CWORD -eq 1 ]]; then
        choices='read write look pcap --help --version'
    elif [[ $before == -m || $before == -cm ]]; then
        choices='0 1 2'
    elif [[ $word != -* || $before == -o || " ${COMP_WORDS[*]:0:COMP_CWORD} " == *' -- '* ]]; then
        return # bash completes names of files by itself
    fi
    mapfile -t COMPREPLY < <(compgen -W "$choices" -- "$word")
}
complete -o bashdefault -o default -F _lernazhup lernazhup
