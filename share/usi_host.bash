# Completion of the words of usi_host and of usi_analyst, for bash.
_usi_host() {
    local word=${COMP_WORDS[COMP_CWORD]} before=${COMP_WORDS[COMP_CWORD - 1]}
    COMPREPLY=()
    case $before in
        --socket | --status)
            compopt -o default
            return
            ;;
        --eval)
            mapfile -t COMPREPLY < <(compgen -W 'plain hand exchange' -- "$word")
            return
            ;;
        --plies)
            mapfile -t COMPREPLY < <(compgen -W '1 3 5 7 9 11 13 15' -- "$word")
            return
            ;;
        --slots | --entries | --slice | --turns | --depth | --max-depth | --lines | --sfen)
            return
            ;;
    esac
    local words setup='--depth --max-depth --lines --eval'
    if [ "${1##*/}" = usi_analyst ]; then
        words='--entries --lines -h --help'
    elif [ "$COMP_CWORD" -eq 1 ]; then
        words='stdio replay serve perft moves mate help -h --help -V --version'
    else
        case ${COMP_WORDS[1]} in
            stdio) words="--entries $setup -h --help" ;;
            replay) words="--slots --entries --slice $setup -h --help" ;;
            serve) words="--socket --status --slots --entries --slice $setup --turns -h --help" ;;
            perft) words='--depth --sfen --divide -h --help' ;;
            moves) words='--sfen -h --help' ;;
            mate) words='--plies --sfen --line --keys -h --help' ;;
            help) words='stdio replay serve perft moves mate' ;;
        esac
    fi
    mapfile -t COMPREPLY < <(compgen -W "$words" -- "$word")
}
complete -F _usi_host usi_host usi_analyst
