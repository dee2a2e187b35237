# Completion for bash: source this file. It completes ./spbsim and fabric/fabric.
_spbsim() {
    case ${COMP_WORDS[COMP_CWORD-1]} in
        --kind) COMPREPLY=($(compgen -W "plain swift mixed" -- "$2")) ;;
        make) COMPREPLY=($(compgen -W "$(seq 4 96)" -- "$2")) ;;
        *) COMPREPLY=($(compgen -W "run make try capture list --kind" -- "$2")) ;;
    esac
}
_fabric() {
    local words="transcript explain report timeline draw import node-down drain undrain"
    local options="--help --program --json --at --n-1 --all --seconds --isid --from --load --vid --own --layout --title -o --format --vids --metric --priority --members --whole"
    if [ "$COMP_CWORD" = 1 ]; then
        COMPREPLY=($(compgen -W "$words" -- "$2"))
    elif [[ $2 == -* ]]; then
        COMPREPLY=($(compgen -W "$options" -- "$2"))
    else
        COMPREPLY=($(compgen -f -- "$2"))
    fi
}
complete -F _spbsim spbsim
complete -o filenames -F _fabric fabric
