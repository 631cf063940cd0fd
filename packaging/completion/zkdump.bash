# Completion of zkdump's arguments for bash.
_zkdump() {
    local word=$2 before=${COMP_WORDS[COMP_CWORD - 1]} words="show check build migrate"
    # bash takes --option=value apart at the sign.
    [[ $before != = ]] || before=${COMP_WORDS[COMP_CWORD - 2]}
    case $before in
    # The lines from here on are written by dev/names.py.
    --profile) words="3.4 3.5 3.7" ;;
    # Up to here.
    *['<>']) return ;;
    --limit | --waiting) words= ;;
    *)
        # The command, which may come after < and a file.
        if [[ " ${COMP_WORDS[*]:1:COMP_CWORD - 1} " =~ " "(show|check|build|migrate)" " ]]; then
            words="--limit --waiting --profile"
            [[ ${BASH_REMATCH[1]} != check ]] || words+=" --earliest"
        fi
        ;;
    esac
    mapfile -t COMPREPLY < <(compgen -W "$words" -- "$word")
    compopt +o default
}
# Names of files come after < and > alone.
complete -o default -F _zkdump zkdump
