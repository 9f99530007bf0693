# Completion for bash: source this file. Then the words of tasktree, ./tasktree and ./first-look are completed.

_tasktree() {
    local word=${COMP_WORDS[COMP_CWORD]} before=${COMP_WORDS[COMP_CWORD - 1]} words=
    # an equals sign is a word of its own here: --nodes = 4
    if [ "$word" = "=" ]; then before=${COMP_WORDS[COMP_CWORD - 1]} word=; fi
    if [ "$before" = "=" ]; then before=${COMP_WORDS[COMP_CWORD - 2]}; fi
    case $before in
    --nodes | --shards) words="1 2 3 4 5 6 7 8 9 10 11 12 13 14 15" ;;
    --slots) words="1 2 4 16 64 256 1024" ;;
    --data) words="1 2 3 4" ;;
    gen) words="1" ;;
    *)
        if [ "$COMP_CWORD" -eq 1 ]; then
            words="sim run gen --help --version"
        elif [ "${COMP_WORDS[1]}" = sim ] || [ "${COMP_WORDS[1]}" = run ]; then
            local option options="--nodes --shards --slots"
            if [ "${COMP_WORDS[1]}" = run ]; then options="$options --data"; fi
            for option in $options; do
                case " ${COMP_WORDS[*]} " in
                *" $option "*) ;;
                *) words="$words $option" ;;
                esac
            done
        fi
        ;;
    esac
    mapfile -t COMPREPLY < <(compgen -W "$words" -- "$word")
}

complete -o default -F _tasktree tasktree ./tasktree first-look ./first-look
