# Completion of wdyl's commands, options and files, for bash.

_wdyl() {
    local word=${COMP_WORDS[COMP_CWORD]} before=${COMP_WORDS[COMP_CWORD - 1]} command=${COMP_WORDS[1]} set options
    COMPREPLY=()
    if [ "$COMP_CWORD" -eq 1 ]; then
        COMPREPLY=($(compgen -W "merge run exec plan gen trace replay snap board" -- "$word"))
        return
    fi
    # bash takes `=` for a word of its own
    [ "$word" != = ] || word=
    [ "$before" != = ] || before=${COMP_WORDS[COMP_CWORD - 2]}
    case $before in
    --pages | --stack | --steps | --slice | --turns) return ;;
    --path)
        compopt -o filenames -o nospace
        local head=
        case $word in *:*) head=${word%:*}: ;; esac
        COMPREPLY=($(compgen -P "$head" -d -- "${word##*:}"))
        return
        ;;
    --dl)
        compopt -o filenames
        local head=
        case $word in *,*) head=${word%,*}, ;; esac
        COMPREPLY=($(compgen -P "$head" -f -X '!*.so*' -- "${word##*,}"))
        return
        ;;
    esac
    # words behind `--` are those of the program
    local n
    for ((n = 2; n < COMP_CWORD; n++)); do
        [ "${COMP_WORDS[n]}" != -- ] || { compopt -o default; return; }
    done
    set="--dl --path --pages --stack --no-duplicates"
    case $command in
    merge | plan) options=$set ;;
    run | snap) options="$set --steps" ;;
    trace | replay) options="$set --steps --one" ;;
    exec) options=--steps ;;
    gen) options="--pages --steps" ;;
    board) options="--pages --stack --steps --slice --turns" ;;
    *) return ;;
    esac
    case $word in
    -*) COMPREPLY=($(compgen -W "$options" -- "$word")) ;;
    *) [ "$command" = gen ] || compopt -o default ;;
    esac
}

complete -F _wdyl wdyl
