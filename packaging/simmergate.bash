# Completion of simmergate(1) for bash.
_simmergate() {
    local word=${COMP_WORDS[COMP_CWORD]} before=${COMP_WORDS[COMP_CWORD - 1]} options
    COMPREPLY=()
    if [ "$COMP_CWORD" -eq 1 ]; then
        COMPREPLY=($(compgen -W 'shorten value table text tree differ open site takeover link settings --help --version' -- "$word"))
        return
    fi
    case $before in
    -l) COMPREPLY=($(compgen -W '3072 16384' -- "$word")); return ;;
    -e) COMPREPLY=($(compgen -W '1 2' -- "$word")); return ;;
    -t | --piece) return ;;
    esac
    options='--help'
    case ${COMP_WORDS[1]} in
    shorten) options="$options -t -l -e --table --text --names --steps --tabs -o" ;;
    value | text) options="$options -t -l --table --text --names -o" ;;
    table) options="$options -t -l --table --text --names --lines -o" ;;
    tree) options="$options -t -l --table --text --names --dot -o" ;;
    differ) options="$options -t -l --table --text --names --html --tabs -o" ;;
    open) options="$options -t -l -e --table --text --names --steps --opened -o" ;;
    site) options="$options -l -e --table --text --names --tabs -o" ;;
    takeover) options="$options -l -e --tabs -o" ;;
    link) options="$options -l --piece -o" ;;
    settings) options="$options --old" ;;
    esac
    if [ "${COMP_WORDS[1]}" = settings ] && [ "$COMP_CWORD" -eq 3 ]; then
        COMPREPLY=($(compgen -W "$options init store fetch remove list" -- "$word"))
        return
    fi
    case $word in
    -*) COMPREPLY=($(compgen -W "$options" -- "$word")) ;;
    *) COMPREPLY=($(compgen -f -- "$word")) ;;
    esac
}
complete -o filenames -F _simmergate simmergate
