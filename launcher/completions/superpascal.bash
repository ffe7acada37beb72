# Completion of superpascal for bash. Made by launcher/pages of launcher/commands.txt: change that.
_superpascal() {
    local word=${COMP_WORDS[COMP_CWORD]} before=${COMP_WORDS[COMP_CWORD-1]} options=
    COMPREPLY=()
    if [ "$COMP_CWORD" -eq 1 ]; then
        COMPREPLY=($(compgen -W "run replay trace where witness check code build exec sets format gen explain picture schedules compare speedup grade help --help -h --version --words" -- "$word"))
        return
    fi
    # (bash takes `=` for a word of its own)
    if [ "$word" = = ]; then
        word=
    elif [ "$before" = = ]; then
        before=${COMP_WORDS[COMP_CWORD-2]}
    fi
    case $before in
        --show) COMPREPLY=($(compgen -W "end timeline census tree waiting all journal" -- "$word")) && return ;;
        --workers | --ticks | --depth | --cells | --processes | --channels | --entries | --output) return ;;
    esac
    case ${COMP_WORDS[1]} in
        run) options="--workers --ticks --depth --cells --processes --channels --entries --output --show --help" ;;
        replay) options="--ticks --depth --cells --processes --channels --entries --output --help" ;;
        trace) options="--ticks --depth --cells --processes --channels --entries --output --help" ;;
        where) options="--ticks --depth --cells --processes --channels --entries --output --help" ;;
        witness) options="--workers --ticks --depth --cells --processes --channels --entries --output --help" ;;
        check) options="--help" ;;
        code) options="--help" ;;
        build) options="--help" ;;
        exec) options="--workers --ticks --depth --cells --processes --channels --entries --output --help" ;;
        sets) options="--help" ;;
        format) options="--help" ;;
        gen) options="--workers --help" ;;
        explain | picture | schedules | compare | speedup | grade) options="--help" ;;
    esac
    case $word in
        -*) COMPREPLY=($(compgen -W "$options" -- "$word")) && return ;;
    esac
    case ${COMP_WORDS[1]} in
        gen) ;;
        *) COMPREPLY=($(compgen -f -- "$word")) ;;
    esac
}
complete -o filenames -F _superpascal superpascal ./superpascal
