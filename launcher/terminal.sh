# What the script superpascal does at a terminal alone: it says which words and files are wrong, gives empty input to a
# program that reads none, ends the last line of an output before the notes come, and adds the place and the cause.
# Sourced by the script superpascal after launcher/words.sh, whose judge_words has judged the words.
# shellcheck shell=sh disable=SC2154 # The variables are those of the script and of launcher/words.sh.

# Whether the words are UTF-8, as far as this can be known here.
are_utf8() {
    case $* in *[!-A-Za-z0-9_./=+:,@%\ ]*) ;; *) return 0 ;; esac
    ! command -v iconv >/dev/null || printf '%s\n' "$@" | iconv -f UTF-8 >/dev/null 2>&1
}

# Says what is wrong with words, or with a file that they name. Words that give no command are refused here only if
# no program is there to do it.
tell_mistakes() {
    [ -n "$wrong" ] || are_utf8 "$@" || wrong='a word is not UTF-8'
    if [ -n "$wrong" ]; then
        say "$wrong"
        find_program && return
        echo 'bad words' >&2
        exit 2
    fi
    case $operands in *FILE*) ;; *) return ;; esac
    tell_file "$file" || { echo 'read fault' >&2 && exit 5; }
    case $operands in *JOURNAL*) tell_file "$journal" ;; esac
}

# Says what is wrong with the file $1. Fails if it cannot be read at all.
tell_file() {
    if [ -d "$1" ]; then
        say "$1 is a folder"
        return 1
    fi
    if [ -e "$1" ] && [ ! -r "$1" ]; then
        say "$1 cannot be read: no permission"
        return 1
    fi
    if [ -f "$1" ] && [ "$(head -c 65536 <"$1" | LC_ALL=C tr -dc '\000' | wc -c)" -gt 0 ]; then
        say "$1 is no text: it has bytes of value 0"
    fi
}

# Whether the text or the code may read its input. Only what is surely without the words for it does not.
reads_input() {
    [ -f "$file" ] && [ -r "$file" ] || return 0
    case $command in
    exec) grep -qE '^[0-9]+ (read int|read char|readln|eof|eoln)$' <"$file" ;;
    *) LC_ALL=C tr -cs A-Za-z0-9_ '[\n*]' <"$file" | grep -qixE 'read|readln|eof|eoln' ;;
    esac
}

# Runs the program on the words, and ends the last line of its output, if that has no line feed, before its notes come.
run_by_lines() {
    # (an input that is closed cannot be handed on)
    (: 3<&0) 2>/dev/null || exec "$program" "$@"
    texts=$(mktemp -d) || exec "$program" "$@"
    trap 'end_run' EXIT
    trap 'exit 129' HUP
    trap 'exit 130' INT
    trap 'exit 143' TERM
    exec 3<&0
    "$program" "$@" <&3 >"$texts/output" 2>"$texts/notes" 3<&- &
    runner=$!
    wait "$runner"
    status=$?
    runner=''
    cat "$texts/output"
    [ -z "$(tail -c 1 "$texts/output" | tr '\000' 0)" ] || echo
    cat "$texts/notes" >&2
    exit "$status"
}

# Ends the run, if there is one, and leaves no file.
end_run() {
    [ -z "$runner" ] || kill "$runner" 2>/dev/null
    rm -rf "$texts"
}

# Says once, after ten seconds, that the program is still at work; it has this script's number.
watch() {
    for _ in 1 2 3 4 5 6 7 8 9 10; do
        sleep 1
        kill -0 "$$" 2>/dev/null || return
    done
    say "$goes_on; $at_end"
}

# Of run and check the first line of the explanation comes after the notes, if there is a python3 for the tools (which
# begins with no folder as its input).
explain_first() {
    case $command in run | check) ;; *) return ;; esac
    [ -t 2 ] && [ -x "$here/launcher/explained" ] && [ -x "$here/tools/explain" ] || return 0
    python3 -ISc 'import sys; sys.exit(sys.version_info < (3, 11))' 2>/dev/null || return 0
    exec python3 "$here/launcher/explained" "$program" "${goes_on:+$goes_on; $at_end}" "$@"
}

# Runs the program on words that are right: a command that runs one goes on as a person at the terminal expects.
run_at_terminal() {
    goes_on='' at_end='the output comes at the end of the run'
    case $command in
    run | replay | trace | where | witness | exec) ;;
    *)
        explain_first "$@"
        exec "$program" "$@"
        ;;
    esac
    [ ! -t 0 ] || reads_input || exec </dev/null
    if [ -t 2 ]; then
        goes_on='the run goes on'
        if [ -t 0 ]; then
            goes_on='the input is still read, or the run goes on'
            say 'reading the input; Ctrl-D ends it'
        fi
        explain_first "$@"
        watch </dev/null >/dev/null &
    fi
    if [ -t 1 ] && [ -t 2 ]; then
        run_by_lines "$@"
    fi
    exec "$program" "$@"
}
