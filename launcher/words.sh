# The words of a call, by the table launcher/commands.txt: help, the version, and what is wrong with refused words.
# Sourced by the script superpascal, which sets here; judge_words reads words as crates/sp_words/specs states it.
# shellcheck shell=sh disable=SC2034,SC2154 # The variables are those of the script that sources this file.
table=$here/launcher/commands.txt

# Sets the columns of the command $1 of the table; fails if there is none.
find_command() {
    while read -r kind name operands groups what; do
        [ "$kind" != command ] || [ "$name" != "$1" ] || return 0
    done <"$table"
    return 1
}

# Sets the columns of the option $2, without its dashes, of the groups $1; fails if they have none.
find_option() {
    while read -r kind group option value default least greatest what; do
        if [ "$kind" = option ] && [ "$option" = "$2" ]; then
            case ,$1, in *",$group,"*) return 0 ;; esac
        fi
    done <"$table"
    return 1
}

# Whether the table has a tool of the name $1.
find_tool() {
    while read -r kind name what; do
        [ "$kind" != tool ] || [ "$name" != "$1" ] || return 0
    done <"$table"
    return 1
}

# The first names of the lines of kind $1 of the table; of options only those of the groups $2.
list_names() {
    while read -r kind first second rest; do
        case $kind,$1,${2+,$2,} in
        command,command,) echo "$first" ;;
        tool,tool,) echo "$first" ;;
        name,name,) echo "$second" ;;
        script,script,) echo "$first" | tr , '\n' | grep -v COMMAND ;;
        option,option,*",$first,"*) echo "--$second" ;;
        esac
    done <"$table"
}

# The number $1 with a comma before each three digits.
with_commas() {
    digits=$1 tail=''
    while [ "${#digits}" -gt 3 ]; do
        tail=,${digits#"${digits%???}"}$tail
        digits=${digits%???}
    done
    printf %s "$digits$tail"
}

# The names of --show in a row, the default $1 marked as such, and the word $2 before the last one.
list_shows() {
    row='' last=''
    for one in $(list_names name); do
        row=$row${last:+${row:+, }$last} last=$one
        [ "$one" != "$1" ] || last="$one (default)"
    done
    echo "$row$2$last"
}

# The lines of the options of the groups $1.
tell_options() {
    while read -r kind group option value default least greatest what; do
        [ "$kind" = option ] || continue
        case ,$1, in *",$group,"*) ;; *) continue ;; esac
        case $value in
        N) printf '  --%-12s %-34s %10s %14s\n' "$option N" "$what" "$(with_commas "$default")" \
            "$(with_commas "$greatest")" ;;
        *) printf '  --%-12s %s\n' "$option $value" "$(list_shows "$default" ', ')" ;;
        esac
    done <"$table"
}

# The line of a command: its name, its operands $2, and what it does.
tell_command() { printf '  %-20s %s\n' "$1 $(echo "$2" | tr , ' ')" "$3"; }

# All commands and options, which fit into the 24 lines of a terminal.
tell_words() {
    kind_of_program=$(name_program)
    echo "superpascal, a verified compiler and process runner (program: ${kind_of_program%%,*})"
    while read -r kind name operands groups what; do
        [ "$kind" != command ] || tell_command "$name" "$operands" "$what"
    done <"$table"
    echo 'Options of run (COMMAND or TOOL --help tells more):    default       greatest'
    tell_options workers,limits,show
    echo "Tools: $(list_names tool | tr '\n' , | sed 's/,$//; s/,/, /g'). Also: --version."
}

# The command $1 with its options.
tell_command_words() {
    find_command "$1" || return
    options=$groups
    echo "superpascal $1 $(echo "$operands" | tr , ' ')$([ "$options" = - ] || echo ' [--OPTION VALUE]..')"
    echo "  $what"
    case $options in
    -) echo 'It has no options.' ;;
    *) echo 'Options; N is at least 1.                              default       greatest' ;;
    esac
    tell_options "$options"
    echo "$more_words"
}

# The version, and what is known of the program: made by whom, and from what.
tell_version() {
    while read -r kind number; do
        [ "$kind" != version ] || echo "superpascal $number"
    done <"$table"
    tell_build
}

# Of the names that stand in standard input, the one that is near the word $1, if any: most often one letter more, less
# or other, or two letters changed about.
find_near() {
    awk '
        function least(a, b) { return a < b ? a : b }
        # how many letters part the two words
        function distance(a, b,    i, j, m, n, cost) {
            m = length(a); n = length(b)
            for (i = 0; i <= m; i++) d[i, 0] = i
            for (j = 0; j <= n; j++) d[0, j] = j
            for (i = 1; i <= m; i++)
                for (j = 1; j <= n; j++) {
                    cost = substr(a, i, 1) != substr(b, j, 1)
                    d[i, j] = least(least(d[i-1, j] + 1, d[i, j-1] + 1), d[i-1, j-1] + cost)
                    if (i > 1 && j > 1 && substr(a, i, 1) == substr(b, j-1, 1) && substr(a, i-1, 1) == substr(b, j, 1))
                        d[i, j] = least(d[i, j], d[i-2, j-2] + 1)
                }
            return d[m, n]
        }
        BEGIN {
            word = tolower(substr(ARGV[1], 2)); ARGC = 1
            sub(/^-+/, "", word)
            best = length(word) < 2 ? 1 : length(word) < 6 ? 2 : 3
            if (length(word) > 40) exit
        }
        {
            name = $0
            sub(/^-+/, "", name)
            apart = distance(word, name)
            if (length(word) > 2 && index(name, word) == 1) apart = least(apart, 1)
            if (apart < best) { best = apart; near = $0 }
        }
        END { if (near != "") print near }' "=$1" 2>/dev/null
}

# Notes what is wrong with the words: $1, and that the word $2 may be meant for one of the names $3, else $4.
refuse() {
    wrong=$1
    [ $# -eq 1 ] && return
    near=$(printf '%s\n' "$3" | find_near "$2")
    [ -z "$near" ] || { wrong="$1; did you mean $near?" && return; }
    [ -z "${4-}" ] || wrong="$1; $4"
}

# Whether the text $1 is a number from $2 to $3, as the program reads one.
is_number_in() {
    digits=${1#+}
    case $digits in '' | *[!0123456789]*) return 1 ;; esac
    digits=${digits#"${digits%%[!0]*}"}
    [ "${#digits}" -le 10 ] && [ "${digits:-0}" -ge "$2" ] && [ "${digits:-0}" -le "$3" ]
}

# Judges the value $2 of the option $1, whose columns are set.
judge_value() {
    case $value in
    N)
        case $2 in 0* | +*) is_plain='' ;; esac
        is_number_in "$2" "$least" "$greatest" ||
            refuse "$1 takes $(with_commas "$least") to $(with_commas "$greatest")${2:+, not $2}"
        ;;
    *)
        for one in $(list_names name); do
            [ "$one" != "$2" ] || return 0
        done
        refuse "$1 takes $(list_shows '' ' or ')${2:+, not $2}" "$2" "$(list_names name)"
        ;;
    esac
}

# Judges the word $1 as the name of an option.
judge_option() {
    case $1 in
    --*)
        if find_option "$groups" "${1#--}"; then
            case $seen in *" $1 "*) refuse "$1 stands twice" ;; esac
            seen="$seen$1 "
            return
        fi
        ! find_option workers,limits,show "${1#--}" || { refuse "$command has no option $1" && return; }
        ;;
    esac
    refuse "unknown option $1" "$1" "$(list_names option "$groups")" "superpascal $command --help lists them"
}

# Takes the word $1 as a FILE, a JOURNAL or an N.
judge_operand() {
    count=$((count + 1))
    case $count,$operands in
    1,N)
        while read -r kind name option least greatest; do
            [ "$kind $name" != "operand $command" ] || break
        done <"$table"
        is_number_in "$1" "$least" "$greatest" ||
            refuse "$command takes an N from $(with_commas "$least") to $(with_commas "$greatest")${1:+, not $1}"
        ;;
    1,*) file=$1 ;;
    2,*,*) journal=$1 ;;
    *) refuse "a word too many for $command: $1" ;;
    esac
}

# Judges the words after the command as the program does, up to the first that is wrong.
judge_rest() {
    for word; do
        if [ -n "$waits" ]; then
            case $word in
            -*[!0123456789]*) refuse "$waits needs a value, and $word is none" ;;
            *) judge_value "$waits" "$word" ;;
            esac
            waits=''
        elif [ -n "$is_over" ]; then
            judge_operand "$word"
        else
            case $word in
            --) is_over=1 is_plain='' ;;
            --*=*) judge_option "${word%%=*}" && [ -z "$wrong" ] && judge_value "${word%%=*}" "${word#*=}" ;;
            --*) judge_option "$word" && waits=$word ;;
            -*) judge_option "$word" ;;
            *) judge_operand "$word" ;;
            esac
        fi
        [ -z "$wrong" ] || return 0
    done
    [ -z "$waits" ] || refuse "$waits needs a value"
}

# Judges words of which the first is not a command. (This is not about those that the script answers.)
judge_script_words() {
    for one in $(list_names script); do
        [ "$one" = "$1" ] || continue
        case $1 in
        help) refuse "unknown command $2" "$2" "$(list_names command)" 'superpascal --help lists them' ;;
        *) refuse "$1 stands alone" ;;
        esac
        return
    done
    refuse "unknown command $1" "$1" "$(list_names command && list_names tool && list_names script)" \
        'superpascal --help lists them'
}

# Judges words, of which there is one at least. Sets wrong to the first thing that is wrong with them, or to nothing,
# command, file and journal to what they name, and is_plain if each value is written as usual and no word is `--`.
judge_words() {
    wrong='' command=$1 file='' journal='' is_plain=1 seen=' ' waits='' is_over='' count=0
    if ! find_command "$1"; then
        judge_script_words "$@"
        return
    fi
    shift
    judge_rest "$@"
    [ -z "$wrong" ] || return 0
    case $count,$operands in
    0,N) refuse "$command needs an N" ;;
    0,*,*) refuse "$command needs a FILE and a JOURNAL" ;;
    0,*) refuse "$command needs a FILE" ;;
    1,*,*) refuse "$command needs a JOURNAL after its FILE" ;;
    esac
}
