# Which program is run: the proved one if it is there and was made of these sources, else the unproved one.
# Sourced by the scripts superpascal, prove and install, which set here.
# shellcheck shell=sh disable=SC2034,SC2154 # The variables are those of the script that sources this file.
proved=$here/crates/sp_main/out/sp_main
out=$here/out
unproved=$out/unproved
checked=$out/unproved_checked
# (only what ./install has made has this one, and no sources)
installed=$here/program
sources=''

# The sources: crates.txt, and of each crate src/ and specs/. They are searched with the words of find.
find_sources() { (cd "$here" && find crates.txt crates/*/src crates/*/specs "$@"); }

# Sets sources to the checksum of the sources.
sum_sources() { sources=$(find_sources -type f -exec sha256sum {} + 2>/dev/null | LC_ALL=C sort | sha256sum); }

# Notes that the program $1 was made of the sources of the checksum, as they were when the file $2 was made.
note_sources() {
    mkdir -p "$out" && echo "$(sha256sum <"$1") $sources" >"$out/new_note.$$" && touch -r "$2" "$out/new_note.$$" &&
        mv -f "$out/new_note.$$" "$out/${1##*/}.sources"
}

# Whether the program $1 is there and was made of these sources. Its note tells this, so a copy or a checkout whose
# files have other times serves as well. If it has none, or is newer, no source may be newer; then it gets one.
is_new() {
    [ -x "$1" ] || return
    note=$out/${1##*/}.sources
    # (at once if nothing was touched since the note; a find that cannot tell this says so)
    [ ! -f "$note" ] || [ -n "$(find_sources "$1" -cnewer "$note" 2>&1 | head -n 1)" ] || return 0
    begun=$out/begun.$$
    { mkdir -p "$out" && : >"$begun"; } 2>/dev/null
    is_made_of_sources "$1"
    is_made=$?
    [ "$is_made" -ne 0 ] || note_sources "$1" "$begun" 2>/dev/null
    rm -f "$begun"
    return "$is_made"
}

# The same, by checksums.
is_made_of_sources() {
    [ -n "$sources" ] || sum_sources
    if read -r made _ made_of 2>/dev/null <"$note" && [ "$made  -" = "$(sha256sum <"$1")" ]; then
        [ "$made_of" != "$sources" ] || return 0
        [ -n "$(find "$1" -newer "$note")" ] || return
    fi
    [ -z "$(find_sources -type f -newer "$1" 2>/dev/null | head -n 1)" ]
}

# Sets program to the program that is run. Fails if there is none yet.
find_program() {
    if [ -x "$installed" ]; then
        program=$installed
        return
    fi
    for program in "$proved" "$unproved" "$checked"; do
        ! is_new "$program" || return 0
    done
    return 1
}

# What the program is, in a word; of an installed one ./install has written it down.
name_program() {
    if ! find_program; then
        echo 'not compiled yet'
    elif [ "$program" = "$installed" ]; then
        sed -n 's/^program: //p' "$here/build"
    elif [ "$program" = "$proved" ]; then
        echo proved
    elif [ "$program" = "$unproved" ]; then
        echo unproved
    else
        echo 'unproved, with checks of each access to memory'
    fi
}

# The commit of the repository, as far as it can be known, the program and the kit.
tell_build() {
    if [ -x "$installed" ]; then
        cat "$here/build"
        return
    fi
    commit=unknown kit='none here'
    if [ -e "$here/.git" ] && commit=$(git -C "$here" rev-parse --short=12 HEAD 2>/dev/null); then
        [ -z "$(git -C "$here" status --porcelain 2>/dev/null | head -n 1)" ] || commit="$commit, with changes"
    else
        commit=unknown
    fi
    ! command -v rt >/dev/null || kit=$(rt version 2>/dev/null </dev/null | head -n 1)
    printf 'commit: %s\nprogram: %s\nkit: %s\n' "$commit" "$(name_program)" "$kit"
}
