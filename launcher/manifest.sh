# Puts the files, links and folders of superpascal into a folder, and takes them away. Sourced by the script install.
#
# lib/superpascal/manifest lists them: `file CHECKSUM PATH`, `link TARGET PATH`, and `folder PATH` of the folders
# that were not there before, the inner ones first. Paths begin at the folder of the install, or with `/`. What is no
# longer as it was put there, or what others put there, is left as it is.
# shellcheck shell=sh disable=SC2154 # The variables are those of the script install.
is_changing='' is_done=''

# The links: the path of each, and to what in lib/superpascal it leads.
links='bin/superpascal superpascal
bin/superpascal-explain launcher/tool
bin/superpascal-picture launcher/tool
bin/superpascal-schedules launcher/tool
bin/superpascal-speedup launcher/tool
bin/superpascal-compare launcher/tool
bin/superpascal-grade launcher/tool
bin/superpascal-language-server launcher/tool
share/man/man1/superpascal.1 launcher/superpascal.1
share/bash-completion/completions/superpascal launcher/completions/superpascal.bash
share/zsh/site-functions/_superpascal launcher/completions/_superpascal
share/fish/vendor_completions.d/superpascal.fish launcher/completions/superpascal.fish'

# Makes the folder $1 and those above it that are not there, and notes them.
make_folder() {
    [ ! -d "$1" ] || return 0
    case $1 in ?*/*) make_folder "${1%/*}" || return ;; esac
    # (noted before, so that no signal comes between)
    { echo "$1" && cat "$work/folders"; } >"$work/more" && mv "$work/more" "$work/folders" || return
    mkdir "$1" 2>/dev/null || fail "cannot make the folder $1"
}

# The target of the link at $1 to $2 in lib/superpascal.
target_of() { echo "$(dirname "$1" | sed 's,[^/]*,..,g')/lib/superpascal/$2"; }

# The list of the files of the tree $1: `CHECKSUM  ./PATH` of each.
list_files() { (cd "$1" && find . -type f ! -path ./manifest -exec sha256sum {} +) | LC_ALL=C sort; }

# Writes to $work what the tree $1 has: same, files as its manifest lists them; other, files that are not so.
compare_tree() {
    sed -n 's,^file \([0-9a-f]*\) lib/superpascal/,\1  ./,p' "$1/manifest" >"$work/listed"
    list_files "$1" >"$work/found"
    grep -xFf "$work/listed" "$work/found" | sed 's/^[0-9a-f]*  //' >"$work/same"
    # (python keeps what it has compiled of a tool beside it)
    { grep -vxFf "$work/listed" "$work/found" | sed 's/^[0-9a-f]*  //'
        (cd "$1" && find . ! -type d ! -type f); } | grep -v '^\./tools/.*/__pycache__/[^/]*\.pyc$' >"$work/other"
}

# Takes away the files of the tree $1 that are as they were put there, and its folders as far as they are empty.
remove_tree() {
    compare_tree "$1"
    while read -r path; do
        rm -f "$1/$path" 2>/dev/null || fail "cannot take away $1/${path#./}"
    done <"$work/same"
    find "$1/tools" -path '*/__pycache__/*.pyc' -exec rm -f {} + 2>/dev/null
    find "$1/tools" -name __pycache__ -exec rmdir {} + 2>/dev/null
    sed -n 's,^folder lib/superpascal/,,p' "$1/manifest" >"$work/inner"
    rm -f "$1/manifest"
    while read -r path; do rmdir "$1/$path" 2>/dev/null; done <"$work/inner"
    rmdir "$1" 2>/dev/null
}

# The links of the manifest $1: `TARGET PATH` of each.
list_links() { sed -n 's/^link //p' "$1"; }

# Whether the path $2 is a link to $1.
leads_to() { [ -L "$prefix/$2" ] && [ "$(readlink "$prefix/$2")" = "$1" ]; }

# Fails if something is in the way that install did not put there.
look_for_others() {
    if [ -e "$lib/superpascal" ] || [ -L "$lib/superpascal" ]; then
        [ -f "$lib/superpascal/manifest" ] || fail "$lib/superpascal is there, and install did not put it there"
        compare_tree "$lib/superpascal"
        [ ! -s "$work/other" ] ||
            fail "changed or added since the last install, so move it away: $lib/superpascal/$(sed -n '1s,^\./,,p' \
                "$work/other")"
        list_links "$lib/superpascal/manifest" >"$work/links"
    fi
    echo "$links" | while read -r path tail; do
        [ ! -e "$prefix/$path" ] && [ ! -L "$prefix/$path" ] && continue
        leads_to "$(target_of "$path" "$tail")" "$path" && grep -qxF "$(target_of "$path" "$tail") $path" "$work/links" ||
            fail "$prefix/$path is there, and install did not put it there"
    done || exit
}

# Clears away what an install has left that was killed: a folder made ready, links beside their places, an old tree.
clear_remains() {
    old=$lib/superpascal.old
    rmdir "$lib/superpascal.new" 2>/dev/null
    if [ -d "$lib/superpascal.new" ]; then
        read -r other 2>/dev/null <"$lib/superpascal.new/manifest"
        case ${other-} in
        [0-9]* | '# superpascal '*) ;;
        *) fail "$lib/superpascal.new is there, and install did not put it there" ;;
        esac
        ! kill -0 "${other%% *}" 2>/dev/null || fail 'another install is at work'
        rm -rf "$lib/superpascal.new"
    fi
    if [ -f "$old/manifest" ]; then
        [ -e "$lib/superpascal" ] || mv "$old" "$lib/superpascal"
        [ ! -e "$old" ] || remove_tree "$old"
    fi
    echo "$links" | while read -r path tail; do
        ! leads_to "$(target_of "$path" "$tail")" "$path.new" || rm -f "$prefix/$path.new"
    done
}

# Takes the folder in which all is made ready, which no other call has.
take_stage() {
    clear_remains
    mkdir "$lib/superpascal.new" 2>/dev/null || fail "cannot write to $lib"
    stage=$lib/superpascal.new
    echo "$$" >"$stage/manifest"
}

# Writes the manifest of $stage.
write_manifest() {
    {
        echo "# superpascal $(tell_version | sed -n '1s/.* //p'): install put this here; install --uninstall takes it away"
        list_files "$stage" | sed 's,^\([0-9a-f]*\)  \./,file \1 lib/superpascal/,'
        echo "$links" | while read -r path tail; do echo "link $(target_of "$path" "$tail") $path"; done
        (cd "$stage" && find . -depth -type d) | sed -n 's,^\./,folder lib/superpascal/,p'
        echo 'folder lib/superpascal'
        { cat "$work/folders" && sed -n 's/^folder //p' "$lib/superpascal/manifest" 2>/dev/null |
            grep -v '^lib/superpascal'; } | while read -r path; do
            path=${path#"$prefix"/}
            [ "$path" != "$prefix" ] || path=.
            echo "folder $path"
        done
    } >"$work/manifest" && mv "$work/manifest" "$stage/manifest" && chmod 644 "$stage/manifest"
}

# Makes the links under other names beside their places, so that nothing can fail later.
make_links() {
    echo "$links" | while read -r path tail; do
        make_folder "$prefix/${path%/*}"
        ln -s "$(target_of "$path" "$tail")" "$prefix/$path.new" 2>/dev/null ||
            fail "cannot write to $prefix/${path%/*}"
    done
}

# Puts the new tree and its links instead of the old ones.
exchange() {
    trap '' HUP INT TERM
    is_changing=1
    [ ! -e "$lib/superpascal" ] || mv "$lib/superpascal" "$old" || return
    mv "$stage" "$lib/superpascal" || return
    stage=''
    echo "$links" | while read -r path tail; do
        mv -f "$prefix/$path.new" "$prefix/$path" || exit
    done || return
    is_changing=''
    while read -r target path; do
        case "
$links" in *"
$path "*) ;; *) ! leads_to "$target" "$path" || rm -f "$prefix/$path" ;; esac
    done <"$work/links"
    is_done=1
    [ ! -e "$old" ] || remove_tree "$old"
}

install_all() {
    lib=$prefix/lib
    : >"$work/folders"
    : >"$work/links"
    make_folder "$lib"
    take_stage
    look_for_others
    fill_stage 2>"$work/notes" || fail "cannot write to $lib: $(head -n 1 "$work/notes")"
    make_links || exit
    write_manifest || exit
    exchange 2>"$work/notes" || fail "cannot write to $prefix: $(head -n 1 "$work/notes")"
}

# Takes away what an install that has failed or was ended has made.
undo_install() {
    [ "$task" = install ] && [ -n "${lib-}" ] && [ -z "$is_done" ] || return 0
    if [ -n "$is_changing" ]; then
        [ -n "$stage" ] || mv "$lib/superpascal" "$lib/superpascal.new"
        [ ! -e "$old" ] || mv "$old" "$lib/superpascal"
        stage=$lib/superpascal.new
        [ -e "$lib/superpascal" ] || echo "$links" | while read -r path tail; do
            ! leads_to "$(target_of "$path" "$tail")" "$path" || rm -f "$prefix/$path"
        done
    fi
    if [ -n "$stage" ]; then
        echo "$links" | while read -r path tail; do rm -f "$prefix/$path.new"; done
        rm -rf "$stage"
    fi
    while read -r path; do rmdir "$path" 2>/dev/null; done <"$work/folders"
}

# Sets path to the folder of a line of a manifest.
place_folder() {
    case $path in .) path=$prefix ;; /*) ;; *) path=$prefix/$path ;; esac
}

# Fails if the manifest lists something that cannot be taken away.
look_for_rights() {
    { list_links "$manifest" | sed 's/^[^ ]* //' && sed -n 's/^folder \(lib\/superpascal\)/\1/p' "$manifest"; } |
        while read -r path; do
            [ -w "$prefix/${path%/*}" ] || [ ! -e "$prefix/$path" ] || fail "cannot write to $prefix/${path%/*}"
        done || exit
}

# Takes away what the manifest lists, as far as it is as install put it there.
uninstall() {
    lib=$prefix/lib
    manifest=$lib/superpascal/manifest
    [ ! -d "$lib" ] || clear_remains
    [ -f "$manifest" ] || fail "nothing is installed in $prefix"
    trap '' HUP INT TERM
    cp "$manifest" "$work/manifest" || exit 1
    look_for_rights
    list_links "$manifest" | while read -r target path; do
        if leads_to "$target" "$path"; then
            rm -f "$prefix/$path"
        elif [ -e "$prefix/$path" ] || [ -L "$prefix/$path" ]; then
            echo "left as it is, as install did not put it there: $prefix/$path"
        fi
    done
    remove_tree "$lib/superpascal"
    while read -r path; do
        echo "left as it is, as it was changed or added: $lib/superpascal/${path#./}"
    done <"$work/other"
    sed -n 's/^folder //p' "$work/manifest" | while read -r path; do
        place_folder
        rmdir "$path" 2>/dev/null
    done
    echo "took superpascal away from $prefix"
}
