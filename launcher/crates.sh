# The crates of which the program is made: their list, a copy of them, and how far their proof is.
# Sourced by the scripts prove and page/making/keep_module, which set here, made and begun, and define say.
# shellcheck shell=sh disable=SC2154 # The variables are those of the script that sources this file.

# The crates of which the program is made.
list_crates() {
    awk -F: '/^[^#]/ { split($1, head, " "); uses[head[1]] = $2 }
        function visit(name, parts, n, i) {
            if (!(name in uses) || (name in seen)) return
            seen[name] = 1
            n = split(uses[name], parts, " ")
            for (i = 1; i <= n; i++) visit(parts[i])
            print name
        }
        END { visit("sp_main") }' "$here/crates.txt"
}

# Lines of the files of the folders of crate $2 that end with $1.
count_lines() { find "$here/crates/$2" -path '*/out' -prune -o -name "*$1" -type f -exec cat {} + | wc -l; }

# Copies these crates to $made/repo, as a repository of its own, and notes in $made/work how much work each is: a line
# of code is proved in some 0.13 seconds, a line of definitions and proofs read in 0.008.
copy_crates() {
    # (rt runs programs as nobody if root runs it)
    chmod 755 "$made" && mkdir -p "$made/repo/.git" "$made/repo/crates" && cp "$here/HANDLES" "$made/repo/" || return
    list_crates >"$made/names"
    awk 'NR == FNR { is_part[$1] = 1; next } { split($1, head, ":") } head[1] in is_part' \
        "$made/names" "$here/crates.txt" >"$made/repo/crates.txt" || return
    while read -r crate; do
        mkdir "$made/repo/crates/$crate" || return
        for part in "$here/crates/$crate"/*; do
            case ${part##*/} in out | must-fail) ;; *) cp -R "$part" "$made/repo/crates/$crate/" || return ;; esac
        done
        echo "$crate" $((15 * $(count_lines .rt "$crate") + $(count_lines .antt "$crate")))
    done <"$made/names" >"$made/work"
}

# Says how many crates are proved, by what rt has said in $made/log, after how long, and how long is left: by the work
# that is left, and how fast the prover was until now, held to 100 lines a second and processor at the beginning.
tell_progress() {
    say "$(awk -v took=$(($(date +%s) - begun)) -v processors="$(nproc 2>/dev/null || echo 1)" '
        NR == FNR { work[$1] = $2; whole += $2; crates++; next }
        $1 == "rt:" && $2 in work && ($3 == "proved" || $3 " " $4 == "is kept:") {
            done++
            left_out += work[$2]
            if ($3 == "proved") proved += work[$2]
        }
        END {
            left = (whole - left_out) * (120 + took) / (120 * 100 * processors + proved)
            printf "%d of %d crates, %d min %02d s", done, crates, took / 60, took % 60
            if (done < crates) printf "; some %d min left", left / 60 + 1
        }' "$made/work" "$made/log")"
}

# What rt has said in $made/log of the crates that are not proved, and its end.
tell_unproved() {
    awk '/^== / { said = "" }
        { said = said $0 "\n" }
        / NOT PROVED/ { printf "%s", said; said = "" }
        /^rt: .* proved$/ { said = "" }
        END { printf "%s", said }' "$made/log"
}

# Proves the crates of the copy, with what earlier runs on this machine have proved, and says every ten seconds how far
# it is. Its own processes are $prover and $teller, which the script ends if it is ended itself.
prove_copy() {
    begun=$(date +%s)
    : >"$made/log"
    (cd "$made/repo" && TMPDIR=$made exec rt ci) </dev/null >"$made/log" 2>&1 &
    prover=$!
    while sleep 10 >/dev/null 2>&1 && kill -0 "$prover" 2>/dev/null; do tell_progress; done &
    teller=$!
    wait "$prover"
    status=$?
    kill "$teller" 2>/dev/null
    prover='' teller=''
    return "$status"
}

# Ends what was begun, and leaves nothing half made.
clean_copy() {
    for process in $prover $teller; do kill "$process" 2>/dev/null; done
    wait
    # (what the prover had started ends with it, a moment later)
    rm -rf "$made" 2>/dev/null || { sleep 1 && rm -rf "$made"; }
}
