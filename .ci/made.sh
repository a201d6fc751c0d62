# Sourced by .ci/start, .ci/prove and .ci/dist, which set `top`, the checkout: how cc makes a program, and whether one
# that was made earlier is that of the files as they are now. Beside FOLDER/soyc stand soyc.files (the names of what it
# was made of and its own, each ended by NUL), soyc.times (the size of each and when it was changed last) and soyc.sums
# (SHA-256).

say() { printf 'soyc: %s\n' "$*" >&2; }

# The sizes and times of the files that standard input names. The time is that of the last change of any kind, which no
# copy and no version control sets back.
times() { { cd "$top" && exec find -files0-from - -maxdepth 0 -printf '%s %C@\n'; } 2>/dev/null; }

# is_current FOLDER: sums are looked at only where a size or a time differs, and then the times are noted anew.
is_current() {
    local made=$top/$1/soyc
    [[ -x $made && -s $made.sums && -s $made.files ]] || return 1
    if [[ -s $made.times ]] && (times <"$made.files") | cmp -s - "$made.times"; then return 0; fi
    (times <"$made.files" >"$made.times.$$") 2>/dev/null
    if (cd "$top" && exec sha256sum --status -c "$made.sums") 2>/dev/null; then
        if [[ -s $made.times.$$ ]]; then mv -f "$made.times.$$" "$made.times"; fi
        return 0
    fi
    rm -f "$made.times.$$"
    return 1
}

# The first file of FOLDER/NAME.sums, a list of names and sums, that isn't as it is there, or is gone.
first_changed() { (cd "$top" && sha256sum --quiet -c "$1" 2>/dev/null | sed -n '1s/: [^:]*$//p'); }

# made_of FOLDER PROGRAM TIMES SUMS: puts a program into FOLDER that was just made of the files that SUMS names. TIMES
# has their sizes and times from before they were read, so that what changed meanwhile is seen.
made_of() {
    local made=$top/$1/soyc
    rm -f "$made".{sums,times}
    mv -f "$2" "$made" || return 1
    { grep -v '^#' "$4" && (cd "$top" && exec sha256sum "$1/soyc"); } >"$made.sums.$$" || return 1
    sed 's/^[0-9a-f]*  //' "$made.sums.$$" | tr '\n' '\0' >"$made.files"
    { cat "$3" && printf '%s/soyc\0' "$1" | times; } >"$made.times"
    mv -f "$made.sums.$$" "$made.sums"
}

# cc_linked MADE FILE..: makes a program of C and of texts by cc. Where the C library is there as an archive it is linked
# in, since such a program starts in two thirds of the time.
cc_linked() { cc -O2 -static -o "$@" 2>/dev/null || cc -O2 -o "$@"; }
