# Sourced by dist/renew, .ci/dist and .ci/library, which set `top`, the checkout, `kit`, the Rattle kit, and `work`, a
# folder: a crate that is proved and built over the libraries in crates/*/out, where `rt ci` leaves them and
# `./soyc --prove` too.

# The libraries of this repository that the crate of a name is built over: those of soyc, and others that its line names.
libraries_below() {
    {
        "$top/.ci/sources" | grep -vx soyc
        for it in $(sed -n "s/^$1\( staticlib\)\{0,1\}: *//p" "$top/crates.txt"); do
            if [[ -d $top/crates/$it ]]; then echo "$it"; fi
        done
    } | awk '!seen[$0]++'
}

# rebuild NAME ROOT MADE TOOLCHAIN WORDS..: proves and builds the crate into the file MADE, by a folder like the kit's
# toolchain. What is said about it is in $work/NAME.log.
rebuild() {
    local name=$1 root=$2 made=$3 toolchain=$4 it at words
    shift 4
    words=(--crate-name "$name" "$root" --extern "std=$kit/rlibs/std.rlib" -L "dependency=$kit/rlibs" "$@")
    for it in $(sed -n "s/^$name\( staticlib\)\{0,1\}: *//p" "$top/crates.txt"); do
        at=$top/crates/$it/out/rlib/$it.rlib
        [[ -d $at ]] || at=$kit/rlibs/$it.rlib
        words+=(--extern "$it=$at")
    done
    for it in $(libraries_below "$name"); do words+=(-L "dependency=$top/crates/$it/out/rlib"); done
    words+=(--antt-project "$kit/rattle/logic/antt-project.json" --logic-built "$kit/logic_built" --links "$name=")
    # (its proof is taken from what a check kept, where there is one: what counts is that the same comes out)
    if [[ -d $top/crates/$name/out/incremental ]]; then words+=(--incremental out/incremental); fi
    words+=(--toolchain "$toolchain" --backend llvm -o "$made")
    (cd "$top/crates/$name" && exec "$kit/bin/rattle" build "${words[@]}") >"$work/$name.log" 2>&1
}

# The library for C, $work/libsoyc_c.a, which is only there once it is proved and built.
build_library() { rebuild soyc_c src/lib.rt "$work/libsoyc_c.a" "$kit/toolchain" --crate-type staticlib; }
