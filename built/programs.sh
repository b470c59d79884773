# shellcheck shell=sh disable=SC2034,SC2154 # $top is set by those that read this file, and they read the rest
# How built/make and built/check come to the two programs as the compilers build them here. They read this file after sources.sh.

# What the gate (rt ci) and the launchers' build leave of a program, as LLVM built it.
left_of() {
    echo "$top/crates/$1_prog/out/$1_prog"
}

# Whether that is there, and no source is newer.
is_left() {
    [ -f "$(left_of "$1")" ] || return 1
    [ -z "$(find "$top"/crates/*/src "$top"/crates/*/specs "$top"/crates/*/proofs "$top/crates.txt" "$top/HANDLES" -newer "$(left_of "$1")" 2>/dev/null | head -n 1)" ]
}

# Sets $built_argus and $built_cells to programs of the sources as they stand: those that were left, where they are, and else built by
# proving. Where that fails, $why says so.
build_both() {
    built_argus=$(left_of argus)
    built_cells=$(left_of cells)
    how='as the gate or a launcher left them in crates/'
    is_left argus && is_left cells && return 0
    how='built by proving'
    for word in '' cells; do
        ARGUS_BUILD=1 "$top/argus" ${word:+"$word"} </dev/null >/dev/null
        [ $? -ne 125 ] || { why="the launcher says why" && return 1; }
    done
    built_argus=$top/out/argus
    built_cells=$top/out/cells
}
