# shellcheck shell=sh disable=SC2034,SC2154 # $top is set by those that read this file, and they read the rest
# What a built program is of: the kit, and one checksum over all that a build reads. The launchers and the scripts of this folder
# read this file, with the repository's folder as $top.

# Kits differ in their commands; what is proved depends on their logic alone.
kit='rattle-kit-13f'
logic='logic dac8208d650f15bf'

# The machine that the built programs are for.
machine='x86_64-linux'
# The oldest C library that they run with.
oldest='glibc 2.34'

sum_of() {
    sha256sum <"$1" | cut -d ' ' -f 1
}

# The checksum over the crates, crates.txt, HANDLES and the kit's logic: of each file the name and the bytes, whatever its time, so
# it is the same in a clone and in an unpacked archive.
sources_sum() {
    (
        cd "$top" || exit 1
        {
            find crates/*/src crates/*/specs crates/*/proofs crates.txt HANDLES -type f -exec sha256sum {} + 2>/dev/null
            echo "$logic"
        } | LC_ALL=C sort | sha256sum | cut -d ' ' -f 1
    )
}

# Whether the built programs are of the sources as they stand. (Where no checksum can be made, nothing is.)
is_of_these_sources() {
    now=$(sources_sum)
    [ -n "$now" ] && [ "$(told sources)" = "$now" ]
}

# What built/sources.sum says under a word: `sources`, `argus`, `cells`, `kit`, `made` or `commit`.
told() {
    sed -n "s/^$1 //p" "$top/built/sources.sum" 2>/dev/null
}

# Whether this machine is the one that the built programs are for.
is_this_machine() {
    case $(uname -s)-$(uname -m) in
    Linux-x86_64) return 0 ;;
    esac
    return 1
}

packed_of() {
    echo "$top/built/$1-$machine.gz"
}
