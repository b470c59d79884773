# shellcheck shell=sh disable=SC2015,SC2154 # fail ends the shell; top and program are the caller's
# What argus and cells have in common: brings the program $program of the repository $top where it is due, and runs it.
#
# Where built/ has a program of the very sources that stand here, it is unpacked into out/. Else the program is built, by proving
# every crate that it stands on, as many side by side as there are processors and memory for. How far that is stands in one line on
# standard error; what the build says stands in out/build.log. A build that was broken off goes on with the crate that it was at.
# Where the program can't be brought, the status is 125, which no run of argus or of cells ends with.
#
# ARGUS_BUILD=1 takes no program from built/, and runs only one that was proved and built here; ARGUS_BUILD=0 never begins a build.
# ARGUS_JOBS says how many crates are proved at one time, where it is set. ARGUS_ANY_KIT=1 takes whatever kit is there.
# ARGUS_EXPLAIN=1 calls explain after a status of 2, 3 or 4 and after a release also where standard error is no terminal,
# ARGUS_EXPLAIN=0 never.

# shellcheck source=built/sources.sh
. "$top/built/sources.sh"
# What the proof of a crate takes at most, in kilobytes, as a rule.
each=2500000

fail() {
    echo "$program: $1" >&2
    exit 125
}

# The companions have words of their own, and so has the program cells.
companions=$top/companions/argus_office/__main__.py

# Whether python3 is one that the companions run with.
has_python() {
    command -v python3 >/dev/null && python3 -I -c 'import sys; sys.exit(sys.version_info < (3, 9))' >/dev/null 2>&1
}

# A companion, whatever the environment and the current folder have for Python.
run_companion() {
    exec python3 -I -B "$companions" "$@" 9>&-
}

called=argus
case ${1:-} in
start | explain | page | carry | together | whole | seal)
    command -v python3 >/dev/null || fail "argus $1 needs Python 3.9 or later, and python3 isn't on the path"
    has_python || fail "argus $1 needs Python 3.9 or later, and python3 is $(python3 -V 2>&1)"
    run_companion "$@"
    ;;
cells)
    shift
    program=cells
    called='argus cells'
    ;;
esac

crate=$top/crates/${program}_prog
built=$top/out/$program
begun=$top/out/$program.begun
# The checksum of the program that was proved and built here.
proved=$top/out/$program.proved
log=$top/out/build.log
said=$top/out/build.said

# The one line that says what to do where the kit isn't there or is another.
check_kit() {
    command -v rt >/dev/null ||
        fail "the command rt isn't on the path: put the folder bin of $kit there (PATH=KIT/bin:\$PATH), and call again"
    found=$(rt version 2>/dev/null) || found='a kit that tells no version'
    case $found in
    *" $logic") ;;
    *)
        [ "${ARGUS_ANY_KIT:-}" = 1 ] ||
            fail "rt is of $found, and this is proved with $kit ($logic): put that kit's bin first on the path, or set ARGUS_ANY_KIT=1"
        ;;
    esac
}

# The first number of a file, where it begins with one.
number_in() {
    sed -n '1s/^\([0-9][0-9]*\).*/\1/p' "$1" 2>/dev/null
}

# As many crates at one time as there are processors and memory for, by the machine and by the limits set to this process.
jobs() {
    free=$(sed -n 's/^MemAvailable: *\([0-9]*\) kB/\1/p' /proc/meminfo 2>/dev/null)
    limit=$(number_in /sys/fs/cgroup/memory.max)
    held=$(number_in /sys/fs/cgroup/memory.current)
    count=$(nproc 2>/dev/null || echo 1)
    quota=$(sed -n 's/^\([0-9]*\) \([0-9]*\)$/\1 \2/p' /sys/fs/cgroup/cpu.max 2>/dev/null)
    [ -z "$quota" ] || [ $((${quota% *} / ${quota#* })) -ge "$count" ] || count=$((${quota% *} / ${quota#* }))
    [ -z "$limit" ] || [ $(((limit - ${held:-0}) / 1024)) -ge "${free:-0}" ] || free=$(((limit - ${held:-0}) / 1024))
    [ -z "$free" ] || [ $((free / each)) -ge "$count" ] || count=$((free / each))
    [ "$count" -ge 1 ] || count=1
    echo "${ARGUS_JOBS:-$count}"
}

# The crates that the program stands on and the program itself, by crates.txt.
crates() {
    awk -F: '!/^#/ && NF == 2 { uses[$1] = $2 }
        function take(name, parts, count, k) {
            if (!(name in uses) || name in taken) return
            taken[name] = 1
            count = split(uses[name], parts, " ")
            for (k = 1; k <= count; k++) take(parts[k])
            print name
        }
        END { take("'"${program}_prog"'") }' "$top/crates.txt"
}

is_proved() {
    [ -s "$proved" ] && [ "$(cat "$proved")" = "$(sum_of "$built")" ]
}

is_due() {
    [ -x "$built" ] || return 0
    [ "${ARGUS_BUILD:-}" != 1 ] || is_proved || return 0
    set -- "$top/crates.txt"
    for name in $(crates); do
        set -- "$@" "$top/crates/$name/src" "$top/crates/$name/specs" "$top/crates/$name/proofs"
    done
    newer=$(find "$@" -newer "$built" 2>/dev/null)
    [ -n "$newer" ]
}

# Which crates are being proved: their libraries were begun in this build and aren't there yet.
at_work() {
    for name in $names; do
        rlib=$top/crates/$name/out/rlib
        [ ! -d "$rlib" ] || [ -e "$rlib/stamp" ] || [ -z "$(find "$rlib" -prune -newer "$begun" 2>/dev/null)" ] || printf ' %s' "$name"
    done
}

time_since() {
    seconds=$(($(date +%s) - $1))
    printf '%d:%02d' $((seconds / 60)) $((seconds % 60))
}

# The line of progress: written over itself on a terminal, and else once for each crate that is done.
progress() {
    done_=$(grep -c '^== [a-z]' "$log" 2>/dev/null)
    [ "$(grep -c '^== summary' "$log" 2>/dev/null)" = 0 ] || done_=$count
    [ "$done_" -le "$count" ] || done_=$count
    working=$(at_work)
    [ -n "$working" ] || [ "$done_" != 0 ] || working=' the sources'
    line="$program: $done_ of $count crates proved in $(time_since "$start") (log: out/build.log)${working:+, now at$working}"
    if [ -t 2 ]; then
        wide=$(stty size <&2 2>/dev/null) || wide=
        wide=${wide#* }
        printf '\r\033[K%.*s' $((${wide:-80} - 1)) "$line" >&2
    elif [ "$done_" != "$last" ]; then
        echo "$line" >&2
    fi
    last=$done_
}

# A command that ends with this shell, where this shell is told to end.
run() {
    "$@" &
    command_=$!
    trap 'kill "$command_" 2>/dev/null; exit 1' TERM
    wait "$command_"
}

# Every library and the program's proof, side by side; then the program. With no word the program touches no file, prints its
# usage line, which shows that the build passed, and ends with status 1.
prove() {
    cd "$crate" || exit 1
    run rt all check --jobs "$1" </dev/null || exit 1
    run rt run </dev/null 2>&1 >"$said" || true
}

# What went wrong: the crate, its last lines and the way to go on.
tell_failure() {
    failed=$(sed -n 's/^\([a-z0-9_]*\): failed.*/\1/p' "$log" | head -n 1)
    [ ! -t 2 ] || printf '\r\033[K' >&2
    if [ -n "$failed" ]; then
        echo "$program: the crate $failed wasn't proved. Its last lines:" >&2
        awk -v head="== $failed" '/^== / { is_it = $0 == head } is_it && $0 != head' "$log" | tail -n 15 | sed 's/^/    /' >&2
    else
        echo "$program: the build stopped. Its last lines:" >&2
        tail -n 15 "$log" | sed 's/^/    /' >&2
    fi
    echo "$program: the whole log is $log" >&2
    fail "what was proved is kept: mend the crate, or give fewer at a time where memory was short (ARGUS_JOBS=1), and call again"
}

stop_build() {
    trap '' INT TERM HUP
    kill "$builder" 2>/dev/null
    wait "$builder" 2>/dev/null
    [ ! -t 2 ] || echo >&2
    fail "the build was broken off: the next call goes on where it was"
}

build() {
    [ "${ARGUS_BUILD:-}" != 0 ] ||
        fail "no program of these sources is there, and ARGUS_BUILD=0 begins no build: call $top/$called without it"
    check_kit
    mkdir -p "$top/out" && : >>"$log" || fail "cannot write to $top/out"
    # Of two calls at one time the second waits, and finds the program built.
    if command -v flock >/dev/null; then
        exec 9>"$top/out/build.lock"
        flock -n 9 || { echo "$program: another call is building the program: waiting for it" >&2 && flock 9; }
        is_due || return 0
    fi
    : >"$begun" && : >"$said" && : >"$log" || fail "cannot write to $top/out"
    names=$(crates)
    count=$(echo "$names" | wc -l)
    at_once=$(jobs)
    start=$(date +%s)
    last=
    [ -t 2 ] || echo "$program: building the program by proving $count crates, $at_once at a time; the log is $log" >&2
    (prove "$at_once") >"$log" 2>&1 9>&- &
    builder=$!
    trap stop_build INT TERM HUP
    while kill -0 "$builder" 2>/dev/null; do
        progress
        sleep 1
    done
    wait "$builder" || tell_failure
    trap - INT TERM HUP
    case $(cat "$said") in
    "usage: "*) ;;
    *) tell_failure ;;
    esac
    # An edit made during the build is newer than the mark, so the next call builds again.
    cp "$crate/out/${program}_prog" "$built.$$" &&
        touch -r "$begun" "$built.$$" &&
        mv -f "$built.$$" "$built" &&
        sum_of "$built" >"$proved" || fail "cannot write to $top/out"
    [ ! -t 2 ] || printf '\r\033[K' >&2
    echo "$program: built the program in $(time_since "$start") (minutes:seconds); the log is $log" >&2
}

# What goes wrong with the built program, in one line; then the program is built by proving.
no_use() {
    rm -f "$new" "$new.begun"
    echo "$program: the program in built/ $1, so it has to be built by proving" >&2
    return 1
}

# Unpacks the built program into out/, where it is of these very sources. It is tried first: without a word the program touches no
# file and prints its usage line, which shows that this machine's C library is one that it can run with.
unpack() {
    is_this_machine && [ -f "$(packed_of "$program")" ] || return 1
    new=$built.$$
    mkdir -p "$top/out" && : >"$new.begun" || fail "cannot write to $top/out"
    is_of_these_sources || { rm -f "$new.begun" && return 1; }
    gzip -dc "$(packed_of "$program")" >"$new" 2>/dev/null && [ "$(sum_of "$new")" = "$(told "$program")" ] ||
        { no_use "is damaged" || return 1; }
    chmod 755 "$new"
    case $("$new" </dev/null 2>/dev/null) in
    "usage: "*) ;;
    *)
        found=$(getconf GNU_LIBC_VERSION 2>/dev/null) || found='another C library'
        no_use "doesn't run here (it wants $oldest or later; here is $found)" || return 1
        ;;
    esac
    # A source that was changed meanwhile is newer than the mark, so the next call looks again.
    touch -r "$new.begun" "$new" && rm -f "$new.begun" "$proved" && mv -f "$new" "$built" || fail "cannot write to $top/out"
    echo "$program: unpacked the program that was built from these very sources ($(told made)); ARGUS_BUILD=1 proves and builds it here" >&2
}

# ---- what the launcher answers by itself

version() {
    [ -e "$top/.git" ] && head=$(git -C "$top" rev-parse --short=8 HEAD 2>/dev/null) || head="not known here (no clone of git)"
    echo "$program, commit $head"
    echo "kit $kit $logic"
    if ! is_due && is_proved; then
        echo "program proved and built here on $(date -u -r "$built" +%Y-%m-%d)"
    elif ! is_due && [ "$(sum_of "$built")" = "$(told "$program")" ]; then
        echo "program from built/, made on $(told made) from these very sources"
    elif ! is_due; then
        echo "program put into out/ on $(date -u -r "$built" +%Y-%m-%d)"
    elif is_of_these_sources; then
        echo "program in built/, made on $(told made) from these very sources: the next call unpacks it"
    else
        echo "program not built from these sources yet: the next call proves and builds it"
    fi
}

# ---- the run

# Whether somebody is at a terminal, or wants an explanation of argus's answer; both are the companions' work, where Python is there.
is_attended() {
    [ -t 2 ] || { [ "${ARGUS_EXPLAIN:-}" = 1 ] && [ "$program" = argus ]; } || return 1
    [ -f "$companions" ] && has_python
}

case $#:${1:-} in
1:--help)
    page=help.txt
    [ "$program" = argus ] || page=help_of_cells.txt
    cat "$top/companions/argus_office/$page"
    exit
    ;;
1:--version)
    version
    exit 0
    ;;
esac
if is_due && { [ "${ARGUS_BUILD:-}" = 1 ] || ! unpack; }; then
    build
fi
! is_attended || run_companion --attend "$program" "$built" "$@"
exec "$built" "$@" 9>&-
