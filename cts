#!/usr/bin/env bash
# Runs the proved program with the words that it is given, in the caller's folder. Where it is missing or older than any of
# its sources it is proved and built first; with CTS_BUILT=1 in the environment the program that is built runs as it stands.
# At a terminal, what a refusal means is said after it, on standard error.
set -euo pipefail

top=$(dirname -- "$(readlink -f -- "${BASH_SOURCE[0]}")")
crate=$top/crates/cts_main
program=$crate/out/cts_main

# Whether the program stands, and no source of any crate is newer.
is_fresh() {
    [ -x "$program" ] &&
        [ -z "$(find "$top"/crates.txt "$top"/crates/*/src "$top"/crates/*/specs "$top"/crates/*/proofs -newer "$program" -print -quit)" ]
}

# The crates that the program stands on and the program itself, one a line.
crates_of_program() {
    awk -F: '{ sub(/#.*/, "") } NF { split($1, name, " "); names[NR] = name[1]; uses[name[1]] = $2 }
        function need(name, parts, n, i) {
            needed[name]
            n = split(uses[name], parts, " ")
            for (i = 1; i <= n; i++) if (parts[i] in uses && !(parts[i] in needed)) need(parts[i])
        }
        END { need("cts_main"); for (i = 1; i <= NR; i++) if (names[i] in needed) print names[i] }' "$top/crates.txt"
}

# Says in one line what is wanted and missing, and ends.
stop() {
    echo "cts: $1" >&2
    exit 1
}

# How many GB of memory are free, and how many of disk where the program stands.
free_memory() { awk '/^MemAvailable/ { print int($2 / 1048576) }' /proc/meminfo; }
free_disk() { df -Pk "$top" | awk 'NR == 2 { print int($4 / 1048576) }'; }

# Stops where something is missing that a proof and build of the program need.
look_for_needs() {
    local program
    [ "$(uname -sm)" = "Linux x86_64" ] || stop "the program is proved and built on Linux x86-64 alone, and this is $(uname -sm)"
    for program in rt awk df; do
        command -v "$program" >/dev/null || stop "$program is not on the path${KIT_HINT[$program]-}"
    done
    [ -r "$(rt doc)" ] || stop "rt is on the path without its kit: $(rt doc) cannot be read"
    [ "$(free_memory)" -ge "$LEAST_MEMORY" ] || stop "a proof takes $LEAST_MEMORY GB of memory, and $(free_memory) are free"
    [ "$(free_disk)" -ge "$LEAST_DISK" ] || stop "what is proved and built takes $LEAST_DISK GB of disk, and $(free_disk) are free where $top stands"
}

# GB: the largest crate is proved in less than this, and all that is built and kept takes less.
LEAST_MEMORY=4
LEAST_DISK=14
declare -A KIT_HINT=([rt]=": it is the command of the Rattle kit that README.md names under Trusted")

# How many crates are proved at a time: one a processor and two more, since some wait for a crate below, but no more than memory
# holds (2 GB each). CTS_JOBS in the environment says another number.
at_a_time() {
    local processors memory
    if [ -n "${CTS_JOBS-}" ]; then
        case $CTS_JOBS in *[!0-9]* | 0*) stop "CTS_JOBS is a number above 0, and not $CTS_JOBS" ;; esac
        echo "$CTS_JOBS"
        return
    fi
    processors=$(nproc)
    memory=$(($(free_memory) / 2))
    memory=$((memory > 1 ? memory : 1))
    echo $((processors + 2 < memory ? processors + 2 : memory))
}

# Reads what `rt all` says, which is one part for each crate that has ended, writes it to the file of this name, and shows how many have.
show_progress() {
    local line name='' ended=0 began=$SECONDS all told
    all=$(crates_of_program | wc -l)
    while IFS= read -r line; do
        printf '%s\n' "$line" >>"$1"
        case $line in
            '== summary') break ;;
            '== '*) name=${line#== } ended=$((ended + 1)) ;;
            *) continue ;;
        esac
        told="$ended of $all crates, $(((SECONDS - began) / 60)) min, last: $name"
        if [ -t 2 ]; then
            printf '\r\033[K%.78s' "$told" >&2
        else
            printf '%s\n' "$told" >&2
        fi
    done
    cat >>"$1"
    [ ! -t 2 ] || printf '\r\033[K' >&2
}

# Proves and builds the crates side by side, in this checkout, and then the program, which is run once without words: it answers its
# usage. What was built before an interruption is not built again.
build() {
    local began log said='' jobs
    look_for_needs
    jobs=$(at_a_time)
    echo "proving and building the program, once: $TIMES. Now $jobs crates at a time, with $(free_memory) GB of memory and $(free_disk) GB of disk free." >&2
    echo "All sources are read first, which takes some minutes. It may be stopped and started again: what is built stays." >&2
    began=$(mktemp)
    log=$(mktemp)
    trap 'rm -f "$began" "$log"' EXIT
    if (cd "$crate" && rt all check --jobs="$jobs" </dev/null 2>&1) | show_progress "$log"; then
        said=$(cd "$crate" && rt run </dev/null 2>>"$log") || true
    fi
    if [ ! -x "$program" ] || ! grep -q '^usage: ' <<<"$said"; then
        trap 'rm -f "$began"' EXIT
        tail -n 30 "$log" >&2
        stop "the program is not proved or not built: all that the kit said stands in $log"
    fi
    touch -r "$began" "$program"
    rm -f "$began" "$log"
    trap - EXIT
}

# What it took where it was measured (bench/README.md).
TIMES="70 minutes with one crate at a time, 40 with four"

if [ "${CTS_BUILT-}" = 1 ]; then
    [ -x "$program" ] || { echo "cts: CTS_BUILT=1, and no program is built" >&2; exit 1; }
else
    is_fresh || build
fi
if [ -t 1 ] && [ -t 2 ] && command -v python3 >/dev/null; then
    exec "$top/tools/explain" "$program" "$@"
fi
exec "$program" "$@"
