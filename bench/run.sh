#!/usr/bin/env bash
# Times the parts of the project and whole runs of the program, in rows of one form:
#
#     name n total_us ns_each growth
#
# where n counts parts (tuples, segments, bytes or commands), and growth is in percent of the row before, which has half as many parts. Nothing checks
# a figure.
#
# `bench/run.sh` makes all works, and `bench/run.sh NAME [N]` one alone, with N parts in its first row. The names are
#
#     terms_encode terms_decode                                     terms: a list of so many tuples
#     vector_skip queue_deq queue_pushq                             vectors and driver queues of so many segments
#     unframe_packets unframe_lines unframe_stream                  so many bytes are unframed, in large chunks; with `_bytewise` behind
#                                                                   the name byte by byte
#     script_read commands_read                                     a script of so many bytes is read, one of all kinds of steps, or one of
#                                                                   commands of 33 bytes
#     body_echo body_waits body_freed                               the body of a port on one thread; the second row has eight times as
#                                                                   many parts as the first
#     schedulers schedulers_idle                                    schedulers under a load, and with nothing to do for N milliseconds
#     program_cat                                                   bytes through `cat`, and then, as cat_alone, what `cat` takes by itself
#     gateway_run                                                   whole runs of the program
#     gateway_replay                                                whole replays of the journals of such runs
#     beside_erlang                                                 whole runs beside the same work by Erlang/OTP, where `erl` is there
#
# The rows of `beside_erlang` have a form of their own: bench/beside_erlang.py tells it, and what each row is; N is how many runs a figure is the median of.
#
# The rows of `schedulers` are of 1, 2 and 4 schedulers, each of as many commands, and have more words at their end. The row of `schedulers_idle` has its
# own form. crates/port_bench/src/main.rt tells both.
#
# `bench/run.sh gateway_run N SCHEDULERS WORKERS` hands the last two on to the program; without them it has its own numbers, 4 and 2. The program is `./gateway`,
# or the one that the variable GATEWAY names: a gate leaves one in crates/gateway_cli/out/gateway_cli. A time of `./gateway` has in it its look for newer sources.
set -u
here=$(cd "$(dirname "$0")/.." && pwd)
program=$(readlink -f "${GATEWAY:-$here/gateway}")

# A script of so many commands of 8 bytes. Its process is never suspended, and waits for all that comes back.
write_script() {
    printf 'process a\nport p a echo msgq off\n'
    for ((i = 0; i < $1; i++)); do printf 'a command p "abcdefgh"\n'; done
    printf 'a expect p %d\n' "$1"
}

# The best time of five runs of the program with these words, in microseconds.
best_run() {
    local best='' from to
    for _ in 1 2 3 4 5; do
        from=$(date +%s%N)
        "$program" "$@" >/dev/null || return 1
        to=$(date +%s%N)
        if [ -z "$best" ] || [ $(((to - from) / 1000)) -lt "$best" ]; then best=$(((to - from) / 1000)); fi
    done
    echo "$best"
}

# Whole runs of the program, from its start to its end, with so many commands and two, four and eight times as many, and with these further words.
time_program() (
    before=''
    first=$1
    shift
    folder=$(mktemp -d)
    trap 'rm -rf "$folder"' EXIT
    for count in "$first" $((first * 2)) $((first * 4)) $((first * 8)); do
        write_script "$count" >"$folder/script.txt"
        time=$(best_run run "$folder/script.txt" "$@") || return 1
        growth=-
        [ -n "$before" ] && growth=$((time * 100 / before))
        echo "gateway_run $count $time $((time * 1000 / count)) $growth"
        before=$time
    done
)

# Replays of the journals of runs, each from the start of the program to its end, with so many commands and two, four and eight times as many.
time_replay() (
    before=''
    folder=$(mktemp -d)
    trap 'rm -rf "$folder"' EXIT
    cd "$folder" || return 1
    for count in "$1" $(($1 * 2)) $(($1 * 4)) $(($1 * 8)); do
        { printf 'journal "journal"\n' && write_script "$count"; } >script.txt
        "$program" run script.txt >/dev/null || return 1
        time=$(best_run replay journal) || return 1
        growth=-
        [ -n "$before" ] && growth=$((time * 100 / before))
        echo "gateway_replay $count $time $((time * 1000 / count)) $growth"
        before=$time
    done
)

# The best time of five copies of a file by `cat`, in microseconds.
best_copy() {
    local best='' from to
    for _ in 1 2 3 4 5; do
        from=$(date +%s%N)
        cat <"$1" >"$1.copy" || return 1
        to=$(date +%s%N)
        if [ -z "$best" ] || [ $(((to - from) / 1000)) -lt "$best" ]; then best=$(((to - from) / 1000)); fi
    done
    echo "$best"
}

# `cat < in > out` of so many bytes, and of two and four times as many: what program_cat is to be compared with.
time_cat() (
    before=''
    folder=$(mktemp -d)
    trap 'rm -rf "$folder"' EXIT
    for count in "$1" $(($1 * 2)) $(($1 * 4)); do
        head -c "$count" /dev/zero >"$folder/in"
        time=$(best_copy "$folder/in") || return 1
        growth=-
        [ -n "$before" ] && growth=$((time * 100 / before))
        echo "cat_alone $count $time $((time * 1000 / count)) $growth"
        before=$time
    done
)

# Builds a program of the project, and runs it with the further words.
built() {
    local name=$1 log
    shift
    if ! log=$(cd "$here/crates/$name" && rt run 2>&1); then
        echo "$log"
        return 1
    fi
    "$here/crates/$name/out/$name" "$@"
}

case "${1:-all}" in
gateway_run) time_program "${2:-2000}" "${@:3}" ;;
gateway_replay) time_replay "${2:-2000}" ;;
beside_erlang) "$here/bench/beside_erlang.py" "$program" "${2:-15}" ;;
program_cat) built program_bench "${2:-8388608}" && time_cat "${2:-8388608}" ;;
body_echo | body_waits | body_freed | schedulers | schedulers_idle) built port_bench "$@" ;;
all) built bench all && built port_bench all && built program_bench 8388608 && time_cat 8388608 && time_program 2000 && time_replay 2000 &&
    "$here/bench/beside_erlang.py" "$program" ;;
terms_encode | terms_decode | vector_skip | queue_deq | queue_pushq | script_read | commands_read) built bench "$@" ;;
unframe_packets | unframe_lines | unframe_stream | unframe_packets_bytewise | unframe_lines_bytewise | unframe_stream_bytewise) built bench "$@" ;;
*)
    echo "bench/run.sh: no work has the name $1" >&2
    exit 1
    ;;
esac
