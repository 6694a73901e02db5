#!/usr/bin/env bash
# Runs scripts again and again, each time with another one of the program's allocations refused, until each was refused once.
#
#     bench/refused_allocations.sh PROGRAM [SCRIPT..]
#
# A run may end with status 0 and the report of a run in which none is refused, or with status 8 and nothing printed; where it saves a file and ends with status 0,
# the file is whole. A script with a program may also end with status 6, a start that was refused, or tell by its report that a call of the program failed (`end=eio`):
# want of memory in the threads that serve programs is a failure of the outside. All else is wrong, and so is a run that goes on for sixty seconds. The last line is 'refused allocations: N runs of M scripts, K without memory, W wrong',
# and the status is 1 where W isn't 0. Allocations that the C library makes, for threads for instance, aren't refused.
set -u
top=$(cd "$(dirname "$0")/.." && pwd)
program=$(readlink -f "$1")
shift
cd "$top" || exit 2
gallery=docs/gallery
[ $# -gt 0 ] || set -- first.txt $gallery/limits.txt $gallery/digest.txt $gallery/lines.txt
mkdir -p crates/gateway_cli/out
room=$(mktemp -d)
trap 'rm -rf "$room"' EXIT
if ! cc -shared -fPIC -O2 -o "$room/refuse.so" bench/refuse.c 2> "$room/errors"; then
    echo "refused allocations: left out, since cc didn't compile bench/refuse.c"
    exit 0
fi

# The files that a script saves.
saved_by() {
    sed -n 's/^save .* "\(.*\)"$/\1/p' "$1"
}

# Runs the script with this allocation refused. What it prints lies in $room/out, its status is told.
run_with() {
    timeout 60 env REFUSE="$1" REFUSED="$room/refused" LD_PRELOAD="$room/refuse.so" "$program" run "$2" > "$room/out" 2> "$room/err"
}

# Whether it printed what it prints where none is refused, and saved the same file.
is_whole() {
    cmp -s "$room/out" "$room/report" && { [ -z "$file" ] || cmp -s "$file" "$room/file"; }
}

starts_programs() {
    grep -q '^port .* spawn' "$1"
}

# Whether it told that a call of its program failed.
has_failed() {
    starts_programs "$1" && grep -q 'end=eio$' "$room/out"
}

runs=0 without=0 wrong=0 scripts=0
for script in "$@"; do
    scripts=$((scripts + 1))
    run_with 0 "$script" || { echo "$script: status $? with no allocation refused"; exit 2; }
    cp "$room/out" "$room/report"
    file=$(saved_by "$script")
    [ -z "$file" ] || cp "$file" "$room/file"
    # How many allocations a run makes depends on its schedule, so a few more numbers are tried behind the first that none came to.
    missed=0
    for ((number = 1; missed < 10; number++)); do
        rm -f "$room/refused"
        [ -z "$file" ] || rm -f "$file"
        run_with "$number" "$script"
        status=$?
        if [ ! -e "$room/refused" ]; then
            missed=$((missed + 1))
            continue
        fi
        missed=0
        runs=$((runs + 1))
        case $status in
            0) is_whole || has_failed "$script" ;;
            6) starts_programs "$script" && [ ! -s "$room/out" ] ;;
            8) without=$((without + 1)); [ ! -s "$room/out" ] ;;
            *) false ;;
        esac || { wrong=$((wrong + 1)); echo "$script: allocation $number: status $status"; }
    done
done
echo "refused allocations: $runs runs of $scripts scripts, $without without memory, $wrong wrong"
[ "$wrong" -eq 0 ]
