#!/usr/bin/env bash
# Runs the scripts of this folder, and compares what each prints with the report beside it: NAME.txt with NAME.out. load_N.out is the summary of the load of N.
# None of them depends on how many schedulers and workers there are, so each is run with several numbers of them. A script is checked too, without running it, and the journal of one is
# judged, as it is and changed.
#
#     docs/gallery/check.sh [PROGRAM]
#
# PROGRAM is `./gateway` where none is named, which builds the program if it must. A gate leaves it in crates/gateway_cli/out/gateway_cli.
set -u
top=$(cd "$(dirname "$0")/../.." && pwd)
program=$(readlink -f "${1:-$top/gateway}")
cd "$top" || exit 1
saved=crates/gateway_cli/out/gallery_license
mkdir -p "$(dirname "$saved")"

# Runs the command of a name, its script or its load, with these further words.
check() {
    local name=$1 printed status
    local -a command=(run "docs/gallery/$1.txt")
    [ -e "docs/gallery/$1.txt" ] || command=(load "${1#load_}")
    shift
    printed=$(timeout 600 "$program" "${command[@]}" "$@" && echo .)
    status=$?
    if [ "$status" -ne 0 ]; then
        echo "$name $*: status $status"
        return 1
    fi
    if [ "$printed" != "$(cat "docs/gallery/$name.out" && echo .)" ]; then
        echo "$name $*: printed"
        echo "${printed%.}"
        return 1
    fi
}

# Has the counts of a script printed without running it, and compares them with those of its report.
count() {
    local name=$1 counts
    counts=$(timeout 600 "$program" check "docs/gallery/$name.txt")
    if [ "${counts% steps=*}" != "$(sed -n '1s/^report /ok /p' "docs/gallery/$name.out")" ]; then
        echo "check $name: printed $counts"
        return 1
    fi
}

# The program is built first, if it must be.
"$program" run docs/gallery/echo.txt > /dev/null || exit 1
failed=0
for report in docs/gallery/*.out; do
    name=$(basename "$report" .out)
    if [ -e "docs/gallery/$name.txt" ]; then
        count "$name" || failed=$((failed + 1))
    fi
    for words in "" "1 1" "2 1" "4 2" "16 8"; do
        # shellcheck disable=SC2086
        check "$name" $words || failed=$((failed + 1))
    done
done
if ! cmp LICENSE "$saved"; then
    failed=$((failed + 1))
fi

# The journal of a run is legal, and one with another byte of data isn't.
journal=crates/gateway_cli/out/gallery_journal
judge() {
    local told
    told=$("$program" replay "$1" 2>&1)
    if [ "$?: $told" != "$2" ]; then
        echo "replay $1: $told"
        return 1
    fi
}
judge "$journal" '0: legal ports=1 rows=3' || failed=$((failed + 1))
sed 's/plain 616263$/plain 616264/' "$journal" > "$journal.changed"
judge "$journal.changed" '9: gateway: port 0 row 0 breaks law 4' || failed=$((failed + 1))
sed '$d' "$journal" > "$journal.cut"
judge "$journal.cut" "11: gateway: journal text at byte $(stat -c %s "$journal.cut")" || failed=$((failed + 1))
echo "gallery: $failed failed"
[ "$failed" -eq 0 ]
