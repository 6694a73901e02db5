#!/usr/bin/env bash
# Checks external terms by the vectors of these files: lines of bytes with the term that they are, or with the fault for which they are refused, as the head of
# crates/term_vectors/src/main.rt has it.
#
#   bench/term_vectors.sh FILE..
set -u
if [ $# -eq 0 ]; then
    echo "bench/term_vectors.sh: name the files of vectors" >&2
    exit 2
fi
files=()
for file in "$@"; do
    files+=("$(readlink -f "$file")")
done
cd "$(dirname "$0")/../crates/term_vectors" || exit 1
if ! log=$(rt run < stdin 2>&1); then
    echo "$log"
    exit 1
fi
status=0
for file in "${files[@]}"; do
    basename "$file"
    out/term_vectors "$file" || status=1
done
exit "$status"
