#!/usr/bin/env bash
# Sends a file and some lines through programs of the machine, and compares what is saved with what the programs give by themselves, and the reports with what they must say. Each script is run with
# several numbers of schedulers and workers.
#
#     docs/gallery/filters.sh [PROGRAM]
#
# PROGRAM is `./gateway` where none is named, which builds the program if it must. A gate leaves it in crates/gateway_cli/out/gateway_cli.
set -u
top=$(cd "$(dirname "$0")/../.." && pwd)
program=$(readlink -f "${1:-$top/gateway}")
room=$(mktemp -d) || exit 1
trap 'rm -rf "$room"' EXIT
cp "$top/LICENSE" "$top/docs/gallery/upper.py" "$room"
cd "$room" || exit 1
printf '#!/bin/sh\nhead -c 10\nexit 3\n' > dies
chmod +x dies upper.py
bytes=$(stat -c %s LICENSE)
tr a-z A-Z < LICENSE > upper
printf 0123456789 > ten
head -c 300000 /dev/zero > zeros
printf 'one\ntwo\n' > two_lines
failed=0

# Runs a script of these lines. The status with which it must end, and a pattern of a line that must be printed, stand before them.
must() {
    local status=$1 line=$2 words told
    shift 2
    printf '%s\n' "$@" > script
    for words in "" "1 1" "16 8"; do
        rm -f saved saved_too
        # shellcheck disable=SC2086
        told=$(timeout 60 "$program" run script $words 2>&1)
        if [ "$?" -ne "$status" ] || ! grep -qxE -- "$line" <<< "$told"; then
            echo "filters: the script '$*' $words printed"
            echo "$told"
            failed=$((failed + 1))
        fi
    done
}

same() {
    if ! cmp "$1" "$2"; then
        failed=$((failed + 1))
    fi
}

# A filter that answers as it reads.
must 0 "port p driver=spawn commands=12 late=0 bytes=$bytes end=normal" 'process a' 'port p a spawn run "stdbuf -o0 tr a-z A-Z"' 'save a p "saved"' \
    'a file p 1000 "LICENSE"' "a bytes p $bytes" 'a close p'
same upper saved
# One file through two programs, into two files.
must 0 "port q driver=spawn commands=3 late=0 bytes=$bytes end=normal" 'process a' 'port p a spawn run "cat"' 'port q a spawn run "stdbuf -o0 tr a-z A-Z"' \
    'save a p "saved"' 'save a q "saved_too"' 'a file p 4096 "LICENSE"' 'a file q 4096 "LICENSE"' "a bytes q $bytes" "a bytes p $bytes" 'a close p' 'a close q'
same LICENSE saved
same upper saved_too
# A program that speaks in packets.
must 0 "port p driver=spawn commands=12 late=0 bytes=$bytes end=normal" 'process a' 'port p a spawn run "./upper.py" packet 4' 'save a p "saved"' \
    'a file p 1000 "LICENSE"' 'a expect p 12' 'a close p'
same upper saved
# A program that ends by itself: the wait for more lines than it gives ends with its port.
must 0 'port p driver=spawn commands=1 late=0 bytes=14 end=normal' 'process a' 'port p a spawn run "head -n 2" line 80' 'save a p "saved"' \
    'a command p "one\ntwo\nthree\n"' 'a expect p 3'
same two_lines saved
must 0 'port p driver=spawn commands=1 late=0 bytes=14 end=normal' 'process a' 'port p a spawn run "grep -m 1 two"' 'save a p "saved"' \
    'a command p "one\ntwo\nthree\n"' 'a bytes p 5'
same <(echo two) saved
# A program that dies in the middle of its input.
must 0 'process a commands=1 dropped=0 suspended=0 data=1 sha256='"$(sha256sum ten | cut -d ' ' -f 1)" 'process a' 'port p a spawn run "./dies" exit_status' 'save a p "saved"' \
    'a command p "0123456789 and more"' 'a expect p 100'
same ten saved
# A program that isn't there, and one that never reads: its port suspends the sender, until another process kills it.
must 6 'gateway: start refused at line 2: fault' 'process a' 'port p a spawn run "./missing"'
must 0 'port p driver=spawn commands=[0-9]+ late=[0-9]+ bytes=[0-9]+ end=killed' 'process a' 'process b' 'port p a spawn run "sleep 1"' 'a file p 65536 "zeros"' \
    'b exit p kill'
echo "filters: $failed failed"
[ "$failed" -eq 0 ]
