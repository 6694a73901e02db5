# Programs of the machine as no user has them. This file is read by bench/hostile.sh, which has `run`, `must`, `must_end`, and the counts of cases.
# shellcheck shell=bash disable=SC2154

# 32 programs, each at a port of its own, with one process or with 32; and then eight such runs side by side.
many_programs() {
    local each n data=''
    for each in 1 32; do
        {
            for ((n = 1; n <= each; n++)); do echo "process p$n"; done
            for ((n = 1; n <= 32; n++)); do echo "port q$n p$((n % each + 1)) spawn run \"cat\""; done
            for ((n = 1; n <= 32; n++)); do printf 'p%s command q%s "port %02d"\n' $((n % each + 1)) $n $n; done
            for ((n = 1; n <= 32; n++)); do printf 'p%s bytes q%s 7\n' $((n % each + 1)) $n; done
            for ((n = 1; n <= 32; n++)); do printf 'p%s close q%s\n' $((n % each + 1)) $n; done
        } >many
        {
            echo "report processes=$each ports=32"
            for ((n = 1; n <= 32; n++)); do echo "port q$n driver=spawn commands=1 late=0 bytes=7 end=normal"; done
            if [ $each -eq 1 ]; then
                data=$(for ((n = 1; n <= 32; n++)); do printf 'port %02d' $n; done | sha256sum)
                echo "process p1 commands=32 dropped=0 suspended=0 data=32 sha256=${data%% *}"
            else
                for ((n = 1; n <= 32; n++)); do
                    data=$(printf 'port %02d' $(((n + 30) % 32 + 1)) | sha256sum)
                    echo "process p$n commands=1 dropped=0 suspended=0 data=1 sha256=${data%% *}"
                done
            fi
        } >many.out
        run run many
        must_end "32 programs and $each processes" 0 '' many.out
    done
    many_runs
}

many_runs() {
    local n
    for ((n = 1; n <= 8; n++)); do
        timeout -k 5 "$seconds" "$program" run many >"side.$n" 2>"side.$n.err" </dev/null &
    done
    wait
    for ((n = 1; n <= 8; n++)); do
        must 'one of eight runs side by side' cmp -s "side.$n" many.out
    done
    rm -f side.*
}

# A run of these lines, with its programs gone behind it.
run_lines() {
    rm -f pids
    printf '%s\n' "$@" >lines
    run run lines
}

# A program that writes without an end.
endless_programs() {
    run_lines 'process a' 'port p a spawn run "./told yes"' 'a bytes p 100000' 'a exit p kill'
    must_end 'yes, which is killed' 0 ''
    must 'its port was killed' grep -q '^port p driver=spawn commands=0 late=0 bytes=0 end=killed$' out
    must 'yes has ended' wait_for all_gone
    run_lines 'process a' 'process b' 'port p a spawn run "./told yes"' 'b bytes p 1' 'a bytes p 5000000'
    must_end 'yes, whose owner ends' 0 ''
    must 'its port has ended' grep -q '^port p driver=spawn commands=0 late=0 bytes=0 end=normal$' out
    must 'yes has ended' wait_for all_gone
    run_lines 'process a' 'port p a spawn run "./told yes" packet 4' 'a expect p 1'
    must_end 'yes, taken for packets' 0 ''
    must 'its port has failed' grep -q 'end=emsgsize$' out
    run_lines 'process a' 'port p a spawn run "cat /dev/zero" line 262143' 'a expect p 1000000'
    must_end 'zeros without an end' 0 ''
    must 'its port has failed for too many bytes' grep -q 'end=enospc$' out
}

# Programs that write as much as a port takes, a byte more, and a packet of the most bytes.
most_bytes() {
    local size
    run_lines 'process a' 'port p a spawn run "head -c 33554432 /dev/zero"' 'save a p "saved"' 'a bytes p 33554433'
    must_end 'a program of 33,554,432 bytes' 0 ''
    must 'its port has ended' grep -q '^port p driver=spawn commands=0 late=0 bytes=0 end=normal$' out
    must 'all its bytes came' test "$(wc -c <saved)" -eq 33554432
    run_lines 'process a' 'port p a spawn run "head -c 33554433 /dev/zero"' 'save a p "saved"' 'a bytes p 33554433'
    must_end 'a program of one byte more' 0 ''
    must 'its port has failed for too many bytes' grep -q '^port p driver=spawn commands=0 late=0 bytes=0 end=enospc$' out
    size=$(wc -c <saved)
    must 'all but the bytes of one fetch came' test $((33554433 - size)) -ge 1 -a $((33554433 - size)) -le 65536
    printf '#!/bin/sh\nprintf "\\000\\003\\377\\377"\nexec head -c 262143 /dev/zero\n' >packet
    chmod +x packet
    run_lines 'process a' 'port p a spawn run "./packet" packet 4' 'save a p "saved"' 'a expect p 2'
    must_end 'a program of one packet of 262,143 bytes' 0 ''
    must 'its port has ended' grep -q 'end=normal$' out
    must 'the packet came' test "$(wc -c <saved)" -eq 262143
    rm -f saved
}

# Programs that don't read, die, or close their pipes.
bad_programs() {
    head -c 400000 /dev/urandom >noise
    run_lines 'process a' 'process b' 'port p a spawn run "./told sleep 1000"' 'a file p 100000 "noise"' 'a expect p 1' 'b exit p kill'
    must_end 'a program that never reads, and is killed' 0 ''
    must 'its port was killed' grep -q 'end=killed$' out
    end_told
    printf '#!/bin/sh\nexec <&-\necho $$ >>pids\nexec sleep 1\n' >deaf
    printf '#!/bin/sh\ncat noise\nkill -9 $$\n' >dying
    printf '#!/bin/sh\nexec >&-\ncat >heard\nexit 3\n' >mute
    chmod +x deaf dying mute
    run_lines 'process a' 'port p a spawn run "./deaf"' 'a file p 1000 "noise"' 'a expect p 1'
    must_end 'a program with a closed input' 0 ''
    must 'its port has failed or ended' grep -Eq 'end=(eio|normal)$' out
    run_lines 'process a' 'port p a spawn run "./told sleep 1"' 'a file p 1000 "noise"' 'a expect p 1'
    must_end 'a program that never reads, and ends' 0 ''
    must 'its port has failed or ended' grep -Eq 'end=(eio|normal)$' out
    run_lines 'process a' 'port p a spawn run "head -c 5"' 'a command p "0123456789"' 'a expect p 1' 'a command p "x"' 'a expect p 2'
    must_end 'a program that reads five bytes' 0 ''
    must 'its five bytes came' grep -q "data=1 sha256=$(printf 01234 | sha256sum | cut -d ' ' -f 1)\$" out
    run_lines 'process a' 'port p a spawn run "./dying" exit_status' 'save a p "saved"' 'a bytes p 400001'
    must_end 'a program that is killed behind its last byte' 0 ''
    must 'no byte of it is lost' cmp -s noise saved
    run_lines 'process a' 'port p a spawn run "./mute" eof exit_status' 'a command p "abc"' 'a close p'
    must_end 'a program that closes its output at once' 0 ''
    rm -f saved heard
}

# A program is looked for in the folders of PATH, and in /bin and /usr/bin where there is none.
few_variables() {
    timeout -k 5 "$seconds" env -i "$program" run filter >out 2>err </dev/null
    status=$?
    must_end 'no variables' 0 '' filter.out
    timeout -k 5 "$seconds" env PATH=/no/such/folder "$program" run filter >out 2>err </dev/null
    status=$?
    must_end 'a PATH without the program' 6 'gateway: start refused at line 2: fault' nothing
    timeout -k 5 "$seconds" env PATH= "$program" run filter >out 2>err </dev/null
    status=$?
    must_end 'an empty PATH' 6 'gateway: start refused at line 2: fault' nothing
    # shellcheck disable=SC2016
    timeout -k 5 "$seconds" bash -c 'exec -a "" "$0" run filter' "$program" >out 2>err </dev/null
    status=$?
    must_end 'an empty name of the program' 0 '' filter.out
    mkdir gone
    (
        cd gone && rmdir ../gone
        exec timeout -k 5 "$seconds" "$program" run "$room/filter"
    ) >out 2>err </dev/null
    status=$?
    must_end 'a folder that is gone' 0 '' filter.out
}

# Bytes that go through a program come back, each once and in their order.
kept_bytes() {
    local size
    head -c 2000000 /dev/urandom >noise
    for size in 1000 65536 262143; do
        run_lines 'process a' 'port p a spawn run "cat"' 'save a p "saved"' "a file p $size \"noise\"" 'a bytes p 2000000' 'a close p'
        must_end "2,000,000 bytes through cat, $size at a time" 0 ''
        must 'they are the same bytes' cmp -s noise saved
    done
    run_lines 'process a' 'port p a spawn run "cat" packet 4' 'save a p "saved"' 'a file p 65536 "noise"' 'a bytes p 2000000' 'a close p'
    must_end '2,000,000 bytes through cat, in packets' 0 ''
    must 'they are the same bytes' cmp -s noise saved
    rm -f saved noise
}

# Files of steps up to their limit, and one of more commands than a process may send.
large_files() {
    local sent='commands=131072 dropped=0 suspended=0 data=0'
    head -c 200000 /dev/zero >zeros
    run_lines 'process a' 'port p a tally msgq off' 'a file p 1 "zeros"' 'a file p 1 "zeros"' 'a close p'
    must_end 'more than 131,072 commands' 0 ''
    must 'as many came to the port' grep -q '^port p driver=tally commands=131072 late=0 bytes=131072 end=normal$' out
    must 'as many were sent' grep -q "^process a $sent " out
    rm -f zeros
    truncate -s 33554432 huge
    printf x >one
    run_lines 'process a' 'port p a tally msgq off' 'a file p 262143 "huge"' 'a close p'
    must_end 'a file of 33,554,432 bytes' 0 ''
    must 'all of it was sent' grep -q '^port p driver=tally commands=129 late=0 bytes=33554432 end=normal$' out
    run_lines 'process a' 'port p a tally msgq off' 'a file p 262143 "huge"' '#' 'a file p 1 "one"' 'a close p'
    must_end 'files of one byte more' 10 'gateway: limit at line 5' nothing
    run_lines 'process a' 'port p a tally msgq off' 'a file p 1 "one"' 'a file p 262143 "huge"'
    must_end 'files of one byte more' 10 'gateway: limit at line 4' nothing
    truncate -s 1000G huge
    run_lines 'process a' 'port p a tally' 'a file p 1 "huge"'
    must_end 'a file of 1,000 gigabytes' 10 'gateway: limit at line 3' nothing
    rm -f huge one
}
