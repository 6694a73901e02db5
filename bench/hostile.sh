#!/usr/bin/env bash
# Hostile use of the program under the shell:
#
#     bench/hostile.sh PROGRAM [PART]..
#
# A gate leaves the program in crates/gateway_cli/out/gateway_cli. The parts are the functions that are named at the end; where none is named all are done.
# docs/HOSTILE.md tells what is tried. Nothing is printed of a case that goes as it must; the last line tells how many there were. All files lie in a folder
# that is removed at the end.
set -u
if [ $# -eq 0 ] || [ ! -x "$1" ]; then
    echo 'bench/hostile.sh: name the program' >&2
    exit 2
fi
here=$(cd "$(dirname "$0")" && pwd)
# shellcheck source-path=SCRIPTDIR
. "$here/hostile_table.sh"
# shellcheck source-path=SCRIPTDIR
. "$here/hostile_journals.sh"
# shellcheck source-path=SCRIPTDIR
. "$here/hostile_programs.sh"
program=$(readlink -f "$1")
shift
room=$(mktemp -d)
cases=0
wrongs=0
left_out=''
# How many seconds a run has. A program that is built with checks of memory needs more.
seconds=${SECONDS_PER_RUN:-30}

# Ends what is left of the programs that told their numbers.
end_told() {
    local number
    [ -f "$room/pids" ] || return 0
    while read -r number; do
        kill -9 "$number" 2>/dev/null
    done <"$room/pids"
}

clean() {
    local job
    for job in $(jobs -p); do
        kill "$job" 2>/dev/null
    done
    end_told
    chmod -R u+rwx "$room" 2>/dev/null
    rm -rf "$room"
}
# A program that is ended by a signal leaves no image.
ulimit -S -c 0
trap clean EXIT
trap 'exit 1' INT TERM HUP
cd "$room" || exit 1

# ---- what is wanted of a run

# A case is wrong, and this is what was seen.
wrong() {
    wrongs=$((wrongs + 1))
    echo "wrong: $*"
}

# The standard output and the standard error of the last run, as one line for a person to read.
seen() {
    printf 'status %s, output %s, error %s' "$status" "$(head -c 300 out | tr '\n' '|')" "$(head -c 300 err | tr '\n' '|')"
}

# A case: the last run ended with this status and this text on standard error, and where one is named its output is that of a file.
must_end() {
    local name=$1 wanted=$2 text=$3
    cases=$((cases + 1))
    if [ "$status" -ne "$wanted" ] || [ "$(cat err)" != "$text" ]; then
        wrong "$name: $(seen)"
    elif [ $# -gt 3 ] && ! cmp -s out "$4"; then
        wrong "$name: another output: $(seen)"
    fi
}

# A case that is true or not.
must() {
    local name=$1
    shift
    cases=$((cases + 1))
    "$@" || wrong "$name: $(seen)"
}

# Runs the program with these words.
run() {
    timeout -k 5 "$seconds" "$program" "$@" >out 2>err </dev/null
    status=$?
}

# Waits until a command is true, ten seconds at most.
wait_for() {
    local turn
    for ((turn = 0; turn < 200; turn++)); do
        "$@" && return 0
        sleep 0.05
    done
    return 1
}

# No process has this number, or one that has ended.
is_gone() {
    [ ! -d "/proc/$1" ] || grep -q '^State:[[:space:]]*Z' "/proc/$1/status" 2>/dev/null
}

# All programs that told their numbers have ended.
all_gone() {
    local number
    while read -r number; do
        is_gone "$number" || return 1
    done <pids
}

# So many programs told their numbers.
told() {
    [ -f pids ] && [ "$(wc -l <pids)" -ge "$1" ]
}

# The scripts that more than one case uses, and what their runs report.
write_scripts() {
    local of_abc=ba7816bf8f01cfea414140de5dae2223b00361a396177a9cb410ff61f20015ad
    printf 'process a\nport p a echo\na command p "abc"\na close p\n' >first
    printf 'process a\nport p a spawn run "cat"\na command p "abc"\na bytes p 3\na close p\n' >filter
    printf 'process a\nport p a spawn run "./told cat"\nport q a spawn run "./told cat"\na expect p 1\n' >waits
    printf 'x\n' >bad
    : >empty
    : >nothing
    printf 'report processes=0 ports=0\n' >empty.out
    printf 'report processes=1 ports=1\nport p driver=%s commands=1 late=0 bytes=3 end=normal\n' echo >first.out
    printf 'report processes=1 ports=1\nport p driver=%s commands=1 late=0 bytes=3 end=normal\n' spawn >filter.out
    printf 'process a commands=1 dropped=0 suspended=0 data=1 sha256=%s\n' $of_abc | tee -a first.out >>filter.out
    # A program that tells its number and becomes another one.
    printf '#!/bin/sh\necho $$ >>pids\nexec "$@"\n' >told
    chmod +x told
}

# What the other commands read and write: a check of the first script, a replay of its journal, and the load of 7.
write_commands() {
    printf 'ok processes=1 ports=1 steps=2\n' >check.out
    printf '%s\n' 'journal 1' 'processes a' 'port p 0 echo msgq 4096 8192' 'h p0 0 command - 616263 ; ; data plain 616263' 'h p0 1 close ; ;' \
        'm closed' end >rows
    printf 'legal ports=1 rows=3\n' >replay.out
    printf '%s\n' 'load number=7 commands=16000 late=0 bytes=522808' 'port q0 commands=4072 bytes=133173' 'port q1 commands=3954 bytes=129088' \
        'port q2 commands=4050 bytes=131985' 'port q3 commands=3924 bytes=128562' >load.out
}

# The words of one of them.
words_of() {
    case $1 in
    check) words=(check first) ;;
    replay) words=(replay rows) ;;
    load) words=(load 7) ;;
    esac
}

# ---- standard input, output and error

# Runs words with some of the three closed, as the first one says.
run_closed() {
    local streams=$1
    shift
    (
        exec >out 2>err </dev/null
        eval "exec $streams"
        exec timeout -k 5 "$seconds" "$program" "$@"
    )
    status=$?
}

# Words that write to their output, with each choice of closed streams. The name of the file tells what they write.
write_closed() {
    local name=$1
    shift
    run_closed '<&-' "$@"
    must_end "$* with a closed input" 0 '' "$name"
    run_closed '>&-' "$@"
    must_end "$* with a closed output" 4 'gateway: write fault' nothing
    run_closed '2>&-' "$@"
    must_end "$* with closed errors" 0 '' "$name"
    run_closed '<&- >&-' "$@"
    must_end "$* with a closed input and output" 4 'gateway: write fault' nothing
    run_closed '<&- 2>&-' "$@"
    must_end "$* with a closed input and closed errors" 0 '' "$name"
    run_closed '>&- 2>&-' "$@"
    must_end "$* with a closed output and closed errors" 4 '' nothing
    run_closed '<&- >&- 2>&-' "$@"
    must_end "$* with all closed" 4 '' nothing
    run_closed '1<&0' "$@"
    must_end "$* with an output that is open for reading alone" 4 'gateway: write fault' nothing
}

closed_streams() {
    local name words
    for name in first filter; do
        write_closed $name.out run $name
    done
    for name in check replay load; do
        words_of $name
        write_closed $name.out "${words[@]}"
    done
    run_closed '2>&-' run bad
    must_end 'a faulty script with closed errors' 2 '' nothing
    run_closed '<&- >&- 2>&-' run bad
    must_end 'a faulty script with all closed' 2 '' nothing
}

# Words that write to their output, to a full device and to a reader that has gone.
write_full() {
    timeout -k 5 "$seconds" "$program" "$@" >/dev/full 2>err
    status=$?
    : >out
    must_end "$* to a full device" 4 'gateway: write fault'
    { sleep 0.2; timeout -k 5 "$seconds" "$program" "$@" 2>err; echo $? >status; } | true
    status=$(cat status)
    must_end "$* to a reader that has gone" 4 'gateway: write fault'
    { sleep 0.2; (trap '' PIPE; timeout -k 5 "$seconds" "$program" "$@" 2>err); echo $? >status; } | true
    status=$(cat status)
    must_end "$* to a reader that has gone, with SIGPIPE ignored" 4 'gateway: write fault'
}

full_streams() {
    local name words
    write_full run first
    write_full run filter
    for name in check replay load; do
        words_of $name
        write_full "${words[@]}"
    done
    : >err
    timeout -k 5 "$seconds" "$program" run bad >out 2>/dev/full
    status=$?
    must_end 'errors to a full device' 2 '' nothing
    { sleep 0.2; timeout -k 5 "$seconds" "$program" run bad 2>&1 >out; echo $? >status; } | true
    status=$(cat status)
    must_end 'errors to a reader that has gone' 2 '' nothing
}

# A limit of the size of files: the kernel ends a program that writes past it by SIGXFSZ, unless that signal is ignored.
small_files() {
    printf 'process a\nport p a echo\na command p "abc"\nsave a p "saved"\na close p\n' >saves
    { (ulimit -f 0; exec timeout -k 5 "$seconds" "$program" run saves); echo $? >status; } 2>err | cat >out
    status=$(cat status)
    : >err
    is_ignored 25 || must_end 'a save past the limit of file sizes' 153 '' nothing
    { (trap '' XFSZ; ulimit -f 0; exec timeout -k 5 "$seconds" "$program" run saves 2>&1); echo $? >status; } | cat >out
    status=$(cat status)
    must 'a save past the limit, with SIGXFSZ ignored' test "$status: $(cat out)" = '4: gateway: write fault'
    { (ulimit -f 0; exec timeout -k 5 "$seconds" "$program" run first); echo $? >status; } 2>/dev/null | cat >out
    status=$(cat status)
    must_end 'a report to a pipe under the limit of file sizes' 0 '' first.out
    rm -f saved
}

# A limit of open files.
few_files() {
    (ulimit -n 5; exec timeout -k 5 "$seconds" "$program" run filter) >out 2>err </dev/null
    status=$?
    must_end 'no pipes can be opened' 6 'gateway: start refused at line 2: fault' nothing
    (ulimit -n 4; exec timeout -k 5 "$seconds" "$program" run first) >out 2>err </dev/null
    status=$?
    must_end 'one file can be opened' 0 '' first.out
}

# ---- the script

strange_scripts() {
    local unread='gateway: read fault at line 0' big='gateway: limit at line 0' name long longest
    long=$(printf '%5000s' '' | tr ' ' x)
    longest=$(printf '%131071s' '' | tr ' ' x)
    ln -s nowhere dangling
    ln -s loop loop
    mkdir folder
    for name in folder / . missing missing/x first/ first/x dangling loop /proc/self/mem "$long" "$longest"; do
        run run "$name"
        must_end "the script ${name:0:40}" 3 "$unread" nothing
    done
    for name in empty /dev/null; do
        run run "$name"
        must_end "the script $name" 0 '' empty.out
    done
    run run /dev/zero
    must_end 'a script without an end' 10 "$big" nothing
    head -c 1048576 /dev/zero | tr '\0' '#' >largest
    run run largest
    must_end 'a script of 1,048,576 bytes' 0 '' empty.out
    printf '#' >>largest
    run run largest
    must_end 'a script of one byte more' 10 "$big" nothing
    truncate -s 1000G largest
    run run largest
    must_end 'a script of 1,000 gigabytes' 10 "$big" nothing
    rm -f largest
    for name in $'new\nline' 'sp ace' $'\xc3\xbc' "quote'\"" '*' "\$HOME" 'first;x' '~'; do
        cp first "./$name"
        run run "$name"
        must_end "a script named $name" 0 '' first.out
        rm -f "./$name"
    done
}

# ---- another user, and few threads

# Runs the program as a user who isn't root and has no other process.
run_as_user() {
    setpriv --reuid=64123 --regid=64123 --clear-groups timeout -k 5 "$seconds" "$program" run "$@" >out 2>err </dev/null
    status=$?
}

# What root may read and write, other users may not.
other_user() {
    chmod 755 .
    if [ "$(id -u)" -ne 0 ] || ! setpriv --reuid=64123 --regid=64123 --clear-groups test -x "$program" 2>/dev/null; then
        left_out="$left_out another user,"
        return
    fi
    cp first unreadable
    chmod 0 unreadable
    run_as_user unreadable
    must_end 'an unreadable script' 3 'gateway: read fault at line 0' nothing
    mkdir locked
    printf 'process a\nport p a echo\na command p "abc"\nsave a p "locked/saved"\na close p\n' >saves
    chmod 555 locked
    run_as_user saves
    must_end 'a save to a folder that is read only' 4 'gateway: write fault' nothing
    few_threads
}

# Runs a script under a limit in a folder of its own. The words tell the folder, the limit, as `ulimit` takes it, the user, where it isn't the caller, the
# script, and how many seconds it has.
run_limited() {
    local folder=$1 limit=$2 user=() script=$4 most=$5
    [ -z "$3" ] || user=(setpriv --reuid="$3" --regid="$3" --clear-groups)
    mkdir "$folder"
    (
        # shellcheck disable=SC2086
        ulimit $limit && exec "${user[@]}" timeout -k 1 "$most" "$program" run "$room/$script" 1 1
    ) >"$folder/out" 2>"$folder/err" </dev/null
    echo $? >"$folder/status"
}

# Takes the end of such a run for the last one.
take_limited() {
    cp "$1/out" "$1/err" .
    status=$(cat "$1/status")
    rm -rf "$1"
}

# Whether a run of a script under a limit ended as it may: with its report, or for want of memory; one of a program also with a start or a call of the program
# that failed.
ended_well() {
    case $status in
    0) [ ! -s err ] && { cmp -s out "$1.out" || { [ "$1" = filter ] && grep -q 'end=eio$' out; }; } ;;
    8) [ ! -s out ] && [[ $(cat err) =~ ^(gateway: no memory)?$ ]] ;;
    6) [ "$1" = filter ] && [ "$(cat err)" = 'gateway: start refused at line 2: fault' ] && [ ! -s out ] ;;
    127) grep -q 'loading shared libraries' err ;;
    *) false ;;
    esac
}

# Limits of threads: what needs none ends as ever, and a run that gets too few ends for want of memory, after some ten seconds. Each limit is that of a user of its own.
few_threads() {
    local threads script user most whole=0
    for threads in 2 3 4 6 8 9 10 11 12 13 14 15 16; do
        for script in bad first filter; do
            case $script in bad) user=64200 most=$seconds ;; first) user=64400 most=40 ;; *) user=64600 most=40 ;; esac
            run_limited threads.$threads.$script "-u $threads" $((user + threads)) $script "$most" 2>/dev/null &
        done
    done
    wait
    for threads in 2 3 4 6 8 9 10 11 12 13 14 15 16; do
        take_limited threads.$threads.bad
        must_end "a faulty script with $threads threads" 2 'gateway: script line 1: bad line' nothing
        for script in first filter; do
            take_limited threads.$threads.$script
            must "$script with $threads threads" ended_well $script
            [ "$status" -ne 0 ] || whole=$((whole + 1))
        done
    done
    echo "hostile: under limits of threads $whole runs had their report"
}

# ---- scripts that move

# Scripts that come through pipes, or change while they are read.
moving_scripts() {
    local turn writer
    mkfifo pipe
    cat first >pipe &
    run run pipe
    must_end 'a script in a pipe' 0 '' first.out
    { printf 'process a\nport p a ec'; sleep 0.3; printf 'ho\na command p "abc"\na close p\n'; } >pipe &
    run run pipe
    must_end 'a script that comes in two parts' 0 '' first.out
    { printf 'process a\nport p a ec'; } >pipe &
    run run pipe
    must_end 'a script whose writer goes away' 5 'gateway: no driver for line 2, handed 0' nothing
    head -c 1048577 /dev/zero >pipe 2>/dev/null &
    run run pipe
    must_end 'a script in a pipe that is too large' 10 'gateway: limit at line 0' nothing
    yes '#' >pipe 2>/dev/null &
    run run pipe
    must_end 'a script in a pipe without an end' 10 'gateway: limit at line 0' nothing
    wait
    timeout -k 5 "$seconds" "$program" run /dev/stdin <first >out 2>err
    status=$?
    must_end 'a script on the standard input' 0 '' first.out
    # One comment at each moment, of some length.
    head -c 1000000 /dev/zero | tr '\0' '#' >comment
    cp comment changing
    while :; do
        cat comment >changing
        head -c 70000 comment >changing
    done &
    writer=$!
    for ((turn = 0; turn < 10; turn++)); do
        run run changing
        must_end 'a script that changes' 0 '' empty.out
    done
    { kill $writer && wait $writer; } 2>/dev/null
}

# Pipes as the files of a script: what a step sends, what is saved, and the journal.
piped_files() {
    local reader
    mkfifo given taken
    head -c 300000 /dev/urandom >noise
    cat noise >given &
    timeout "$seconds" cat taken >copy &
    reader=$!
    run_lines 'process a' 'port p a echo' 'save a p "taken"' 'a file p 1000 "given"' 'a bytes p 300000' 'a close p'
    must_end 'a file and a save that are pipes' 0 ''
    wait $reader
    must 'they are the same bytes' cmp -s noise copy
    timeout "$seconds" cat taken >copy &
    reader=$!
    run_lines 'process a' 'port p a echo' 'journal "taken"' 'a command p "abc"' 'a close p'
    must_end 'a journal that is a pipe' 0 '' first.out
    wait $reader
    must 'it is the whole journal' cmp -s rows copy
    timeout "$seconds" head -c 1 taken >/dev/null &
    reader=$!
    run_lines 'process a' 'port p a echo' 'save a p "taken"' 'a file p 1000 "noise"' 'a bytes p 300000' 'a close p'
    must_end 'a save to a pipe whose reader goes away' 4 'gateway: write fault' nothing
    wait $reader
    rm -f given taken copy noise
}

# ---- the words

# The words behind the first one are wrong from word N, the first one, on.
usage_at() {
    local at=$1
    shift
    run "$@"
    must_end "the words ${*:0:60}" 1 "gateway: usage at word $at" nothing
}

strange_words() {
    local word many numbers
    usage_at 1
    for word in '' ' ' - -- -h --help help Run RUN run1 ' run' 'run ' $'run\n' checks Check replays LOAD $'\xff' "$(printf '%131071s' '')"; do
        usage_at 1 "$word"
        usage_at 1 "$word" first
    done
    usage_at 2 run
    for word in '' - -- -x --version -first $'\xff' $'first\xff' $'\xc0\xaf' $'\xed\xa0\x80'; do
        usage_at 2 run "$word"
        usage_at 2 run "$word" 1 1
    done
    numbers=('' ' ' 0 00 17 99 -1 +1 1x x1 ' 1' '1 ' 0x1 1.0 1e0 one $'1\n' $'\xff' 4294967297 18446744073709551617 000000000000000000001
        340282366920938463463374607431768211457 "$(printf '%131071s' '' | tr ' ' 0)")
    for word in "${numbers[@]}"; do
        usage_at 3 run first "$word"
        usage_at 4 run first 1 "$word"
    done
    usage_at 4 run first 1 9
    usage_at 3 run first 17 9 x
    usage_at 5 run first 1 1 ''
    usage_at 5 run first 1 1 1
    usage_at 5 run first 1 1 $'\xff' x
    mapfile -t many < <(seq 10000)
    usage_at 5 run first 1 1 "${many[@]}"
    usage_at 2 run '' "${many[@]}"
    for word in 1 16 01 00000000000000000016; do
        run run first $word
        must_end "$word schedulers" 0 '' first.out
    done
    for word in 8 00000000000000000001; do
        run run first 16 $word
        must_end "16 schedulers and $word workers" 0 '' first.out
    done
    strange_commands
}

# The words of the other commands.
strange_commands() {
    local name word
    for name in check replay; do
        usage_at 2 $name
        for word in '' - -- -x -rows $'\xff' $'\xc0\xaf'; do
            usage_at 2 $name "$word"
            usage_at 2 $name "$word" first
            usage_at 3 $name first "$word"
        done
        usage_at 3 $name first first
        usage_at 3 $name first 1 1
    done
    usage_at 2 load
    for word in '' ' ' - -1 +1 1x x1 ' 1' '1 ' 0x1 1.0 1e0 one $'\xff' 18446744073709551616 000000000000000000001 "$(printf '%131071s' '' | tr ' ' 0)"; do
        usage_at 2 load "$word"
        usage_at 2 load "$word" 1 1
        usage_at 3 load 7 "$word"
        usage_at 4 load 7 1 "$word"
    done
    usage_at 3 load 7 0
    usage_at 3 load 7 17
    usage_at 4 load 7 1 9
    usage_at 5 load 7 1 1 1
    run load 00000000000000000007 16 8
    must_end 'a load whose number has 20 digits' 0 '' load.out
    run load 18446744073709551615 1 1
    must_end 'the load of the greatest number' 0 ''
    must 'all its commands are handled' grep -q '^load number=18446744073709551615 commands=16000 late=0 bytes=' out
}

# ---- signals

# A signal that this shell was started to ignore is ignored by the program too.
is_ignored() {
    local ignored
    ignored=$(awk '/^SigIgn/ { print $2 }' /proc/self/status)
    [ $(((0x$ignored >> ($1 - 1)) & 1)) -eq 1 ]
}

# Starts the program with a script and the signals as they are by default, and waits until its two programs have told their numbers.
start_waiting() {
    rm -f pids
    set -m
    "$program" run waits >out 2>err </dev/null &
    pid=$!
    set +m
    wait_for told 2
}

# The status with which it ends; after ten seconds it is killed.
end_of_waiting() {
    {
        wait_for is_gone "$pid" || kill -9 "$pid"
        wait "$pid"
    } 2>/dev/null
    status=$?
}

signals() {
    local signal
    for signal in HUP:1 INT:2 QUIT:3 KILL:9 USR1:10 ALRM:14 TERM:15; do
        is_ignored "${signal#*:}" && continue
        must 'two programs start' start_waiting
        kill -"${signal%:*}" "$pid"
        end_of_waiting
        : >err
        must_end "SIG${signal%:*} while it waits" $((128 + ${signal#*:})) '' nothing
        must "the programs end after SIG${signal%:*}" wait_for all_gone
    done
    must 'two programs start' start_waiting
    kill -STOP "$pid"
    sleep 0.2
    kill -CONT "$pid"
    kill -PIPE "$pid"
    # One of its programs is ended, and a wait for data of it ends.
    kill -9 "$(head -n 1 pids)"
    kill -9 "$(tail -n 1 pids)"
    end_of_waiting
    must_end 'its programs are ended by SIGKILL, after it was stopped and continued and sent SIGPIPE' 0 ''
    must 'both ports have ended' test "$(grep -c 'driver=spawn commands=0 late=0 bytes=0 end=normal' out)" -eq 2
    rm -f pids
}

# ---- waiting

# How many thousandths of a second of processor time the command takes that is given.
thousandths() {
    local TIMEFORMAT='%U %S'
    { time "$@" >out 2>err; } 2>&1 | awk '{ printf "%d\n", ($1 + $2) * 1000 }'
}

# A run that waits five seconds takes less than half a second of processor time, its start with it.
idle_waits() {
    local words used
    printf 'process a\nport p a spawn run "sleep 5"\na expect p 1\n' >sleeps
    for words in '' '1 1'; do
        # shellcheck disable=SC2086
        used=$(thousandths timeout -k 5 "$seconds" "$program" run sleeps $words)
        status=$used
        must "a wait of five seconds takes less than 500 thousandths of processor time ($words), and took $used" test "$used" -lt 500
    done
}

# ---- want of memory

# Whether a script with a program runs under a limit of so many kilobytes of address space. Each thread wants some tens of megabytes of it.
runs_within() {
    (ulimit -v "$1" && exec timeout -k 1 2 "$program" run filter 1 1) >out 2>err </dev/null
    status=$?
    [ "$status" -eq 0 ] && cmp -s out filter.out
}

# The least limit of address space under which a script runs, to 8 megabytes. None is found for a program that wants very much from the start.
least_limit() {
    local low=0 high=65536 middle
    until runs_within $high; do
        low=$high
        high=$((high * 2))
        [ $high -le 16777216 ] || return 1
    done
    while [ $((high - low)) -gt 8192 ]; do
        middle=$(((low + high) / 2))
        if runs_within $middle; then high=$middle; else low=$middle; fi
    done
    least=$high
}

# Headers that tell up to four gigabytes, 64 megabytes above the need of the start.
large_headers() {
    local header
    for header in '000\\\\004\\\\000\\\\000' '177\\\\377\\\\377\\\\377' '200\\\\000\\\\000\\\\000' '377\\\\377\\\\377\\\\377'; do
        printf '%s\n' 'process a' "port p a spawn run \"printf \\\\$header\" packet 4" 'a expect p 1' >lines
        (ulimit -v $((least + 65536)) && exec timeout -k 5 "$seconds" "$program" run lines 1 1) >out 2>err </dev/null
        status=$?
        must_end "the header $header" 0 ''
        must 'its port has failed for its length' grep -q '^port p driver=spawn commands=0 late=0 bytes=0 end=emsgsize$' out
    done
}

# A journal of 268,435,456 bytes, 64 megabytes above the need of the start.
large_journal() {
    truncate -s 268435456 huge
    (ulimit -v $((least + 65536)) && exec timeout -k 5 "$seconds" "$program" replay huge) >out 2>err </dev/null
    status=$?
    must_end 'a journal of 268,435,456 bytes with 64 megabytes' 8 'gateway: no memory' nothing
    rm -f huge
}

# Whether the program is loaded under a limit of so many kilobytes.
loads_within() {
    (ulimit -v "$1" && exec env LD_TRACE_LOADED_OBJECTS=1 "$program") >/dev/null 2>&1 && (ulimit -v "$1" && exec timeout 5 true) 2>/dev/null
}

# Runs under limits of address space in steps, up to what a run needs and some more. A run that gets no thread may not end, which is counted.
refused_memory() {
    local script step batch hung=0 whole=0
    for script in first filter; do
        for batch in 0 15; do
            for ((step = batch + 1; step <= batch + 15; step++)); do
                run_limited memory.$step "-v $((least * step / 27))" '' $script 40 2>/dev/null &
            done
            wait
            for ((step = batch + 1; step <= batch + 15; step++)); do
                take_limited memory.$step
                loads_within $((least * step / 27)) 2>/dev/null || continue
                case $status in
                124 | 137) hung=$((hung + 1)) ;;
                *) must "$script within $((least * step / 27)) kilobytes" ended_well $script ;;
                esac
                [ "$status" -ne 0 ] || whole=$((whole + 1))
            done
        done
    done
    echo "hostile: under limits of memory $whole runs had their report, and $hung didn't end in forty seconds"
}

little_memory() {
    if least_limit; then
        large_headers
        large_journal
        refused_memory
    else
        left_out="$left_out limits of memory,"
    fi
}

# ---- all of it

parts=(closed_streams full_streams small_files few_files strange_scripts other_user moving_scripts piped_files strange_journals cut_journals
    changed_journals long_journals strange_words signals many_programs endless_programs most_bytes bad_programs few_variables kept_bytes large_files idle_waits
    little_memory check_table)
[ $# -eq 0 ] || parts=("$@")
write_scripts
write_commands
run run first
must_end 'a script' 0 '' first.out
for part in "${parts[@]}"; do
    $part
done
[ -z "$left_out" ] || echo "hostile: left out:${left_out%,}"
echo "hostile: $cases cases, $wrongs wrong"
[ "$wrongs" -eq 0 ]
