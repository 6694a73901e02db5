# Journals as no run writes them. This file is read by bench/hostile.sh, which has `run`, `must`, `must_end`, and the counts of cases.
# shellcheck shell=bash disable=SC2154

strange_journals() {
    local name
    mkdir -p folder
    ln -sfn nowhere dangling
    ln -sfn loop loop
    for name in folder / missing first/x dangling loop /proc/self/mem; do
        run replay "$name"
        must_end "the journal $name" 3 'gateway: read fault at line 0' nothing
    done
    for name in empty /dev/null; do
        run replay $name
        must_end "the journal $name" 11 'gateway: journal text at byte 0' nothing
    done
    run replay /dev/zero
    must_end 'a journal without an end' 10 'gateway: limit at line 0' nothing
    truncate -s 268435456 huge
    run replay huge
    must_end 'a journal of 268,435,456 zeros' 11 'gateway: journal text at byte 0' nothing
    for name in 268435457 1000G; do
        truncate -s $name huge
        run replay huge
        must_end "a journal of $name bytes" 10 'gateway: limit at line 0' nothing
    done
    rm -f huge
    mkfifo rows.pipe
    cat rows >rows.pipe &
    run replay rows.pipe
    must_end 'a journal in a pipe' 0 '' replay.out
    head -c 100 rows >rows.pipe &
    run replay rows.pipe
    must_end 'a journal whose writer goes away' 11 'gateway: journal text at byte 97' nothing
    timeout -k 5 "$seconds" "$program" replay /dev/stdin <rows >out 2>err
    status=$?
    must_end 'a journal on the standard input' 0 '' replay.out
}

# The journal of a valve whose owner is suspended until another process frees it. Its port isn't closed.
write_valve() {
    printf '%s\n' 'journal 1' 'processes a b' 'port p 0 valve msgq 4096 8192' 'h p1 0 control 1 - ; ; busy 1, reply -' 'm busy' 's p0 0' \
        'h p1 1 control 2 - ; ; busy 0, reply -' 'm free' 'r p0 0 1' 'h p0 0 command s 78 ; ; data plain 78' end >valve
}

# A journal that is cut behind each of its lines.
cut_journals() {
    local lines
    write_valve
    printf 'legal ports=0 rows=0\n' >none.out
    for lines in {0..11}; do
        head -n "$lines" valve >front
        run replay front
        case $lines in
        2) must_end 'a journal without a port' 0 '' none.out ;;
        11) must_end 'a journal whose port is not closed' 9 'gateway: port 0 row 7 breaks law 10' nothing ;;
        *) must_end "a journal of $lines lines" 11 "gateway: journal text at byte $(wc -c <front)" nothing ;;
        esac
    done
}

# A journal with each of its bytes changed in turn into one that no line has: the line is bad in which it stands.
changed_journals() {
    local lines line begin=0 at
    write_valve
    mapfile -t lines <valve
    for line in "${lines[@]}"; do
        for ((at = begin; at <= begin + ${#line}; at++)); do
            cp valve changed
            printf '\xff' | dd of=changed bs=1 seek=$at conv=notrunc status=none
            run replay changed
            must_end "a journal with another byte $at" 11 "gateway: journal text at byte $begin" nothing
        done
        begin=$((begin + ${#line} + 1))
    done
}

# A row with so many answers that no driver asked for, and nothing behind them.
write_answers() {
    printf 'journal 1\nprocesses a\nport p 0 echo msgq off\nh p0 0 close ; again'
    yes ', again' | head -n $(($1 - 1)) | tr -d '\n'
    printf ' ;\nend\n'
}

# Long lines of a journal.
long_journals() {
    write_answers 1048576 >long
    run replay long
    must_end 'a row of 1,048,576 answers' 9 'gateway: port 0 row 0 breaks law 4' nothing
    write_answers 1048577 >long
    run replay long
    must_end 'a row of one answer more' 11 'gateway: journal text at byte 45' nothing
    { head -c 45 long; printf 's p0 '; head -c 1000000 /dev/zero | tr '\0' 9; printf '\nend\n'; } >digits
    run replay digits
    must_end 'a number of 1,000,000 digits' 11 'gateway: journal text at byte 45' nothing
    head -c 20000000 /dev/zero | tr '\0' a >long
    run replay long
    must_end 'a line of 20,000,000 bytes' 11 'gateway: journal text at byte 0' nothing
    rm -f long digits
}
