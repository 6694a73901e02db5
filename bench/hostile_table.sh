# The scripts of the table bench/hostile_scripts.tsv. This file is read by bench/hostile.sh, which has `run`, `must_end`, and the counts of cases.
# shellcheck shell=bash disable=SC2154

# The rows of the table with what is repeated written out, and a row for each byte that no line has.
expanded_rows() {
    local byte
    awk '
        function repeated(count, text, n, made, one) {
            made = ""
            if (index(text, "%%")) {
                for (n = 1; n <= count; n++) { one = text; gsub(/%%/, n, one); made = made one }
                return made
            }
            while (count > 0) { if (count % 2) made = made text; count = int(count / 2); if (count > 0) text = text text }
            return made
        }
        /^#/ { next }
        {
            while (match($0, /%[0-9]+\(/)) {
                head = substr($0, 1, RSTART - 1)
                count = substr($0, RSTART + 1, RLENGTH - 2)
                rest = substr($0, RSTART + RLENGTH)
                end = index(rest, ")%")
                $0 = head repeated(count + 0, substr(rest, 1, end - 1)) substr(rest, end + 2)
            }
            print
        }' "$here/hostile_scripts.tsv"
    for byte in {0..9} {11..31} {127..255}; do
        printf '2\tgateway: script line 2: bad line\t#\\n# a\\x%02x\\nx\n' "$byte"
    done
}

# A report with each {BYTES} as the SHA-256 of the bytes.
hashed() {
    local text body sum
    while IFS= read -r -d '{' text; do
        IFS= read -r -d '}' body
        sum=$(printf '%b' "$body" | sha256sum)
        printf '%b%s' "$text" "${sum%% *}"
    done
    printf '%b' "$text"
}

# The rows of one of several parts, with their number in the table.
check_rows() {
    local part=$1 parts=$2 number=0 wanted text script
    mkdir "rows.$part" && cd "rows.$part" || return
    printf 0123456789 >ten
    : >empty
    while IFS=$'\t' read -r wanted text script; do
        number=$((number + 1))
        [ $((number % parts)) -eq "$part" ] || continue
        printf '%b' "$script" >script
        run run script
        if [ "$wanted" -eq 0 ]; then
            hashed <<<"$text" >wanted
            must_end "row $number: ${script:0:200}" 0 '' wanted
        else
            must_end "row $number: ${script:0:200}" "$wanted" "$text" ../nothing
        fi
    done <../rows
}

# Checks one of several parts in a shell of its own, and leaves the numbers of its cases.
check_part() {
    trap - EXIT
    cases=0
    wrongs=0
    check_rows "$1" "$2"
    echo "$cases $wrongs" >counts
}

# Checks all rows, in several parts side by side.
check_table() {
    local part parts=4 counted failed
    expanded_rows >rows
    for ((part = 0; part < parts; part++)); do
        check_part $part $parts &
    done
    wait
    for ((part = 0; part < parts; part++)); do
        read -r counted failed <"rows.$part/counts"
        cases=$((cases + counted))
        wrongs=$((wrongs + failed))
    done
}
