#!/bin/sh
# Instructions of one delivery, of a purge, of log message, or of one call on texts, of the
# library and of the second implementation.
#
#   sh callgrind.sh [options of cargo build, such as --features library]
#
# A case is run with two numbers of calls. What lies between the two counts is that many
# calls and nothing else; the refilling of the buffers, counted alone, is taken off. The
# counts do not depend on what else the machine does.
set -eu

# The slowest shapes are among them: lone, priority and fan.
cases='chain-latest-0 chain-latest-63 chain-earliest-63 waiting-first-63
lone-latest-63 priority-latest-63 priority-earliest-63 fan-latest-63 fan-earliest-63
needs-latest-63 longest-latest-63 ring200-held-63 longest-code8-64
chain32-latest-63 longest32-latest-63 ring32-held-63
chain-purge1-64 chain-purge32-64 chain-purge64-64
lone-purge1-64 lone-purge32-64 lone-purge64-64
woven-purge1-64 woven-purge32-64 woven-purge64-64
woven32-purge1-64 woven32-purge64-64
chain-code2-64 log-begin-64 log-end-64 log-whole-64 log-code2-64
read-right-1 read-right-8 read-code13-8 read-code14-8
write-right-1 write-right-8 write-code14-8'
few=5
many=25

if ! command -v valgrind >/dev/null 2>&1; then
    echo 'callgrind.sh: valgrind is missing; nothing was counted' >&2
    exit 2
fi

cd "$(dirname "$0")"
cargo build --release --offline --bin bench "$@"
bench=${CARGO_TARGET_DIR:-target}/release/bench

# One instruction that copies a whole buffer is counted once for each byte. Where the C
# library can do without it, copies are made in wide steps.
GLIBC_TUNABLES=glibc.cpu.x86_rep_movsb_threshold=1000000
GLIBC_TUNABLES=$GLIBC_TUNABLES:glibc.cpu.x86_rep_stosb_threshold=1000000
export GLIBC_TUNABLES

# total CASE SIDE CALLS: the instructions of a whole run.
total() {
    log=$(valgrind --tool=callgrind --callgrind-out-file=/dev/null \
        "$bench" --case "$1" --of "$2" --calls "$3" 2>&1) || log="failed: $log"
    count=$(printf '%s\n' "$log" | sed -n 's/^==[0-9]*== Collected : \([0-9]*\).*/\1/p')
    case $log in
    failed:*) count= ;;
    esac
    if [ -z "$count" ]; then
        printf 'callgrind.sh: no count of %s\n%s\n' "$1" "$log" >&2
        return 1
    fi
    echo "$count"
}

# each CASE SIDE: the instructions of one call and one refilling.
each() {
    low=$(total "$1" "$2" "$few") || return 1
    high=$(total "$1" "$2" "$many") || return 1
    echo $(((high - low) / (many - few)))
}

# refill CASE: the instructions of one refilling; the buffers of texts are smaller, and log
# message and a purge have none but the image.
refill() {
    case $1 in
    log-* | read-* | write-* | *-purge*) each "$1" copy ;;
    *) echo "$copy" ;;
    esac
}

# The program says what stands on the library's side.
first=$("$bench" --case chain-latest-0 --of library --calls 0 2>&1)
first=${first##* }
if [ "$first" != library ]; then
    echo 'NO LIBRARY: built without the feature library. The column named'
    echo '"itself" is the second implementation once more.'
fi
copy=$(each chain-latest-0 copy)
echo "Instructions a call, without the $copy of refilling the buffers (less for purge, log and texts)."
printf '%-22s%14s%14s%14s\n' case "$first" second "$first/2nd"
for name in $cases; do
    one=$(each "$name" library)
    two=$(each "$name" second)
    own=$(refill "$name")
    one=$((one - own))
    two=$((two - own))
    ratio=$(awk "BEGIN { printf \"%.2f\", $one / $two }")
    printf '%-22s%14d%14d%14s\n' "$name" "$one" "$two" "$ratio"
done
