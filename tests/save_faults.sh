#!/bin/sh
# Faults of c/save.h and c/carry.h, planted one at a time: the host that is named must fail, by the check that is named.
#
#   sh save_faults.sh ARCHIVE
#
# The last line is 'N passed, 0 failed'.
set -eu
archive=$(realpath "$1")
cd "$(dirname "$0")/c"
build=$(mktemp -d)
trap 'rm -rf "$build"' EXIT
export TMPDIR="$build"
tried=0

# try_fault HOST CHECK EDIT: what the edit makes of the host's module is seen by it. It is written down in a folder of its own.
try_fault() {
    own="$build/$tried"
    module=save.h
    [ "$1" != carrying ] || module=carry.h
    mkdir "$own"
    cp ./*.h "$1.c" "$own"
    sed "$3" "$module" >"$own/$module"
    gcc -O2 -std=c11 -I../../include "$own/$1.c" "$archive" -o "$own/host"
    if ! cmp -s "$module" "$own/$module" && "$own/host" | grep -q "^failed: .*$2"; then
        touch "$own/found"
    else
        echo "not found by $1: $3"
    fi
}

# finds HOST CHECK EDIT: the same, two at a time.
finds() {
    tried=$((tried + 1))
    try_fault "$@" &
    [ $((tried % 2)) -eq 1 ] || wait
}

# By rename: the file is not flushed, nor the folder; the image is written under its own name; a file that was left is in the way,
# or stays longer; a failed close, a longer file.
finds saving 'flushed, renamed' 's/, 0) && bivamolune_flush(file);/, 0);/'
finds saving 'flushed, renamed' 's/return bivamolune_flush(folder) ?/return 1 ?/'
finds saving 'by rename, save 2, a kill within call 3' 's/"%s.new"/"%s"/'
finds saving 'by rename, save 1, a kill after call 2' 's/O_TRUNC/O_EXCL/'
finds torn 'the same, left' 's/ | O_TRUNC//'
finds saving 'by rename, a failure of call 5, error 5' 's/return close(file) == 0 && right;/close(file); return right;/'
finds torn 'a byte more' 's/ && behind == 0//'
# Either: a short write, an interrupted call, a failed close, a failure taken for no file, a folder that is not flushed.
finds saving 'by rename, one byte of call 3' 's/if (written <= 0) return 0;/return written > 0;/'
finds saving 'by rename, a failure of call 4, error 4' 's/result < 0 && errno == EINTR/0/'
finds saving 'by rename, a failure of call 8' 's/return close(file) != 0 && saving/return close(file) == 9 \&\& saving/'
finds saving 'loading, a failure of call 3' 's/errno == ENOENT ?/1 ?/'
finds saving 'is flushed before' 's/if (!bivamolune_flush(folder)) return/if (0) return/'
# In places: no checksum, or one without the number; a page with a part of both; the newest is written over, or the older one
# loaded; a place that failed counts, one that cannot be read does not; what is not flushed; numbers begin again.
finds torn 'sectors are there' 's/== bivamolune_checksum(place, .*);/!= 0;/'
finds torn 'a damaged place' 's/bivamolune_checksum(place, 8 + /bivamolune_checksum(place + 8, /'
finds torn 'a page is lost' 's/SECOND_PLACE_AT 20480/SECOND_PLACE_AT 16400/'
finds saving 'in places, save 2, a kill within call 7' 's/BIVAMOLUNE_SECOND_PLACE_AT - newest.at/newest.at/'
finds saving 'in places, save 3, a kill' 's/newest->at = first > second/newest->at = first < second/'
finds saving 'in places, a failure of call 8' 's/return bivamolune_write_at(file, no_number, .*?/return 1 ?/'
finds saving 'in places, a failure of call 5' 's/return size >= 0;/return 1;/'
finds saving 'then the other place' 's/if (!bivamolune_flush(file) ||/if (/'
finds saving 'then the other place' 's/bivamolune_flush(folder) ? bivamolune_write_other/1 ? bivamolune_write_other/'
finds saving 'then the other place' 's/BIVAMOLUNE_PLACE_SIZE, at) && bivamolune_flush(file)/BIVAMOLUNE_PLACE_SIZE, at)/'
finds saving 'made invalid and flushed' 's/at) \&\& bivamolune_flush(file) ? BIVAMOLUNE_NOT_SAVED/at) ? BIVAMOLUNE_NOT_SAVED/'
finds saving 'written again' '/if (!bivamolune_write_at(file, place, BIVAMOLUNE_PLACE_SIZE, newest.at))/d'
finds saving 'in places, a failure of call 3' 's/ : BIVAMOLUNE_SAVE_UNSURE);/ : BIVAMOLUNE_NOT_SAVED);/'
finds torn 'no number after it' 's/ || newest.number == UINT64_MAX//'
# Carrying: another size, header, count, bytes used, value or order is not looked for, nor what is behind the messages, or its last
# byte; the buffer is not that of no deltas at first; a refusal leaves it. That the count and a length have an end is for memory's
# sake alone: what the image then says is refused anyhow.
finds carrying 'a byte more' 's/old_size == BIVAMOLUNE_OLD_IMAGE_SIZE/old_size >= BIVAMOLUNE_OLD_IMAGE_SIZE/'
finds carrying 'a damaged header' '/BIVAMOLUNE_OLD_OFFSET_OF_VALUES_AT) ==/d'
finds carrying 'a damaged header' '/BIVAMOLUNE_OLD_OFFSET_OF_MESSAGES_AT) ==/d'
finds carrying 'a damaged header' 's/&& bivamolune_old_is_zero(old, BIVAMOLUNE_OLD_ZEROS_AT.*;/;/'
finds carrying 'a damaged header' 's/return at == bivamolune_old_bytes_used(old);/return 1;/'
finds carrying 'one of the log among the held' 's/return bivamolune_log_count(image) ==.*/return 1/; /&& bivamolune_held_count(image) ==/d'
finds carrying 'a damaged value' '/memcmp(image + BIVAMOLUNE_VALUES_AT/d'
finds carrying 'A2 before A1' '/memcmp(image + bivamolune_bytes_used/d'
finds carrying 'a byte behind the last message' 's/&& bivamolune_old_is_zero(old, bivamolune_old_bytes_used(old).*;/;/'
finds carrying 'a byte behind the last message' 's/return from >= end;/return from + 1 >= end;/'
finds carrying 'carried over' 's/bivamolune_empty(image, BIVAMOLUNE_IMAGE_SIZE) == BIVAMOLUNE_ACCEPTED/1/'
finds carrying 'a damaged header' '/memset(image, 0, BIVAMOLUNE_IMAGE_SIZE);/d'

wait
passed=$(find "$build" -name found | wc -l)
echo "$passed passed, $((tried - passed)) failed"
[ "$passed" -eq "$tried" ]
