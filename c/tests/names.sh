#!/bin/sh
# names.sh COMPILER ARCHIVE [SHARED]: both show exactly the calls of the archive's header, dasd.h for libdasd.a, and want nothing but the C
# library's few functions; each struct of the header has its size in sizes.c; and no fault of dasd.h has the number of one of dasd_drive.h.
# COMPILER is that for which they were made.
set -eu
cc=$1 archive=$2 shared=${3-}
here=$(dirname "$0")
header=$(basename "$archive" .a | sed 's/^lib//').h
work=$(mktemp -d)
trap 'rm -rf "$work"' EXIT
status=0

# shellcheck disable=SC2086 # a compiler may have words
names() { "$($cc -print-prog-name=nm)" "$@"; }

# tell TEXT: what is wrong.
tell() {
    echo "names.sh: $1" >&2
    status=1
}

# same NAME FILE: a library shows what the header declares.
same() {
    for it in $(comm -23 "$work/declared" "$2"); do tell "$header declares $it, and $1 does not have it"; done
    for it in $(comm -13 "$work/declared" "$2"); do tell "$1 shows $it, and $header does not declare it"; done
}

sed -n 's/^u\{0,1\}int32_t \(dasd_[a-z_]*\)(.*/\1/p' "$here/../$header" | sort > "$work/declared"
names -g --defined-only "$archive" | awk '$2 ~ /^[A-Z]$/ { print $3 }' | sort > "$work/archive"
same "$archive" "$work/archive"
if [ -n "$shared" ]; then
    names -D --defined-only "$shared" | awk '{ print $3 }' | sort > "$work/shared"
    same "$shared" "$work/shared"
fi

# the assembler of Debian 11 leaves the linker's own name of the table of offsets
printf '%s\n' _GLOBAL_OFFSET_TABLE_ free malloc memcpy memmove memset realloc | sort > "$work/known"
names -g --undefined-only "$archive" | awk '$1 == "U" { print $2 }' | sort -u > "$work/wanted"
for it in $(comm -13 "$work/known" "$work/wanted"); do tell "$archive wants $it, which it should not"; done

sed -n 's/^} \(dasd[a-z_]*\);$/\1/p' "$here/../$header" | sort > "$work/structs"
sed -n 's/^    {"\(dasd[a-z_]*\)", sizeof.*/\1/p' "$here/sizes.c" | sort > "$work/sized"
for it in $(comm -23 "$work/structs" "$work/sized"); do tell "$header has the struct $it, and sizes.c has no size of it"; done

# a program with both libraries tells faults by their numbers
for it in dasd dasd_drive; do
    sed -n 's/^ *DASD_[A-Z_0-9]* = \(-[0-9]*\).*/\1/p' "$here/../$it.h" | sort > "$work/$it"
    test -s "$work/$it"
done
for it in $(comm -12 "$work/dasd" "$work/dasd_drive"); do tell "dasd.h and dasd_drive.h have a fault of the same number, $it"; done
exit "$status"
