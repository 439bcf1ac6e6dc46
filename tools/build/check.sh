#!/bin/sh
# check.sh COMPILER FLAGS RUN: plays what the repository has at what `make` has built, and says what passed. The last line is
# 'N passed, M failed': a vector, a row, an example and a test count one each. Without Python 3.11 ($PYTHON) a part is left out, and named.
set -u
cc=$1 flags=$2 run=$3 passed=0 failed=0 said=out/said python=${PYTHON:-python3}
shared=$(echo libdasd.so.*)
export PYTHONDONTWRITEBYTECODE=1
# each file that is written is synced: in memory that takes no time
[ -n "${TMPDIR-}" ] || [ ! -w /dev/shm ] || export TMPDIR=/dev/shm

# count WHAT GOOD BAD: adds, and prints a line; where something is bad, what was said too.
count() {
    passed=$((passed + $2)) failed=$((failed + $3))
    echo "$1: $2 passed, $3 failed"
    [ "$3" -eq 0 ] || tail -n 30 "$said"
}

# test_of WHAT COMMAND..: a command that ends with 0 where all is well.
test_of() {
    what=$1
    shift
    if "$@" > "$said" 2>&1; then count "$what" 1 0; else count "$what" 0 1; fi
}

# built NAME SOURCE..: a program of C; one that is not built counts as failed.
built() {
    name=$1
    shift
    # shellcheck disable=SC2086 # the compiler and its flags are words
    $cc -std=c11 $flags -Ic -o "out/$name" "$@" > "$said" 2>&1 || { count "$name does not build" 0 1; return 1; }
}

# test_in_c NAME SOURCE..: built and run.
test_in_c() {
    # shellcheck disable=SC2086 # what runs it is words
    built "$@" && test_of "c/tests: $1" $run "out/$1" first '' third
}

# vectors DOOR COMMAND..: what prints 'N of M vectors ..', or the suite's table with a line 'all M N ..'.
vectors() {
    door=$1
    shift
    "$@" > "$said" 2>&1
    status=$?
    counted "$door" "$status" "$(sed -n -e 's/^\([0-9]*\) of \([0-9]*\) vectors.*/\2 \1/p' -e 's/^all  *\([0-9]*\)  *\([0-9]*\) .*/\1 \2/p' "$said" | tail -n 1)"
}

# counted WHAT STATUS 'ALL GOOD': counts; where nothing was counted, or the status is not 0 and nothing is bad, one failed.
counted() {
    all=${3% *} good=${3#* }
    bad=$((${all:-1} - ${good:-0}))
    [ "$2" -eq 0 ] || [ "$bad" -gt 0 ] || bad=1
    count "$1" "${good:-0}" "$bad"
}

# has_python: whether there is a Python of 3.11 or later, with its library.
has_python() {
    "$python" -c 'import sys, sqlite3, xml.etree; sys.exit(sys.version_info < (3, 11))' 2> /dev/null
}

test_of "compiled/ is of this commit's crates" sh tools/build/origin.sh
test_of "c/dasd.h and libdasd" sh c/tests/names.sh "$cc" libdasd.a "$shared"
test_of "c/dasd_drive.h and libdasd_drive" sh c/tests/names.sh "$cc" libdasd_drive.a
test_in_c sizes c/tests/sizes.c
test_in_c test c/tests/test.c libdasd.a
test_in_c several c/tests/several.c libdasd.a
test_in_c volumes c/tests/volumes.c libdasd.a
test_in_c drive c/tests/drive.c libdasd_drive.a libdasd.a
test_in_c heap_test -Wl,--wrap=malloc,--wrap=realloc,--wrap=free c/tests/heap_test.c c/heap.c
DASD_TEST=value
export DASD_TEST
test_in_c system_test -Wl,--wrap=main c/tests/system_test.c c/system.c
player="c/tests/vectors.c c/tests/deck.c c/tests/sha256.c"
# shellcheck disable=SC2086 # the sources, and what runs it, are words
{
    built vectors $player libdasd.a && vectors "vectors, libdasd.a" $run out/vectors conformance/vectors
    built vectors_shared $player "./$shared" -Wl,-rpath,"$PWD" && vectors "vectors, $shared" $run out/vectors_shared conformance/vectors
}
if has_python; then
    vectors "vectors, dasd" "$python" conformance/run.py --quiet "dasd=$run ./dasd"
    if [ -z "$run" ]; then
        "$python" rows/play.py --dasd dasd > "$said" 2>&1
        counted "rows of dasd" $? "$(sed -n 's/^\([0-9]*\) rows played, \([0-9]*\) wrong$/\1 \2/p' "$said" | awk '{ print $1, $1 - $2 }')"
        tools/run gate/run_pages --built dasd README.md > "$said" 2>&1
        counted "README's examples" $? "$(sed -n 's/^\([0-9]*\) examples of .* run, \([0-9]*\) came out wrong.*/\1 \2/p' "$said" | awk '{ print $1, $1 - $2 }')"
    fi
else
    echo "left out: vectors and rows of dasd, and README's examples, which want Python 3.11 (Debian's package python3)"
fi
echo "$passed passed, $failed failed"
[ "$failed" -eq 0 ]
