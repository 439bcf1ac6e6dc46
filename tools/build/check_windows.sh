#!/bin/sh
# check_windows.sh COMPILER FLAGS RUN: the vectors and the calls in C at the static libraries for Windows, whose objects are in compiled/.
set -eu
cc=$1 flags=$2 run=$3
make -s CC="$cc" HEAP=compiled/heap-x86_64-windows.o libdasd.a libdasd_drive.a
# play NAME SOURCE..: builds a program, and runs it with the words of $words.
play() {
    name=$1
    shift
    # shellcheck disable=SC2086 # the flags, what runs it and its words are words
    $cc -std=c11 $flags -Ic -Ic/tests/windows -o "out/$name.exe" "$@" && $run "out/$name.exe" ${words-}
}
words=conformance/vectors play vectors c/tests/vectors.c c/tests/deck.c c/tests/sha256.c libdasd.a
for it in test several volumes; do play "$it" "c/tests/$it.c" libdasd.a; done
play drive c/tests/drive.c libdasd_drive.a libdasd.a
