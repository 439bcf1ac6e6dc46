#!/bin/sh
# face.sh CXX ARCHIVE OUT: the face of the archive's header for C++, dasd.hpp for libdasd.a, has each call and each fault of the header, with its
# text; and its test, face.cpp or drive_face.cpp, passes, without a warning and under sanitizers, by each C++ compiler that is here and for each
# standard that it knows. Of a call with a size it has the header's face.
set -eu
cxx=$1 archive=$2 out=$3
here=$(dirname "$0")
work=$(mktemp -d)
trap 'rm -rf "$work"' EXIT
name=$(basename "$archive" .a | sed 's/^lib//')
case $name in
    dasd) test=face wrap=-Wl,--wrap=dasd_lent_sio,--wrap=dasd_check,--wrap=dasd_attach,--wrap=dasd_peek,--wrap=dasd_poke ;;
    *) test=drive_face wrap= ;;
esac
warnings="-Wall -Wextra -Wpedantic -Wshadow -Wconversion -Werror"

sed -n 's/^u\{0,1\}int32_t \(dasd_[a-z_]*\)(.*/\1/p' "$here/../$name.h" | sed 's/_sized$//' | sort > "$work/declared"
grep -o 'dasd_[a-z_]*(' "$here/../$name.hpp" | tr -d '(' | sort -u > "$work/called"
diff "$work/declared" "$work/called"
sed -n 's|^ *\(DASD_[A-Z_0-9]*\) = \(-[0-9]*\),\{0,1\} */\* \(.*\) \*/$|\1 \2 \3|p' "$here/../$name.h" > "$work/faults"
test -s "$work/faults"

tried=0
known=
for compiler in "$cxx" g++ clang++; do
    # shellcheck disable=SC2086 # a compiler may have words
    set -- $compiler
    where=$(command -v "$1") || continue
    where=$(readlink -f "$where")
    case "$known" in *"<$where>"*) continue ;; esac
    known="$known<$where>"
    for standard in c++17 c++20 c++2b; do
        "$@" -std=$standard -fsyntax-only -x c++ - < /dev/null 2> "$work/why" || continue
        # shellcheck disable=SC2086 # the warnings are words
        "$@" -std=$standard -O1 -g $warnings -fsanitize=address,undefined -fno-sanitize-recover=all $wrap -o "$out/$test" "$here/$test.cpp" "$archive"
        "$out/$test"
        "$out/$test" texts | diff "$work/faults" -
        tried=$((tried + 1))
    done
done
echo "face.sh: $name.hpp passes with $tried of compiler and standard"
test "$tried" -gt 0
