#!/bin/sh
# target.sh COMPILER [FLAG..]: for what this C compiler makes code, as the files of compiled/ are named: x86_64, aarch64 or x86_64-windows.
# It asks for the names that the compiler defines, so that flags count too, as -m32. Status 1, and why, where compiled/ has nothing for it.
set -eu
names=$("$@" -dM -E -x c /dev/null)

# has NAME..: whether the compiler defines all of these.
has() {
    for name; do
        case $names in *"#define $name "*) ;; *) return 1 ;; esac
    done
}

target=none
if has __x86_64__ __linux__ __LP64__; then
    target=x86_64
elif has __aarch64__ __linux__ __LP64__ __AARCH64EL__; then
    target=aarch64
elif has __x86_64__ _WIN64 __MINGW32__; then
    target=x86_64-windows
fi
if [ "$target" = none ]; then
    echo "dasd: compiled/ has nothing for $("$@" -dumpmachine), for which $* makes code. There are x86_64 and aarch64 Linux, and x86_64 Windows (MinGW)" >&2
    exit 1
fi
echo "$target"
