#!/bin/sh
# needs.sh COMPILER [FLAG..]: whether what `make` calls is here. Where it is not, one line says what is missing, and which package of Debian has it.
set -u

# lacks WHAT PACKAGE: the line, and the end.
lacks() {
    echo "make: $1 is missing: Debian's package $2 has it" >&2
    exit 1
}

command -v "$1" > /dev/null || case $1 in
    cc | gcc) lacks "a C compiler ($1)" gcc ;;
    clang) lacks "clang" clang ;;
    *-gcc) lacks "the compiler $1" "gcc-${1%-gcc}" ;;
    *) lacks "the compiler $1" "gcc or clang" ;;
esac
for tool in as ld objcopy ar; do
    command -v "$("$1" -print-prog-name=$tool)" > /dev/null || lacks "$tool" binutils
done
command -v sha256sum > /dev/null || lacks sha256sum coreutils
echo '#include <stdlib.h>' | "$@" -E -x c - > /dev/null 2>&1 || case $1 in
    aarch64-*) lacks "the C library's headers, stdlib.h" libc6-dev-arm64-cross ;;
    *) lacks "the C library's headers, stdlib.h" libc6-dev ;;
esac
