# shellcheck shell=sh
# What make_packages, make_wheels and make_crates have in common; they read it with `.`.
#
# Each is called with the tree of a release, which is its unpacked tarball, and the folder for what it makes. It wants SOURCE_DATE_EPOCH,
# the time that what it makes bears: so the same tree gives the same bytes.

# The system's own tools before any other, in its plain language and time.
PATH=/usr/local/sbin:/usr/local/bin:/usr/sbin:/usr/bin:/sbin:/bin:$PATH
LC_ALL=C.UTF-8 TZ=UTC PYTHONDONTWRITEBYTECODE=1
export PATH LC_ALL TZ PYTHONDONTWRITEBYTECODE SOURCE_DATE_EPOCH
umask 022

# fail TEXT: ends the script.
fail() {
    echo "${0##*/}: $1" >&2
    exit 1
}

# need COMMAND PACKAGE: ends the script where there is no such command.
need() {
    command -v "$1" > /dev/null || fail "there is no $1 here; Debian's package $2 has it"
}

# check_words TREE OUT: ends the script where its words are others, or a file that every package takes is not in the tree, or the compiled
# code is not what its sums say. OUT is made.
check_words() {
    [ $# -eq 2 ] || fail "it wants the tree of a release, and the folder for what is made"
    [ -n "${SOURCE_DATE_EPOCH:-}" ] || fail "SOURCE_DATE_EPOCH is not set"
    for name in VERSION LICENSE THIRD_PARTY THIRD_PARTY.LGPL-2.1 PROVED.txt release/compiled.sha256 c/dasd.h c/heap.c c/memory.h c/system.c \
        c/system.h c/exports.map; do
        [ -s "$1/$name" ] || fail "$1 has no $name"
    done
    for machine in x86_64 aarch64; do
        [ -s "$1/compiled/libdasd-$machine.s" ] || fail "$1/compiled has no library for $machine"
        [ -s "$1/compiled/dasd-$machine.s" ] || fail "$1/compiled has no program for $machine"
    done
    (cd "$1/compiled" && grep '\.s$' ../release/compiled.sha256 | sha256sum --quiet --strict -c) ||
        fail "$1/compiled is not what release/compiled.sha256 says"
    mkdir -p "$2"
}

# pack FOLDER: a folder as tar on standard output: names in order, no owner, one time, the usual modes.
pack() {
    (cd "$(dirname "$1")" && tar --format=gnu --sort=name --mtime="@$SOURCE_DATE_EPOCH" --owner=0 --group=0 --numeric-owner \
        --mode=go=rX,u+rw -cf - "$(basename "$1")")
}

# put_notices TREE FOLDER: what each that has compiled code inside is given with it.
put_notices() {
    for name in LICENSE THIRD_PARTY THIRD_PARTY.LGPL-2.1; do
        cp "$1/$name" "$2/"
    done
}

# put_library TREE FOLDER: the library as a language's source package carries it: its text for each Linux, what it takes memory by, notices.
put_library() {
    mkdir -p "$2"
    for name in compiled/libdasd-x86_64.s compiled/libdasd-aarch64.s c/heap.c c/memory.h c/exports.map PROVED.txt THIRD_PARTY; do
        cp "$1/$name" "$2/"
    done
}

# put_program TREE FOLDER: the program in the same way, beside the library.
put_program() {
    for name in compiled/dasd-x86_64.s compiled/dasd-aarch64.s c/system.c c/system.h; do
        cp "$1/$name" "$2/"
    done
}
