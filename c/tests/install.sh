#!/bin/sh
# install.sh MAKE CC FILES: installs what was built into an empty folder, by PREFIX and by DESTDIR, where no `rt` works and none may be
# called; builds the emulator of these files outside the repository with what pkg-config says of it, with the shared library and with the
# static one; and takes all of it away again.
set -eu
make=$1 cc=$2 files=$3
here=$(cd "$(dirname "$0")/.." && pwd)
top=$(cd "$here/.." && pwd)
work=$(mktemp -d)
trap 'rm -rf "$work"' EXIT

# An `rt` that leaves a mark stands first on the path.
mkdir "$work/bin"
printf '#!/bin/sh\ntouch "%s"\nexit 1\n' "$work/rt_was_called" > "$work/bin/rt"
chmod +x "$work/bin/rt"
built=$(sha256sum "$top/libdasd.a" "$top"/libdasd.so.*)

install_with() {
    PATH=$work/bin:$PATH "$make" -s --no-print-directory -C "$top" "$@"
}

install_with install PREFIX="$work/usr"
test ! -e "$work/rt_was_called"
test "$built" = "$(sha256sum "$top/libdasd.a" "$top"/libdasd.so.*)"
cp "$here"/examples/*.c "$here"/examples/*.h "$work/"
cd "$work"
if command -v pkg-config >/dev/null; then
    PKG_CONFIG_PATH=$work/usr/lib/pkgconfig
    export PKG_CONFIG_PATH
    flags=$(pkg-config --cflags --libs dasd)
    pkg-config --modversion dasd
else
    echo "install.sh: no pkg-config here: its flags are written out" >&2
    flags="-I$work/usr/include -L$work/usr/lib -ldasd"
fi
# shellcheck disable=SC2086 # the files and the flags are words
$cc -std=c11 -O1 -o emulator $files $flags
status=0
LD_LIBRARY_PATH=$work/usr/lib ./emulator 2>/dev/null || status=$?
test "$status" -eq 2
# shellcheck disable=SC2086 # the files are words
$cc -std=c11 -O1 -I"$work/usr/include" -o emulator $files "$work/usr/lib/libdasd.a"

install_with uninstall PREFIX="$work/usr"
test -z "$(find "$work/usr" -type f -o -type l)"

install_with install PREFIX=/usr DESTDIR="$work/package"
test -f "$work/package/usr/include/dasd.h"
test -f "$work/package/usr/include/dasd.hpp"
grep -q '^prefix=/usr$' "$work/package/usr/lib/pkgconfig/dasd.pc"
test ! -e "$work/rt_was_called"

# Where nothing is built, nothing is installed, and it says so.
mkdir "$work/empty"
mkdir "$work/empty/c"
cp "$top/Makefile" "$work/empty/"
cp "$here/dasd.h" "$work/empty/c/"
if "$make" -s -C "$work/empty" install PREFIX="$work/none" 2> "$work/why"; then
    echo "install.sh: something was installed of nothing" >&2
    exit 1
fi
grep -q 'nothing is built' "$work/why"
test ! -e "$work/none"
