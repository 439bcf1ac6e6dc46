#!/bin/sh
# assemble.sh NAME OBJECT COMPILER [FLAG..]: makes the object of NAME (dasd, libdasd or libdasd_drive) for the compiler's target, of its text in
# compiled/, or for Windows of its object there. It has to have the sum of release/compiled.sha256.
set -eu
name=$1 made=$2
shift 2
here=$(cd "$(dirname "$0")/../.." && pwd)
target=$(sh "$here/tools/build/target.sh" "$@")
case $target in *-windows) file=$name-$target.o ;; *) file=$name-$target.s ;; esac
text=$here/compiled/$file
if [ ! -f "$text" ]; then
    echo "compiled/$file is not here: it is in each commit that the gate passed, and release/check --write makes it, with the kit" >&2
    exit 1
fi
wanted=$(sed -n "s/  $file\$//p" "$here/release/compiled.sha256")
found=$(sha256sum < "$text" | cut -d ' ' -f 1)
if [ "$wanted" != "$found" ]; then
    echo "compiled/$file is not that of this commit: its SHA-256 is $found, and release/compiled.sha256 has ${wanted:-none}" >&2
    exit 1
fi
case $file in *.o) cp "$text" "$made" ;; *) "$@" -c -o "$made" "$text" ;; esac
