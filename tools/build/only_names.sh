#!/bin/sh
# only_names.sh COMPILER 'NAMES' ARCHIVE FOLDER PART..: an archive of one object, made in FOLDER of these objects and archives, of whose names
# only NAMES are seen.
set -eu
cc=$1 names=$2 archive=$3 folder=$4
shift 4
one=$folder/$(basename "$archive" .a).one.o
# shellcheck disable=SC2086 # a compiler may have words
tool() { $cc -print-prog-name="$1"; }
# shellcheck disable=SC2086
$cc -r -nostdlib -o "$one" -Wl,--whole-archive "$@"
"$(tool objcopy)" --wildcard --keep-global-symbol="$names" "$one"
rm -f "$archive"
"$(tool ar)" rcs "$archive" "$one"
