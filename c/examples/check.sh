#!/bin/sh
# check.sh S360 MKVOLUMES FOLDER: the listings are those of the sources; the emulator types what it must, on new volumes and once more on what
# it saved; and a volume that can't be saved stays as it was. So it is over main storage that is lent, with a log, and in two parts.
set -eu
s360=$1 mkvolumes=$2 folder=$3
here=$(dirname "$0")

diff "$here/utility.lst" "$folder/utility.lst"
diff "$here/copier.lst" "$folder/copier.lst"
"$mkvolumes" "$folder/utility.bin" "$folder/resident.ckd" "$folder/work.ckd"
"$s360" 190="$folder/resident.ckd" 191="$folder/work.ckd" 2>"$folder/saved" | diff "$here/expected.txt" -
grep -q 'work.ckd is saved' "$folder/saved"
if grep -q 'resident.ckd' "$folder/saved"; then
    echo "check.sh: a volume that was not changed was saved" >&2
    exit 1
fi
sed -e 's/VISIT 0042/VISIT 0043/' -e 's/VISIT 0041/VISIT 0042/' "$here/expected.txt" > "$folder/again"
"$s360" 190="$folder/resident.ckd" 191="$folder/work.ckd" 2>/dev/null | diff "$folder/again" -

# the same over a file that is mapped as main storage: new volumes, the same words typed, and the same volumes saved
"$mkvolumes" "$folder/utility.bin" "$folder/resident.ckd" "$folder/work.ckd"
"$s360" 190="$folder/resident.ckd" 191="$folder/work.ckd" 2>/dev/null >"$folder/typed"
mv "$folder/work.ckd" "$folder/work.own"
"$mkvolumes" "$folder/utility.bin" "$folder/resident.ckd" "$folder/work.ckd"
rm -f "$folder/storage"
"$s360" --lend "$folder/storage" 190="$folder/resident.ckd" 191="$folder/work.ckd" 2>/dev/null | diff "$folder/typed" -
cmp "$folder/work.ckd" "$folder/work.own"
# the file has the program, which was read to 1000 from the volume, and its last channel status word; and is taken once more as it is
cmp -n 16 -i 4096:0 "$folder/storage" "$folder/utility.bin"
"$s360" --lend "$folder/storage" 190="$folder/resident.ckd" 191="$folder/work.ckd" 2>/dev/null | diff "$folder/again" -
# with a log the same words are typed and the same volumes saved, and the log is the same over both kinds of main storage: from its loading on
for lend in "" "--lend"; do
    "$mkvolumes" "$folder/utility.bin" "$folder/resident.ckd" "$folder/work.ckd"
    rm -f "$folder/storage"
    # shellcheck disable=SC2086 # a word and its file, or none
    "$s360" $lend ${lend:+"$folder/storage"} --log "$folder/log$lend" 190="$folder/resident.ckd" 191="$folder/work.ckd" 2>/dev/null | diff "$folder/typed" -
    cmp "$folder/work.ckd" "$folder/work.own"
done
diff "$folder/log" "$folder/log--lend"
sed -n 3,13p "$folder/log" | diff "$here/logged.txt" -
# a file of another size is no main storage
status=0
"$s360" --lend "$folder/utility.bin" 190="$folder/resident.ckd" 191="$folder/work.ckd" 2>/dev/null || status=$?
test "$status" -eq 2

# saved at a tick and gone on with: the two parts type what the whole does, and leave the same volume; over main storage of each kind, in turn
for parts in ":--lend" "--lend:"; do
    for tick in 0 1000 200000; do
        "$mkvolumes" "$folder/utility.bin" "$folder/resident.ckd" "$folder/work.ckd"
        rm -f "$folder/storage"
        first=${parts%:*} second=${parts#*:}
        # shellcheck disable=SC2086 # a word and its file, or none
        "$s360" $first ${first:+"$folder/storage"} --suspend "$tick" "$folder/state" 190="$folder/resident.ckd" 191="$folder/work.ckd" \
            >"$folder/part" 2>"$folder/saved"
        grep -q "state is saved" "$folder/saved"
        # shellcheck disable=SC2086
        "$s360" --resume "$folder/state" $second ${second:+"$folder/storage"} >>"$folder/part" 2>/dev/null
        diff "$folder/typed" "$folder/part"
        cmp "$folder/work.ckd" "$folder/work.own"
    done
done

# no file but the two volumes is left beside them
test -z "$(find "$folder" -name '*.ckd.*')"

# refuses STATUS WHY WORDS..: the emulator ends with this status, and says why.
refuses() {
    status=0
    wanted=$1 why=$2
    shift 2
    "$s360" "$@" 2>"$folder/why" || status=$?
    if [ "$status" -ne "$wanted" ] || ! grep -q "$why" "$folder/why"; then
        echo "check.sh: s360 $*: status $status, $(cat "$folder/why")" >&2
        exit 1
    fi
}

# a volume that is none, one that is not there, a folder; one from which nothing is loaded; and words that are none
refuses 2 'utility.bin: refused with -32: not a CKD_P370 image' 190="$folder/utility.bin" 191="$folder/work.ckd"
refuses 2 'none.ckd: No such file or directory' 190="$folder/none.ckd"
refuses 2 'Is a directory' 190="$folder"
refuses 2 'no program was loaded' 190="$folder/work.ckd"
refuses 2 '^usage: s360'
refuses 2 '^usage: s360' --lend "$folder/storage"
refuses 2 '^usage: s360' --again
refuses 2 'none/log: No such file or directory' --log "$folder/none/log" 190="$folder/resident.ckd"
refuses 2 '^usage: s360' --again soon 190="$folder/resident.ckd"
refuses 2 '^usage: s360' PACK01="$folder/work.ckd"
# words for a saved machine that do not go together; a tick behind the end; and a file that can't be written
refuses 2 '^usage: s360' --suspend 1000 190="$folder/resident.ckd"
refuses 2 '^usage: s360' --suspend 1000 "$folder/state" --again 1000 190="$folder/resident.ckd"
refuses 2 '^usage: s360' --resume "$folder/state" 190="$folder/resident.ckd"
refuses 1 'state: the program has ended' --suspend 999999999 "$folder/state" 190="$folder/resident.ckd" 191="$folder/work.ckd" >"$folder/part"
refuses 1 'none/state: No such file or directory' --suspend 1000 "$folder/none/state" 190="$folder/resident.ckd" 191="$folder/work.ckd" >"$folder/part"
# files of which no machine is made, by name: not one, cut short, changed in a byte, of another version; and a volume that was changed since, or
# is gone. Main storage that it was to be lent stays as it was.
"$mkvolumes" "$folder/utility.bin" "$folder/resident.ckd" "$folder/work.ckd"
"$s360" --suspend 200000 "$folder/state" 190="$folder/resident.ckd" 191="$folder/work.ckd" >"$folder/part" 2>"$folder/saved"
# changed AT BYTES: the saved machine with other bytes at a place.
changed() {
    cp "$folder/state" "$folder/changed"
    printf '%b' "$2" | dd of="$folder/changed" bs=1 seek="$1" conv=notrunc status=none
}
cp "$folder/storage" "$folder/storage.before"
refuses 2 'utility.bin: not a saved machine' --resume "$folder/utility.bin" --lend "$folder/storage"
refuses 2 'none: No such file or directory' --resume "$folder/none" --lend "$folder/storage"
head -c 50000 "$folder/state" >"$folder/changed"
refuses 2 'changed: a saved machine that is cut short' --resume "$folder/changed" --lend "$folder/storage"
changed 5000 X
refuses 2 'changed: a saved machine that was changed' --resume "$folder/changed" --lend "$folder/storage"
changed 11 '\002'
refuses 2 'changed: a machine that was saved by another version' --resume "$folder/changed" --lend "$folder/storage"
mv "$folder/work.ckd" "$folder/work.kept"
refuses 2 'work.ckd: No such file or directory' --resume "$folder/state" --lend "$folder/storage"
cp "$folder/work.own" "$folder/work.ckd"
refuses 2 'work.ckd: not what it was as the machine was saved' --resume "$folder/state" --lend "$folder/storage"
cmp "$folder/work.ckd" "$folder/work.own"
cmp "$folder/storage" "$folder/storage.before"
mv "$folder/work.kept" "$folder/work.ckd"
# a program that waits for what never comes: a pack that is not on the shelf is asked for in vain
"$(dirname "$mkvolumes")/mkpacks" "$folder/copier.bin" "$folder/resident.ckd" "$folder/source.ckd" "$folder/first.ckd" "$folder/second.ckd"
refuses 1 'stopped at 000000' 190="$folder/resident.ckd" 191="$folder/source.ckd" 290="$folder/first.ckd" >"$folder/typed"
head -n 7 "$here/copied.txt" | diff - "$folder/typed"
