#!/bin/sh
# origin.sh: whether compiled/ agrees with itself and with this commit: each text has its sum in release/compiled.sha256, and so has each module that
# compiled/ORIGIN names; and the tree of crates/ that ORIGIN names is the commit's. Where there is no git, or this is no clone, the tree can't be
# compared, and the sums alone count.
set -eu
cd "$(dirname "$0")/../.."
sums=release/compiled.sha256 status=0

# wrong TEXT: reports it.
wrong() {
    echo "$1" >&2
    status=1
}

for text in compiled/*.s compiled/*.wasm; do
    [ ! -f "$text" ] || grep -q "^$(sha256sum < "$text" | cut -d ' ' -f 1)  ${text#compiled/}\$" "$sums" ||
        wrong "$text is not that of this commit: $sums has another SHA-256"
done
[ "$(sed -n '/\.bc$/p' compiled/ORIGIN)" = "$(sed -n '/\.bc$/p' "$sums")" ] || wrong "compiled/ORIGIN has other modules than $sums"
kept=$(sed -n 's/^Crates *//p' compiled/ORIGIN)
if ! here=$(git rev-parse --verify --quiet HEAD:crates 2> /dev/null) || [ ! -e .git ]; then
    echo "no git, or no clone: compiled/ORIGIN has the tree $kept of crates/"
elif [ "$kept" != "$here" ]; then
    wrong "compiled/ is that of another commit: it is compiled of the tree $kept of crates/, and this commit has $here"
fi
exit "$status"
