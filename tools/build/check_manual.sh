#!/bin/sh
# check_manual.sh: whether man and mandoc find nothing to warn of in the manual pages. It wants Debian's man-db and mandoc.
set -eu
cd "$(dirname "$0")/../.."
wrong=0
said_by_man=$(mktemp)
trap 'rm -f "$said_by_man"' EXIT
command -v mandoc > /dev/null || echo "skipped: what mandoc warns of in the manual pages (no mandoc here)"

# warnings PAGE: what either of them says. That mandoc does not know other pages is the machine's matter.
warnings() {
    LC_ALL=C.UTF-8 MANWIDTH=80 man --warnings -E UTF-8 -l -Tutf8 -Z "$1" > /dev/null 2> "$said_by_man" || true
    cat "$said_by_man"
    if command -v mandoc > /dev/null; then
        mandoc -T lint -W warning "$1" | grep -v 'outdated mandoc.db' || true
    fi
}

for page in docs/dasd.1 release/debian/dasd-catalogue.1; do
    said=$(warnings "$page")
    if [ -n "$said" ]; then
        echo "$page: $said"
        wrong=1
    fi
done
[ "$wrong" -eq 0 ] && echo "the manual pages give no warning"
