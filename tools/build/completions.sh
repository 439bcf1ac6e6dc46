#!/bin/sh
# completions.sh SHARE: installs what bash, zsh and fish complete of the words of `dasd` below this folder.
set -eu
# put FILE PLACE: installs a file of completions/ under another name.
put() {
    mkdir -p "$(dirname "$2")"
    install -m 644 "completions/$1" "$2"
}
put dasd.bash "$1/bash-completion/completions/dasd"
put _dasd "$1/zsh/site-functions/_dasd"
put dasd.fish "$1/fish/vendor_completions.d/dasd.fish"
