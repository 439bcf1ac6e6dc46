# bash completion for dasd. Made by tools/make/completions.py of the words of `dasd --help`.

# Puts the files, or with -d the folders, that begin with the word into COMPREPLY.
_dasd_files() {
    compopt -o filenames 2> /dev/null
    mapfile -t COMPREPLY < <(compgen "${1:--f}" -- "$word")
}

# Puts those of these words that begin with the word into COMPREPLY.
_dasd_words() {
    mapfile -t COMPREPLY < <(compgen -W "$*" -- "$word")
}

_dasd() {
    local word=${COMP_WORDS[COMP_CWORD]} before=${COMP_WORDS[COMP_CWORD - 1]} command=${COMP_WORDS[1]}
    COMPREPLY=()
    if [ "$COMP_CWORD" -eq 1 ]; then
        _dasd_words format list check dump compare hash vtoc extract load rename delete relabel recover ls cat cp mv rm explain assemble disassemble run help --verbose -h --help -V --version
        return
    fi
    case $command:$before in
    format:--model)
        _dasd_words 2311 2314
        return
        ;;
    format:--cylinders)
        return
        ;;
    format:--label)
        return
        ;;
    format:--owner)
        return
        ;;
    format:--vtoc)
        return
        ;;
    format:--vtoc-at)
        return
        ;;
    list:--cylinder)
        return
        ;;
    extract:--to)
        _dasd_files
        return
        ;;
    extract:--all)
        _dasd_files -d
        return
        ;;
    extract:--record-format)
        return
        ;;
    extract:--record-length)
        return
        ;;
    extract:--block-length)
        return
        ;;
    load:--from)
        _dasd_files
        return
        ;;
    load:--all)
        _dasd_files -d
        return
        ;;
    load:--member)
        return
        ;;
    load:--record-format)
        return
        ;;
    load:--record-length)
        return
        ;;
    load:--block-length)
        return
        ;;
    load:--key-length)
        return
        ;;
    relabel:--label)
        return
        ;;
    relabel:--owner)
        return
        ;;
    cat:--record-format)
        return
        ;;
    cat:--record-length)
        return
        ;;
    cat:--block-length)
        return
        ;;
    cp:--record-format)
        return
        ;;
    cp:--record-length)
        return
        ;;
    cp:--block-length)
        return
        ;;
    cp:--key-length)
        return
        ;;
    run:--storage)
        return
        ;;
    run:--channel)
        return
        ;;
    run:--deck)
        _dasd_files
        return
        ;;
    run:--trace-to)
        _dasd_files
        return
        ;;
    run:--trace-only)
        _dasd_words failing
        return
        ;;
    run:--trace-last)
        return
        ;;
    esac
    case $command in
    help)
        [ "$COMP_CWORD" -eq 2 ] && _dasd_words format list check dump compare hash vtoc extract load rename delete relabel recover ls cat cp mv rm explain assemble disassemble run help
        ;;
    format)
        if [[ $word == -* ]]; then _dasd_words --model --cylinders --label --owner --vtoc --vtoc-at --no-replace --verbose -h --help; return; fi
        _dasd_files
        ;;
    list)
        if [[ $word == -* ]]; then _dasd_words --cylinder --used --as-far-as-it-goes --json --verbose -h --help; return; fi
        _dasd_files
        ;;
    check)
        if [[ $word == -* ]]; then _dasd_words --strict --warnings --contents --as-far-as-it-goes --json --verbose -h --help; return; fi
        _dasd_files
        ;;
    dump)
        if [[ $word == -* ]]; then _dasd_words --as-far-as-it-goes --json --verbose -h --help; return; fi
        _dasd_files
        ;;
    compare)
        if [[ $word == -* ]]; then _dasd_words --tracks --whole --as-far-as-it-goes --json --verbose -h --help; return; fi
        _dasd_files
        ;;
    hash)
        if [[ $word == -* ]]; then _dasd_words --sets --members --as-far-as-it-goes --json --verbose -h --help; return; fi
        _dasd_files
        ;;
    vtoc)
        if [[ $word == -* ]]; then _dasd_words --members --long --as-far-as-it-goes --json --verbose -h --help; return; fi
        _dasd_files
        ;;
    extract)
        if [[ $word == -* ]]; then _dasd_words --to --all --text --with-lengths --record-format --record-length --block-length --raw --list --as-far-as-it-goes --json --verbose -h --help; return; fi
        _dasd_files
        ;;
    load)
        if [[ $word == -* ]]; then _dasd_words --from --all --member --text --with-lengths --record-format --record-length --block-length --key-length --replace --verbose -h --help; return; fi
        _dasd_files
        ;;
    rename)
        if [[ $word == -* ]]; then _dasd_words --replace --verbose -h --help; return; fi
        _dasd_files
        ;;
    delete)
        if [[ $word == -* ]]; then _dasd_words --replace --verbose -h --help; return; fi
        _dasd_files
        ;;
    relabel)
        if [[ $word == -* ]]; then _dasd_words --label --owner --replace --verbose -h --help; return; fi
        _dasd_files
        ;;
    recover)
        if [[ $word == -* ]]; then _dasd_words --drop --verbose -h --help; return; fi
        _dasd_files
        ;;
    ls)
        if [[ $word == -* ]]; then _dasd_words --members --long --as-far-as-it-goes --json --verbose -h --help; return; fi
        _dasd_files
        ;;
    cat)
        if [[ $word == -* ]]; then _dasd_words --record-format --record-length --block-length --as-far-as-it-goes --verbose -h --help; return; fi
        _dasd_files
        ;;
    cp)
        if [[ $word == -* ]]; then _dasd_words --text --with-lengths --raw --record-format --record-length --block-length --key-length --as-far-as-it-goes --replace --verbose -h --help; return; fi
        _dasd_files
        ;;
    mv)
        if [[ $word == -* ]]; then _dasd_words --replace --verbose -h --help; return; fi
        _dasd_files
        ;;
    rm)
        if [[ $word == -* ]]; then _dasd_words --replace --verbose -h --help; return; fi
        _dasd_files
        ;;
    explain)
        if [[ $word == -* ]]; then _dasd_words --verbose -h --help; return; fi
        [ "$COMP_CWORD" -eq 2 ] && _dasd_words csw sense ccw line
        ;;
    assemble)
        if [[ $word == -* ]]; then _dasd_words --verbose -h --help; return; fi
        _dasd_files
        ;;
    disassemble)
        if [[ $word == -* ]]; then _dasd_words --verbose -h --help; return; fi
        _dasd_files
        ;;
    run)
        if [[ $word == -* ]]; then _dasd_words --storage --channel --deck --no-save --replace --trace --trace-to --trace-only --trace-last --trace-answers --trace-whole --verbose -h --help; return; fi
        if [ "$word" = = ]; then word='' before='='; fi
        [ "$before" = = ] && _dasd_files
        ;;
    esac
}

complete -F _dasd dasd
