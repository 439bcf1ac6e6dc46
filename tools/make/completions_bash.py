"""What bash completes of the words of `dasd`: the text of completions/dasd.bash."""

from tools.make.help_words import FILES, FOLDERS, VOLUMES, Command, Word, kind

HEAD = """\
# bash completion for dasd. Made by tools/make/completions.py of the words of `dasd --help`.

# Puts the files, or with -d the folders, that begin with the word into COMPREPLY.
_dasd_files() {
    compopt -o filenames 2> /dev/null
    mapfile -t COMPREPLY < <(compgen "${1:--f}" -- "$word")
}

# Puts those of these words that begin with the word into COMPREPLY.
_dasd_words() {
    mapfile -t COMPREPLY < <(compgen -W "$*" -- "$word")
}

_dasd() {
    local word=${COMP_WORDS[COMP_CWORD]} before=${COMP_WORDS[COMP_CWORD - 1]} command=${COMP_WORDS[1]}
    COMPREPLY=()
    if [ "$COMP_CWORD" -eq 1 ]; then
"""
BEHIND_OPTIONS = """\
    fi
    case $command:$before in
"""
BEHIND_WORDS = """\
    esac
    case $command in
"""
TAIL = """\
    esac
}

complete -F _dasd dasd
"""
# `=` stands apart from the words beside it.
VOLUME = """\
        if [ "$word" = = ]; then word='' before='='; fi
        [ "$before" = = ] && _dasd_files
        ;;
"""


def action(it: Word) -> str:
    """How a place is completed."""
    if it.values:
        return f"_dasd_words {' '.join(it.values)}"
    return {FILES: "_dasd_files", FOLDERS: "_dasd_files -d"}.get(kind(it), "")


def option_case(command: Command) -> str:
    """What is after the options of a command that take a word."""
    lines = ""
    for option in command.options:
        if option.takes:
            does = action(option.takes)
            lines += f"    {command.name}:{option.long})\n" + (f"        {does}\n" if does else "") + "        return\n        ;;\n"
    return lines


def word_case(command: Command) -> str:
    """What else a command takes: its options where a word begins with a hyphen, and what its arguments are."""
    options = " ".join(word for option in command.options for word in (option.short, option.long) if word)
    lines = f"    {command.name})\n"
    lines += f"        if [[ $word == -* ]]; then _dasd_words {options}; return; fi\n"
    first = command.arguments[0]
    if kind(first) == VOLUMES:
        return lines + VOLUME
    does = action(first)
    if first.values:
        does = f'[ "$COMP_CWORD" -eq 2 ] && {does}'
    return lines + f"        {does}\n        ;;\n"


def write(program: Command, commands: list[Command]) -> str:
    """The whole text."""
    names = " ".join(it.name for it in commands)
    options = " ".join(word for option in program.options for word in (option.short, option.long) if word)
    text = HEAD + f"        _dasd_words {names} {options}\n        return\n" + BEHIND_OPTIONS
    text += "".join(map(option_case, commands)) + BEHIND_WORDS
    text += f"    help)\n        [ \"$COMP_CWORD\" -eq 2 ] && _dasd_words {names}\n        ;;\n"
    return text + "".join(word_case(it) for it in commands if it.options) + TAIL
