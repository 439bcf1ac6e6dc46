"""What zsh completes of the words of `dasd`: the text of completions/_dasd."""

from tools.make.help_words import FILES, FOLDERS, VOLUMES, Command, Option, Word, kind

HEAD = """\
#compdef dasd
# zsh completion for dasd. Made by tools/make/completions.py of the words of `dasd --help`.

# A drive: the file behind its address.
_dasd_volumes() {
    if compset -P '*='; then _files; else _message 'UU=PATH, or UU=new:M:N'; fi
}

_dasd() {
    local context state state_descr line
    typeset -A opt_args
    local -a commands=(
"""
TAIL = """\
        esac
        ;;
    esac
}

_dasd "$@"
"""


def quoted(text: str) -> str:
    """A text in single quotes."""
    return "'" + text.replace("'", "'\\''") + "'"


def escaped(text: str) -> str:
    """A text in a specification of _arguments, in which these characters mean something."""
    for it in ("\\", ":", "[", "]"):
        text = text.replace(it, "\\" + it)
    return text


def action(it: Word) -> str:
    """How a place is completed."""
    if it.values:
        return f"({' '.join(it.values)})"
    return {FILES: "_files", FOLDERS: "_files -/", VOLUMES: "_dasd_volumes"}.get(kind(it), " ")


def option_line(option: Option) -> str:
    """The specification of an option."""
    takes = f":{escaped(option.takes.name)}:{action(option.takes)}" if option.takes else ""
    if option.short:
        return f"'({option.short} {option.long})'{{{option.short},{option.long}}}" + quoted(f"[{escaped(option.words)}]{takes}")
    return quoted(f"{option.long}[{escaped(option.words)}]{takes}")


def argument_line(number: int, it: Word) -> str:
    """The specification of an argument: the last of several may come again."""
    place = "*" if ".." in it.name else str(number)
    return quoted(f"{place}:{escaped(it.name)}:{action(it)}")


def command_case(command: Command) -> str:
    """What a command takes."""
    lines = [option_line(it) for it in command.options]
    lines += [argument_line(number, it) for number, it in enumerate(command.arguments, 1)]
    return f"        {command.name})\n            _arguments " + " \\\n                ".join(lines) + "\n            ;;\n"


def write(program: Command, commands: list[Command]) -> str:
    """The whole text."""
    text = HEAD + "".join(f"        {quoted(escaped(it.name) + ':' + it.words)}\n" for it in commands) + "    )\n"
    lines = [option_line(it) for it in program.options] + ["'1: :->command'", "'*:: :->words'"]
    text += "    _arguments -C " + " \\\n        ".join(lines) + "\n"
    text += "    case $state in\n    command) _describe -t commands 'command' commands ;;\n    words)\n        case $words[1] in\n"
    text += "        help) _describe -t commands 'command' commands ;;\n"
    return text + "".join(command_case(it) for it in commands if it.options) + TAIL
