"""What fish completes of the words of `dasd`: the text of completions/dasd.fish."""

from tools.make.help_words import FILES, FOLDERS, VOLUMES, Command, Option, Word, kind

HEAD = """\
# fish completion for dasd. Made by tools/make/completions.py of the words of `dasd --help`.
complete -c dasd -f
"""


def quoted(text: str) -> str:
    """A text in single quotes."""
    return "'" + text.replace("\\", "\\\\").replace("'", "\\'") + "'"


def taken(it: Word) -> str:
    """How what is after an option is completed."""
    if it.values:
        return f" -x -a {quoted(' '.join(it.values))}"
    return {FILES: " -r -F", FOLDERS: " -x -a '(__fish_complete_directories)'"}.get(kind(it), " -x")


def option_line(option: Option, condition: str) -> str:
    """An option."""
    short = f" -s {option.short[1:]}" if option.short else ""
    takes = taken(option.takes) if option.takes else ""
    return f"complete -c dasd -n {quoted(condition)}{short} -l {option.long[2:]}{takes} -d {quoted(option.words)}\n"


def command_lines(command: Command) -> str:
    """What a command takes."""
    condition = f"__fish_seen_subcommand_from {command.name}"
    lines = "".join(option_line(it, condition) for it in command.options)
    first = command.arguments[0]
    if first.values:
        once = f"{condition}; and not __fish_seen_subcommand_from {' '.join(first.values)}"
        return lines + f"complete -c dasd -n {quoted(once)} -a {quoted(' '.join(first.values))} -d {quoted(first.words)}\n"
    return lines + (f"complete -c dasd -n {quoted(condition)} -F\n" if kind(first) in (FILES, VOLUMES) else "")


def write(program: Command, commands: list[Command]) -> str:
    """The whole text."""
    text = HEAD + "".join(option_line(it, "__fish_use_subcommand") for it in program.options)
    for it in commands:
        text += f"complete -c dasd -n __fish_use_subcommand -a {it.name} -d {quoted(it.words)}\n"
    names = " ".join(it.name for it in commands)
    text += f"complete -c dasd -n '__fish_seen_subcommand_from help' -a {quoted(names)}\n"
    return text + "".join(command_lines(it) for it in commands if it.options)
