"""Completion for bash and zsh from what commands print for --help."""

import re
from collections.abc import Mapping
from dataclasses import dataclass

from manual_pages import MORE, Help, abouts_of

OPTION = re.compile(r"^ {2,6}(-{1,2}[a-zA-Z]\S*.*?)(?: {2,}(\S.*))?$")
WORD = re.compile(r"^(-{1,2}[a-zA-Z][a-z-]*)(?:[ =](.+))?$")
CHOICES = re.compile(r"^\{(.+)\}$")
# values that are the names of files
FILES = {"FILE", "STORE", "FOLDER", "PATH", "PROGRAM"}


@dataclass(frozen=True)
class Option:
    """An option: its names, what its value is called, "" where it has none, and what it does."""

    names: tuple[str, ...]
    value: str
    about: str

    @property
    def choices(self) -> list[str]:
        found = CHOICES.match(self.value)
        return found[1].split(",") if found else []

    @property
    def is_file(self) -> bool:
        return self.value in FILES


def option_of(head: str, about: str) -> Option | None:
    """The option that a line of a help tells of."""
    parts = [WORD.match(it) for it in re.split(r", (?=-)", head)]
    found = [it for it in parts if it]
    if len(found) != len(parts):
        return None
    value = next((it[2] for it in found if it[2]), "")
    return Option(tuple(it[1] for it in found), value.strip("<>"), about)


def options_of(text: str) -> list[Option]:
    """All options of a help, in their order."""
    found: list[Option] = []
    lines = text.splitlines()
    for line, after in zip(lines, [*lines[1:], ""]):
        if item := OPTION.match(line):
            more = MORE.match(after)
            option = option_of(item[1], item[2] or (more[1] if more else ""))
            found += [option] if option else []
    return found


def identifier(name: str) -> str:
    return "_" + name.replace("-", "_")


def bash_of(name: str, helps: Mapping[str, Help]) -> str:
    """The completion of a command for bash. The command's own help is that of the word ""."""
    commands = [it for it in helps if it]
    values, words = [], []
    for command, it in helps.items():
        options = options_of(it.text)
        for option in options:
            if choices := " ".join(option.choices):
                where = "|".join(f"{command}:{name}" for name in option.names)
                values.append(
                    f"        {where}) COMPREPLY=($(compgen -W '{choices}' -- \"$word\"))\n"
                    "            return ;;"
                )
        if others := [
            f"{command}:{name}" for option in options if option.value for name in option.names
        ]:
            values.append(f"        {'|'.join(others)}) return ;;")
        more = [] if command else commands
        names = [name for it in options for name in it.names]
        words.append(f'        "{command}") words="{" ".join([*more, *names])}" ;;')
    known = (
        f"            {'|'.join(commands)}) command=\"$it\"; break ;;"
        if commands
        else "            --) break ;;"
    )
    lines = [
        f"# completion of {name} for bash",
        f"{identifier(name)}() {{",
        '    local word="${COMP_WORDS[COMP_CWORD]}" before="${COMP_WORDS[COMP_CWORD - 1]}"',
        '    local command="" words="" it',
        '    for it in "${COMP_WORDS[@]:1:COMP_CWORD - 1}"; do',
        '        case "$it" in',
        known,
        "        esac",
        "    done",
        '    case "$command:$before" in',
        *values,
        "    esac",
        '    case "$command" in',
        *words,
        "    esac",
        "    # (where there is nothing here bash completes the names of files)",
        '    [[ "$word" != -* && -n "$command" ]] || COMPREPLY=($(compgen -W "$words" -- "$word"))',
        "}",
        f"complete -o default -F {identifier(name)} {name}",
    ]
    return "\n".join(lines) + "\n"


def quoted(text: str) -> str:
    """A text for a word of `_arguments`, between single quotes."""
    return re.sub(r"([\[\]:\\])", r"\\\1", text).replace("'", "'\\''")


def argument(option: Option) -> str:
    """An option as `_arguments` has it. It may be repeated: the command says where it may not."""
    action = (
        f"({' '.join(option.choices)})" if option.choices else "_files" if option.is_file else " "
    )
    value = f":{quoted(option.value)}:{action}" if option.value else ""
    return " ".join(f"'*{name}[{quoted(option.about)}]{value}'" for name in option.names)


def zsh_of(name: str, helps: Mapping[str, Help]) -> str:
    """The completion of a command for zsh."""
    abouts = abouts_of(helps[""].text, [it for it in helps if it])
    top = [argument(it) for it in options_of(helps[""].text)]
    lines = [f"#compdef {name}", f"# completion of {name} for zsh", f"{identifier(name)}() {{"]
    if not abouts:
        return (
            "\n".join(
                [
                    *lines,
                    f"    _arguments {' '.join(top)} '*:file:_files'",
                    "}",
                    f'{identifier(name)} "$@"',
                ]
            )
            + "\n"
        )
    described = " ".join(f"'{command}:{quoted(about)}'" for command, about in abouts.items())
    lines += [
        "    local context state line",
        f"    local -a commands=({described})",
        f"    _arguments -C {' '.join(top)} '1: :->command' '*:: :->rest'",
        '    case "$state" in',
        "        command) _describe command commands ;;",
        "        rest)",
        '            case "$line[1]" in',
    ]
    for command, it in helps.items():
        if command:
            options = " ".join(argument(option) for option in options_of(it.text))
            lines.append(f"                {command}) _arguments {options} '*:file:_files' ;;")
    return (
        "\n".join([*lines, "            esac ;;", "    esac", "}", f'{identifier(name)} "$@"'])
        + "\n"
    )
