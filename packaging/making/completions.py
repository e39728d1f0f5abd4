"""Makes the completions of the program for bash and zsh from its help. This is Python and no part of what is proved.

Whatever stands for a file in help is completed by files: an argument, and an option's value that is called FILE.
"""
from making.help import Entry, Help, Words

FILES = "FILE"


def bash(words: Words) -> str:
    """The completions for bash."""
    commands = [*words.commands, "help"]
    options = {name: named(told) for name, told in words.commands.items()}
    cases = "\n".join(f"        {name}) options='{' '.join(options[name])}' ;;" for name in words.commands)
    return f"""# Completions of {words.name} for bash, made from its help.
_{words.name}() {{
    local word=$2 before=$3 command= options= i
    for ((i = 1; i < COMP_CWORD; i++)); do
        case ${{COMP_WORDS[i]}} in {'|'.join(commands)}) command=${{COMP_WORDS[i]}} && break ;; esac
    done
    COMPREPLY=()
    case $command in
        '') mapfile -t COMPREPLY < <(compgen -W '{' '.join([*commands, *named(words.top)])}' -- "$word") && return ;;
        help) mapfile -t COMPREPLY < <(compgen -W '{' '.join(words.commands)}' -- "$word") && return ;;
{cases}
    esac
    case $before in {'|'.join(valued(words)) or '--'}) return ;; esac
    if [[ $word == -* ]]; then
        mapfile -t COMPREPLY < <(compgen -W "$options" -- "$word")
    else
        mapfile -t COMPREPLY < <(compgen -f -- "$word")
    fi
}}
complete -o filenames -F _{words.name} {words.name}
"""


def named(told: Help) -> list[str]:
    """The names of all options."""
    return [name for it in told.options for name in it.names]


def valued(words: Words) -> list[str]:
    """The options whose value is no file, and so isn't completed."""
    every = [it for told in words.commands.values() for it in told.options]
    return sorted({name for it in every if it.value not in (None, FILES) for name in it.names})


def quoted(text: str) -> str:
    """A text between single quotes."""
    return "'" + text.replace("'", "'\\''") + "'"


def plain(text: str) -> str:
    """A text in which zsh reads no mark."""
    for mark in ("\\", "[", "]", ":"):
        text = text.replace(mark, "\\" + mark)
    return text


def option(it: Entry) -> list[str]:
    """What zsh's _arguments takes for an option, for each of its names."""
    others = f"({' '.join(it.names)})" if len(it.names) > 1 else ""
    value = f":{it.value}:{'_files' if it.value == FILES else ' '}" if it.value else ""
    return [quoted(f"{others}{name}[{plain(it.said)}]{value}") for name in it.names]


def command(name: str, told: Help) -> str:
    """How zsh completes what follows a command."""
    taken = [it for that in told.options for it in option(that)]
    taken += [quoted(f"{place}:{':' * it.is_optional}{it.value or it.word}:_files") for place, it in enumerate(told.arguments, 1)]
    lines = " \\\n                ".join(taken)
    return f"            {name})\n                _arguments \\\n                {lines}\n                ;;\n"


def zsh(words: Words) -> str:
    """The completions for zsh."""
    listed = " ".join(quoted(f"{it.word}:{plain(it.said)}") for it in words.top.commands)
    top = " ".join(it for that in words.top.options for it in option(that))
    parts = "".join(command(name, told) for name, told in words.commands.items())
    return f"""#compdef {words.name}
# Completions of {words.name} for zsh, made from its help.
_{words.name}() {{
    local context state state_descr line
    local -a commands=({listed})
    typeset -A opt_args
    _arguments -C {top} '1: :->command' '*:: :->words'
    case $state in
    command)
        _describe command commands
        ;;
    words)
        case $words[1] in
{parts}            help)
                _describe command commands
                ;;
        esac
        ;;
    esac
}}
_{words.name} "$@"
"""
