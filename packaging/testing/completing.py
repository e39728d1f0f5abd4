"""Tests the completions of bash and zsh. This is Python and no part of what is proved."""
import shlex
from pathlib import Path

from making.library import Unmade, run
from testing.checks import compare, need

COMPLETE = """
source {file}
COMP_WORDS=({words}) COMP_CWORD={place}
_clickpull clickpull {word} {before}
printf '%s\\n' "${{COMPREPLY[@]}}"
"""

ZSH = """
autoload -Uz compinit && compinit -D -u
zmodload zsh/zpty
zpty shell zsh -f -i
zpty -w shell "PS1= RPS1=; fpath=({folder} \\$fpath); autoload -Uz compinit && compinit -D -u; bindkey '^I' complete-word; zstyle ':completion:*' menu no; clear"
sleep 1
zpty -w -n shell $'clickpull {words}\\t\\t'
sleep 1
zpty -r -t shell answer; while zpty -r -t shell more; do answer+=$more; done
print -r -- "$answer"
"""


def completed(root: Path, *words: str) -> list[str]:
    """What bash offers for the last of these words."""
    file = root / "usr/share/bash-completion/completions/clickpull"
    quoted = [shlex.quote(it) for it in words]
    script = COMPLETE.format(file=file, words=" ".join(quoted), place=len(words) - 1, word=quoted[-1], before=quoted[-2])
    return sorted(run(["bash", "-c", script]).split())


def bash_completes(root: Path) -> None:
    """Bash completes commands, options and files."""
    need("bash")
    compare("commands", completed(root, "clickpull", ""), sorted(["--explain", "--help", "--version", "-V", "-h", "check", "help", "lint", "live", "run", "script"]))
    compare("a command", completed(root, "clickpull", "sc"), ["script"])
    compare("options", completed(root, "clickpull", "run", "--"), ["--explain", "--help", "--limit", "--step", "--visits"])
    compare("options of a run through inlets", completed(root, "clickpull", "live", "--"), ["--explain", "--help", "--limit", "--record", "--step", "--visits"])
    compare("what help tells of", completed(root, "clickpull", "help", ""), ["check", "lint", "live", "run", "script"])
    compare("a number", completed(root, "clickpull", "run", "--step", ""), [])
    file = str(root / "usr/include/clickpull.hp")
    compare("a tree", completed(root, "clickpull", "check", file), [file + "p"])
    compare("a trace", completed(root, "clickpull", "lint", "uplink.click", file), [file + "p"])
    compare("a file of visits", completed(root, "clickpull", "script", "--visits", file), [file + "p"])


def zsh_completes(root: Path) -> None:
    """Zsh completes a command and an option, in a terminal."""
    need("zsh")
    folder = root / "usr/share/zsh/vendor-completions"
    run(["zsh", "-n", folder / "_clickpull"])
    for words, wanted in (("sc", "script"), ("run --li", "--limit"), ("help ch", "check")):
        if wanted not in run(["zsh", "-f", "-c", ZSH.format(folder=folder, words=words)]):
            raise Unmade(f"zsh doesn't complete {words}")
