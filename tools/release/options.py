"""The options of a program, as its `--help` tells them, and how bash, zsh and fish complete them."""
from __future__ import annotations

import re
from collections.abc import Iterable
from typing import NamedTuple

OPTION = re.compile(r"^ +(?:-\w, )?--([a-z]+)(?:[ =]<?([A-Z]+)>?)?(?: .*)?$")
FILES = {"FILE", "PATH", "SCRIPT", "NAME"}


class Option(NamedTuple):
    """A long option, and the word for its argument, which is empty where it takes none."""

    name: str
    argument: str

    @property
    def takes_file(self) -> bool:
        return self.argument in FILES


def options_of(told: str) -> list[Option]:
    """The options that a text of `--help` tells, each once."""
    found = (OPTION.match(line) for line in told.splitlines())
    return list(dict.fromkeys(Option(it[1], it[2] or "") for it in found if it))


def bash(name: str, options: Iterable[Option]) -> str:
    words = " ".join(f"--{it.name}" for it in options)
    return f'complete -o default -o bashdefault -W "{words}" {name}\n'


def zsh(name: str, options: Iterable[Option]) -> str:
    kinds = ("" if not it.argument else f":{it.argument}:{'_files' if it.takes_file else ''}" for it in options)
    rows = [f"  '--{it.name}{kind and '='}{kind}' \\\n" for it, kind in zip(options, kinds)]
    return f"#compdef {name}\n_arguments \\\n{''.join(rows)}  '*:FILE:_files'\n"


def fish(name: str, options: Iterable[Option]) -> str:
    return "".join(f"complete -c {name} -l {it.name}{' -r' if it.argument else ''}\n" for it in options)


# Where a shell looks for the completions of a program, below the folder `share`, and how they are written.
SHELLS = {
    "bash-completion/completions/{}": bash,
    "zsh/vendor-completions/_{}": zsh,
    "fish/vendor_completions.d/{}.fish": fish,
}


def completions(name: str, told: str) -> dict[str, str]:
    """The files by which each shell completes the options of a program, by their places below `share`."""
    options = options_of(told)
    return {place.format(name): write(name, options) for place, write in SHELLS.items()}
