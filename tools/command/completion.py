"""Completion for bash and zsh, made from the table of words."""
from __future__ import annotations

from typing import Iterator, List, Tuple

from .call import WrongCall, known_options, options_of
from .words import CHOICES, PROGRAMS, Option, Program, Reads, Takes, Word

BASH = """# Completion of {names} for bash: source it, or put it into /usr/share/bash-completion/completions as kmdfsim.
_kmdfsim() {{
    local current=${{COMP_WORDS[COMP_CWORD]}} before=${{COMP_WORDS[COMP_CWORD - 1]}} word= place offered options files=
    COMPREPLY=()
    case $before in
    {valued}) mapfile -t COMPREPLY < <(compgen -f -- "$current"); return ;;
    esac
    for ((place = 1; place < COMP_CWORD; place++)); do
        case ${{COMP_WORDS[place]}} in -*) ;; *) word=${{COMP_WORDS[place]}}; break ;; esac
    done
    case ${{COMP_WORDS[0]##*/}}:$word in
{cases}
    esac
    case $current in -*) offered=$options files= ;; esac
    mapfile -t COMPREPLY < <(compgen -W "$offered" -- "$current")
    case $current:$files in
    *:scenario) mapfile -t -O "${{#COMPREPLY[@]}}" COMPREPLY < <(compgen -f -X '!*.kmdf' -- "$current"; compgen -d -- "$current") ;;
    *:folder) mapfile -t -O "${{#COMPREPLY[@]}}" COMPREPLY < <(compgen -d -- "$current") ;;
    *:any) mapfile -t -O "${{#COMPREPLY[@]}}" COMPREPLY < <(compgen -f -- "$current") ;;
    esac
    compopt -o filenames 2> /dev/null
}}
complete -F _kmdfsim {names}
"""

ZSH = """#compdef {names}
# Completion of {names} for zsh: source it, or put it into a folder of $fpath as _kmdfsim.
_kmdfsim() {{
    local word= place files=
    local -a offered options
    case $words[CURRENT-1] in
    {valued}) _files; return ;;
    esac
    for ((place = 2; place < CURRENT; place++)); do
        case $words[place] in -*) ;; *) word=$words[place]; break ;; esac
    done
    case ${{words[1]:t}}:$word in
{cases}
    esac
    if [[ $PREFIX == -* ]]; then _describe -o option options; return; fi
    (( $#offered )) && _describe word offered
    case $files in
    scenario) _files -g '*.kmdf(-.)' ;;
    folder) _files -/ ;;
    any) _files ;;
    esac
}}
if [[ $funcstack[1] == _kmdfsim ]]; then _kmdfsim "$@"; else compdef _kmdfsim {names}; fi
"""


def files_of(word: Word) -> str:
    """Which files may stand after a word."""
    if word.takes is Takes.FOLDER:
        return "folder"
    if word.takes in (Takes.NOTHING, Takes.ONE_OF):
        return ""
    return "scenario" if word.reads is Reads.SCENARIO else "any"


def choices_of(program: Program, word: Word) -> Tuple[str, ...]:
    """The words that may stand after a word."""
    after = tuple(other.name for other in program.words) if word.name == "help" else word.choices
    return (*after, "jitter") if word.may_jitter else after


def places() -> Iterator[Tuple[str, List[Tuple[str, str]], Tuple[Option, ...], str]]:
    """For each place in a line: its pattern, the words that may stand there with their meanings, the options, and the files."""
    for program in PROGRAMS.values():
        offered = [(word.name, word.meaning) for word in program.words]
        yield f"{program.name}:", offered, options_of(None), ""
        for word in program.words:
            after = [(name, CHOICES.get(name) or f"help on `{name}`") for name in choices_of(program, word)]
            yield f"{program.name}:{word.name}", after, options_of(word), files_of(word)


def valued() -> str:
    """The options whose value is a file, as a pattern of a shell."""
    names = [option.name for program in PROGRAMS.values() for option in known_options(program) if option.value == "OUT"]
    return " | ".join(dict.fromkeys(names))


def bash() -> str:
    """Completion for bash."""
    cases = []
    for pattern, offered, options, files in places():
        names, listed = " ".join(name for name, _ in offered), " ".join(option.name for option in options)
        cases.append(f'    {pattern}) offered="{names}" options="{listed}" files={files} ;;')
    return BASH.format(names=" ".join(PROGRAMS), valued=valued(), cases="\n".join(cases))


def described(name: str, meaning: str) -> str:
    """A word with its meaning, as zsh takes one."""
    text = f"{name}:{meaning}".replace("'", "'\\''")
    return f"'{text}'"


def zsh() -> str:
    """Completion for zsh."""
    cases = []
    for pattern, offered, options, files in places():
        words = " ".join(described(name, meaning) for name, meaning in offered)
        listed = " ".join(described(option.name, option.meaning) for option in options)
        cases.append(f"    {pattern}) offered=({words}) options=({listed}) files={files} ;;")
    return ZSH.format(names=" ".join(PROGRAMS), valued=valued(), cases="\n".join(cases))


SHELLS = {"bash": bash, "zsh": zsh}


def of_shell(name: str) -> str:
    """Completion for the shell of this name."""
    if name not in SHELLS:
        raise WrongCall(f"`completion` takes the name of a shell, {' or '.join(SHELLS)}")
    return SHELLS[name]()
