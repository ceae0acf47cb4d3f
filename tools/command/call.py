"""What a person's words ask for: the reading of a call by the table of words, and what is said of words that are wrong."""
from __future__ import annotations

import os
from typing import Dict, List, NamedTuple, Optional, Tuple

from .words import COMMON, HELP, PROGRAMS, Option, Program, Reads, Takes, Word

MOST_DIGITS = 20
LAST_SEED = 2**64 - 1
LAST_TICK = 1_000_000


class WrongCall(Exception):
    """The words are no call; the message says why, and what may be meant."""


class Call(NamedTuple):
    """A call: a word, with what belongs to it."""

    program: Program
    word: Word
    options: Dict[str, str]
    numbers: Tuple[str, ...] = ()
    ticks: Optional[str] = None
    way: Tuple[str, ...] = ()  # how to run the scenario for a picture or a story: `order`, or `seed` and a number, or `run`
    files: Tuple[str, ...] = ()
    choice: str = ""

    def proved(self) -> List[str]:
        """The words for the program itself, without files and options."""
        jitter = [] if self.ticks is None else ["jitter", self.ticks]
        folder = list(self.files) if self.word.takes is Takes.FOLDER else []
        return [self.word.name, *folder, *self.numbers, *jitter]

    def waits_for_input(self) -> bool:
        """Whether it reads standard input."""
        return self.word.reads is not Reads.NOTHING and not self.files


def is_number(word: str) -> bool:
    """Whether a word is a number as the programs read one."""
    return word.isascii() and word.isdigit() and len(word) <= MOST_DIGITS and int(word) <= LAST_SEED


def options_of(word: Optional[Word]) -> Tuple[Option, ...]:
    """The options that may stand beside a word."""
    return (*(word.options if word else ()), *COMMON)


def like(name: str, names: List[str]) -> str:
    """A question after the name that is meant by a misspelled one; empty where none is near."""
    import difflib

    near = difflib.get_close_matches(name, names, n=1, cutoff=0.6)
    return f"; did you mean `{near[0]}`?" if near else ""


def named(text: str, known: Tuple[Option, ...]) -> Option:
    """The option of this name."""
    for option in known:
        if text in (option.name, option.short):
            return option
    raise WrongCall(f"no option `{text}`{like(text, [option.name for option in known])}")


def take_value(option: Option, left: List[str]) -> str:
    """The value of an option at the front of what is left, which is taken away; empty where it may be and is left out."""
    if option.choices and (not left or left[0] not in option.choices):
        return ""
    if not left:
        raise WrongCall(f"`{option.name}` takes a value, {option.value}")
    return left.pop(0)


def split_options(words: List[str], known: Tuple[Option, ...]) -> Tuple[List[str], Dict[str, str]]:
    """The words that are no options, and the options with their values. After `--` no word is an option."""
    rest: List[str] = []
    options: Dict[str, str] = {}
    left = list(words)
    while left:
        word = left.pop(0)
        if word == "--":
            return rest + left, options
        if not word.startswith("-") or word == "-":
            rest.append(word)
            continue
        if word.startswith("-j") and word[2:].isdigit():
            word, left = "-j", [word[2:], *left]
        name, equals, value = word.partition("=")
        option = named(name, known)
        if equals and not option.value:
            raise WrongCall(f"`{option.name}` takes no value")
        if option.value and not equals:
            value = take_value(option, left)
        if option.choices and value and value not in option.choices:
            raise WrongCall(f"`{option.name}` takes {', '.join(option.choices[:-1])} or {option.choices[-1]}, and not `{value}`")
        options[option.name] = value
    return rest, options


def word_of(program: Program, name: str) -> Word:
    """The word of this name, or why there is none."""
    word = program.word(name)
    if word:
        return word
    others = [other.name for other in PROGRAMS.values() if other is not program and other.word(name)]
    if others:
        raise WrongCall(f"no word `{name}` here; `{others[0]}` has it: see `./{others[0]} {name} --help`")
    if os.path.isfile(name):
        raise WrongCall(f"no word before the file `{name}`; did you mean `{program.usual} {name}`?")
    raise WrongCall(f"no word `{name}`{like(name, [word.name for word in program.words])}")


def known_options(program: Program) -> Tuple[Option, ...]:
    """Each option that one of a program's words has."""
    return tuple(dict.fromkeys(option for word in program.words for option in options_of(word)))


def take_numbers(word: Word, left: List[str], is_timed: bool) -> Tuple[str, ...]:
    """The numbers at the front of what is left, which are taken away."""
    numbers: List[str] = []
    while left and len(numbers) < len(word.numbers) and left[0].isdigit():
        if not is_number(left[0]):
            raise WrongCall(f"`{left[0]}` is no number below 2^64")
        numbers.append(left.pop(0))
    due = " and ".join(word.numbers)
    if is_timed and len(numbers) < 2:
        return tuple(numbers) or ("0",)
    if not numbers and word.usual:
        return word.usual
    if len(numbers) < len(word.numbers):
        found = f", and `{left[0]}` is none" if left and not os.path.exists(left[0]) else ""
        raise WrongCall(f"`{word.name}` takes {'the number' if len(word.numbers) == 1 else 'two numbers,'} {due}{found}")
    return tuple(numbers)


def take_ticks(word: Word, left: List[str]) -> Optional[str]:
    """The ticks after the word `jitter`, which is taken away with them."""
    if not left or left[0] != "jitter" or not word.may_jitter:
        return None
    if len(left) < 2 or not is_number(left[1]) or int(left[1]) > LAST_TICK:
        raise WrongCall(f"`jitter` takes a number of ticks, at most {LAST_TICK}")
    del left[0]
    return left.pop(0)


def take_way(word: Word, left: List[str]) -> Tuple[str, ...]:
    """How to run a scenario for a picture or a story, if that is said; it is taken away."""
    if word.takes is not Takes.WAY or not left:
        return ()
    if word.name == "explain" and is_number(left[0]):
        return ("seed", left.pop(0))
    if left[0] == "seed":
        if len(left) < 2 or not is_number(left[1]):
            raise WrongCall("`seed` takes the number N")
        del left[0]
        return ("seed", left.pop(0))
    if left[0] in ("order", "run"):
        return (left.pop(0),)
    if left[0] in ("idle", "stack", "watch"):
        raise WrongCall(f"`{word.name}` shows runs of `order`, `seed N` and `run`, and not of `{left[0]}`")
    return ()


def check_files(call: Call) -> None:
    """Refuses a number of files that the word doesn't take."""
    word, files = call.word, call.files
    if word.takes is Takes.FOLDER:
        most, least = 1, 1
    elif call.way:
        most, least = 1, 1
    elif word.takes in (Takes.RUN, Takes.WAY):
        most, least = 2, 0
    elif word.takes is Takes.NOTHING:
        most, least = 0, 0
    else:
        most, least = (1 if word.name == "shrink" else len(files)), 0
    if len(files) < least:
        after = " ".join((word.name, *call.way))
        raise WrongCall(f"`{after}` takes a {'FOLDER' if word.takes is Takes.FOLDER else 'FILE'}")
    if len(files) > most:
        raise WrongCall(f"`{word.name}` doesn't take `{files[most]}`; see `--help`")


def take_folder(word: Word, left: List[str]) -> Tuple[str, ...]:
    """The folder at the front, which is taken away."""
    return (left.pop(0),) if word.takes is Takes.FOLDER and left else ()


def parsed(program: Program, words: List[str]) -> Call:
    """The call that these words are.

    Raises WrongCall where they are none.
    """
    plain, options = split_options(words, known_options(program))
    if not plain:
        raise WrongCall("no word says what to do")
    word = word_of(program, plain[0])
    for name in options:
        if name not in (option.name for option in options_of(word)):
            raise WrongCall(f"`{word.name}` has no option `{name}`")
    left = plain[1:]
    if word.takes is Takes.ONE_OF:
        return Call(program, word, options, choice=left[0] if left else "")
    folder = take_folder(word, left)
    numbers = take_numbers(word, left, "--time" in options)
    ticks = take_ticks(word, left)
    way = take_way(word, left)
    call = Call(program, word, options, numbers, ticks, way, (*folder, *left))
    check_files(call)
    return call


def asks_for_help(words: List[str]) -> bool:
    """Whether `--help` stands anywhere before a `--`."""
    before = words[: words.index("--")] if "--" in words else words
    return any(word in (HELP.name, HELP.short) for word in before)
