"""A person's call: reads its words, and has it done."""
from __future__ import annotations

import io
import sys
from typing import List

from . import files, refusals, running
from .call import Call, WrongCall, asks_for_help, parsed
from .words import PROGRAMS, Takes


def help_of(name: str, words: List[str]) -> int:
    """Shows the help of a program, or of the word that is named."""
    from . import help_pages

    program = PROGRAMS[name]
    named = next((program.word(word) for word in words if program.word(word)), None)
    print(help_pages.of_word(program, named) if named and named.name != "help" else help_pages.of_program(program))
    return 0


def done(call: Call) -> int:
    """Does a call, and answers its status."""
    name, word = call.program.name, call.word
    if word.name == "help":
        return help_of(name, [call.choice])
    if word.name == "prove":
        running.become([running.launcher(name), "prove"])
    if word.name == "completion":
        from . import completion

        print(completion.of_shell(call.choice), end="")
        return 0
    program = running.program_of(name)
    if word.name == "seeds":
        from . import hunt

        return hunt.seeds(call, program)
    if word.name == "test":
        from . import suite

        return suite.do(call, program)
    if word.takes is Takes.WAY and call.files:
        from . import shown

        return shown.do(call, program)
    return files.do(call, program)


def served(name: str, words: List[str]) -> int:
    """Serves the words after the program's name, and answers the status to end with."""
    if asks_for_help(words):
        return help_of(name, words)
    if "--version" in words:
        running.become([running.launcher(name), "--version"])
    return done(parsed(PROGRAMS[name], words))


def main(words: List[str]) -> int:
    """Serves the words that the launcher gives, and answers the status to end with."""
    if words[0] == "--refused":
        refusals.tell_handed_on(words[2], words[3:], int(words[1]))
        return 0
    typed, name = words[0], running.shown_name(words[0])
    running.heed_signals()
    if isinstance(sys.stdout, io.TextIOWrapper):
        sys.stdout.reconfigure(errors="surrogateescape")  # (the names of files may be any bytes)
    try:
        status = served(name, words[1:])
        sys.stdout.flush()
        return status
    except WrongCall as why:
        refusals.tell_wrong(typed, why)
        return refusals.WRONG_WORDS
    except running.Stopped as stopped:
        return stopped.status
    except OSError as error:
        return files.tell_unread(name, error) if error.filename else files.tell_unwritten(name, error)
