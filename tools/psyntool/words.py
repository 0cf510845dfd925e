"""Parses a command line: flags may be anywhere, and an unknown word is reported with the nearest known one."""
import os

from psyntool import places
from psyntool.command import (
    ASSUME, EVERYWHERE, GUARANTEE, HELP, MOORE, OUTS, SHORT, STRICT, TLSF, VERSION, Request, has_sentences
)
from psyntool.ends import Refused
from psyntool.kinds import Kind

# Flags that say more of a specification whose sentences stand on the command line.
OF_SPECIFICATIONS = (ASSUME, GUARANTEE, OUTS, STRICT, MOORE)
# What a specification says in the place of a flag.
SEMANTICS = {MOORE: "Moore", STRICT: "Mealy,Strict"}


def nearest(word, known):
    """A hint at the known word that is most similar to an unknown one, if there is one; leading dashes are ignored."""
    import difflib

    bare = {one.strip("-"): one for one in known}
    found = difflib.get_close_matches(word.strip("-"), bare, 1)
    return f" (did you mean {bare[found[0]]}?)" if found else ""


def split(words, flags):
    """The given flags with their values, and the other words. After `--`, no word is a flag. An unknown word with a
    dash counts as a file if a file has this name.

    If a flag may have many values, or be repeated, each value is paired with its position in `words`.
    """
    given, others, at = {}, [], 0
    while at < len(words):
        word, at = words[at], at + 1
        name, equals, value = word.partition("=")
        name = SHORT.get(name, name)
        if word == "--":
            others += words[at:]
            break
        if name not in flags:
            if word.startswith("-") and word != "-" and (not others or not os.path.exists(word)):
                raise Refused(f"there is no flag {name}{nearest(name, flags)}; `{places.NAME} help` lists them")
            others.append(word)
            continue
        flag = flags[name]
        has_many = flag.many or flag.repeated
        if name in given and not has_many:
            raise Refused(f"{name} stands twice")
        if not flag.value and equals:
            raise Refused(f"{name} takes no value")
        values = [(at - 1, value)] if equals else behind(flag, words, at, flags)
        if flag.value and not values:
            raise Refused(f"{name} wants {flag.value} behind it")
        at += 0 if equals else len(values)
        given[name] = [*given.get(name, []), *values] if has_many else values[0][1] if values else True
    return given, others


def behind(flag, words, at, flags):
    """The values after a flag, with their positions: all words up to the next flag if the flag has many values, else
    one word."""
    if not flag.many:
        return [(at, words[at])][: bool(flag.value)] if at < len(words) else []
    found = []
    for place in range(at, len(words)):
        word = words[place]
        if (
            word.startswith("-")
            and word != "-"
            and (word == "--" or SHORT.get(word, word).partition("=")[0] in flags or not os.path.exists(word))
        ):
            break
        found.append((place, word))
    return found


def request_of(words, commands):
    """The request that a command line makes. Without a command the request is `help`, and with --version it is
    `version`."""
    flags = {}
    for flag in (*EVERYWHERE, *(flag for command in commands.values() for flag in command.all_flags)):
        flags.setdefault(flag.name, flag)
    given, others = split(words, flags)
    if VERSION.name in given:
        return Request(commands["version"], given, [], commands)
    if not others or HELP.name in given:
        return Request(commands["help"], given, others[:1], commands)
    command = command_of(others.pop(0), commands)
    if not command.runs_another:
        given = command.recognised(given, others)
        check_flags(command, given, commands)
        check_apart(command, given)
        check_count(command, given, others)
    return Request(command, given, others, commands)


def command_of(name, commands):
    if name not in commands:
        raise Refused(f"there is no command {name}{nearest(name, commands)}; `{places.NAME} help` lists them")
    return commands[name]


def check_flags(command, given, commands):
    known = {flag.name for flag in (*command.all_flags, *EVERYWHERE)}
    for flag in given:
        if flag not in known:
            having = [name for name, other in commands.items() if flag in {it.name for it in other.all_flags}]
            raise Refused(f"{command.name} has no flag {flag}: it is for {', '.join(having)}")


def check_apart(command, given):
    for flag in command.apart:
        for other in command.apart[flag]:
            if flag in given and other.name in given and not (has_sentences(given) and other in OF_SPECIFICATIONS):
                said = (
                    f": a specification says that itself, by SEMANTICS: {SEMANTICS[other]}"
                    if flag == TLSF.name and other in SEMANTICS
                    else ""
                )
                raise Refused(f"{command.name} {flag} can't have {other.name}{said}")


def check_count(command, given, words):
    wanted = command.wanted(given)
    most, least = len(wanted), len([word for word in wanted if not word.startswith("[")])
    if not least <= len(words) <= most:
        what = " ".join([
            command.name,
            *(
                name
                for name in given
                if any(name in by_flag for by_flag in (command.behind, command.replaced, command.instead))
            ),
        ])
        unit = "file" if all(isinstance(kind, Kind) for kind in command.reads) else "word"
        raise Refused(f"{what} reads {' '.join(wanted) or 'no file'}, and got {counted(words, unit)}")


def counted(words, unit):
    return f"{len(words)} {unit}{'' if len(words) == 1 else 's'}"
