"""`games`: prints a member of a named family of parity games."""
from psyntool import console, families
from psyntool.command import EDGES, PRIORITIES, SEED
from psyntool.ends import Refused
from psyntool.words import nearest


def run(request):
    name, said = request.words
    if name not in families.FAMILIES:
        raise Refused(f"there is no family {name}{nearest(name, families.FAMILIES)}: {', '.join(families.FAMILIES)}")
    family, numbers = families.FAMILIES[name], numbers_of(request, name)
    greatest = family.greatest(numbers)
    number = int(said) if said.isdecimal() and len(said) < 10 else 0
    if not 0 < number <= greatest:
        raise Refused(
            f"games {name} N: N is a number from 1 to {greatest:,}, for a text of at most 16 MiB, "
            f"which psyn reads; not {said}"
        )
    if numbers.get("edges", 0) > number:
        raise Refused(f"games {name} {number}: a vertex has at most {number} different edges, not {numbers['edges']}")
    console.write_text(families.game_of(family.make(number, **numbers)).text())
    return 0


def numbers_of(request, name):
    """The further numbers that the flags give."""
    numbers = {}
    for flag in (SEED, EDGES, PRIORITIES):
        if request.has(flag):
            word = flag.name.removeprefix("--")
            if word not in families.FAMILIES[name].takes:
                raise Refused(
                    f"games {name} has no flag {flag.name}: "
                    f"it is for {', '.join(it for it, family in families.FAMILIES.items() if word in family.takes)}"
                )
            numbers[word] = request.number(flag)
            if not numbers[word] and flag is not SEED:
                raise Refused(f"{flag.shown}: at least 1 is wanted")
    return numbers
