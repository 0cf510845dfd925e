"""Names of propositions that may be slips of the keyboard: only one part has the name, and another part has nearly the
same name."""

# In shorter names, one letter more or less, or in another place, makes another name; and one other letter in names
# shorter than the second number.
SHORTEST, REPLACED = 4, 6


def told(parts, meant):
    """A line for each name that one part alone has and that is nearly a name of another part. The names in `meant` are
    no slips."""
    having = {}
    for it in parts:
        for name in it.names:
            having.setdefault(name, []).append(it)
    lines = []
    for name, [it, *others] in having.items():
        near = next((one for one in having if is_slip(name, one) and one not in it.names), None)
        if near is not None and not others and name not in meant:
            lines.append(
                f"only {it.title} has the proposition {name}; did you mean {near}, of {having[near][0].title}?"
            )
    return lines


def is_slip(name, other):
    """Whether one name becomes the other by one letter more or less, by one other letter that is not the last, by two
    letters exchanged, or by capitals and underscores. Names that differ in a digit are different names."""
    if min(len(name), len(other)) < SHORTEST or name == other:
        return False
    one, two = sorted((plain(name), plain(other)), key=len)
    if one == two:
        return True
    if len(one) < len(two):
        return any(one == two[:place] + two[place + 1 :] and sign.isalpha() for place, sign in enumerate(two))
    places = [place for place, (sign, there) in enumerate(zip(one, two)) if sign != there]
    if not all(one[place].isalpha() and two[place].isalpha() for place in places):
        return False
    first = places[0]
    is_replaced = places == [first] and first < len(one) - 1 and len(one) >= REPLACED
    return is_replaced or places == [first, first + 1] and one[first : first + 2] == two[first : first + 2][::-1]


def plain(name):
    return name.lower().replace("_", "").replace("-", "")
