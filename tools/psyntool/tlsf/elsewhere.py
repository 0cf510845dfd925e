"""Words by which other languages of specifications say what formulas say here."""
WRITTEN = {
    **dict.fromkeys(("always", "globally", "henceforth"), "G"),
    **dict.fromkeys(("eventually", "finally", "sometime"), "F"), "next": "X", "never": "G !", "implies": "->",
    "then": "->", "iff": "<->", "if": "f -> g", "release": "f R g", "step": "", "steps": "",
}  # fmt: skip
OF_THE_PAST = frozenset("previously prev previous once historically since before after Y O H S".split())


def hint(*words: str) -> str:
    """How the first of some words that other languages have is written here, as the end of a message."""
    for word in words:
        if word in OF_THE_PAST:
            return (
                f"; no word speaks of the past, as `{word}` does elsewhere: "
                "write the formula one step earlier, with `X`"
            )
        if word in WRITTEN:
            return f"; for `{word}` write `{WRITTEN[word]}`" if WRITTEN[word] else f"; leave `{word}` out"
    return ""
