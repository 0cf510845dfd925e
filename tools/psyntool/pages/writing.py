"""Writes a page: the template, filled with its style, its scripts and the data of the specification, the game, the
certificate and the circuit. Texts from the specification are escaped in the HTML."""
import base64
import hashlib
import html
import json
import re

from psyntool import places, releases, remarks
from psyntool.ends import Refused
from psyntool.pages import contents, drawing
from psyntool.pages.clauses import CLAUSES, OF_ANOTHER, SENTENCES

MOST_BYTES = 33_554_432
# A small picture that is wider than so many points has a row of its own.
WIDTH, WIDE = 450, ' class="whole"'
SIDES = {"assume": "assumed", "guarantee": "guaranteed"}
WORDS = ("REALIZABLE", "UNREALIZABLE")
VERDICTS = (
    "there is a controller, and this circuit is one.",
    "there is no controller, and this circuit is an environment that defeats each one of finite memory.",
)


def page(title, board, texts):
    """The HTML page for a play against a circuit. The page has a link that saves each of the given texts; a text is
    given by a title, a file name and bytes."""
    if sum(len(data) for _, _, data in texts) * 4 / 3 > MOST_BYTES:
        refuse_size()
    pictures = {"automaton": drawing.of_automaton(board), "game": drawing.of_game(board)}
    known = {**contents.of(board), "pictures": {name: picture.graph for name, picture in pictures.items()}}
    script = f"{asset('rules.js')}{asset('page.js')}"
    whole = filled(
        asset("template.html"),
        title=escaped(title),
        file=escaped(title),
        word=WORDS[board.winner],
        verdict=VERDICTS[board.winner],
        words=words_of(board),
        order=order_of(board),
        me=board.me,
        other=board.other,
        specification=specification_of(board),
        proved=proved_of(board),
        clauses="\n".join(clause_entry(name) for name in CLAUSES if f"{{{name}}}" in "".join(sentences_of(board))),
        automaton=pictures["automaton"].svg,
        game=pictures["game"].svg,
        parts=parts_of(board),
        texts=", ".join(link_of(*text) for text in texts),
        css=asset("page.css"),
        board=json.dumps(known, separators=(",", ":"), ensure_ascii=False).replace("<", "\\u003c"),
        script=script,
        hash="sha256-" + base64.b64encode(hashlib.sha256(script.encode()).digest()).decode(),
    )
    if len(whole) > MOST_BYTES:
        refuse_size()
    return as_utf8(whole)


def refuse_size():
    raise Refused(
        f"the page would have more than {MOST_BYTES:,} bytes, which no browser shows well: `play` shows the same"
    )


def as_utf8(text):
    """The text with U+FFFD for each byte that is not UTF-8: names may contain such bytes, but a page may not."""
    return text.encode("utf-8", "surrogateescape").decode("utf-8", "replace")


def asset(name):
    return places.stored("tools", "psyntool", "pages", name)


def filled(template, **parts):
    """The template with each placeholder replaced by its text; placeholders inside such a text are not replaced."""
    return re.sub(r"@([A-Z]+)@", lambda found: parts[found[1].lower()], template)


def escaped(text):
    return html.escape(text, quote=True)


def order_of(board):
    """Which propositions belong to which player, and which player moves first."""
    environment, controller = (", ".join(name for _, name in these) or "nothing" for these in board.automaton.owners())
    first = board.me if board.am_first else board.other
    return (
        f"The environment says {escaped(environment)}; the controller says {escaped(controller)}. "
        f"In each step the {first} moves first."
    )


def words_of(board):
    """What an environment does, if it is small enough for words, as a paragraph."""
    said = "\n".join(remarks.words_of(board.circuit)) if board.winner else ""
    return said and f'<p class="words">{escaped(said[0].upper() + said[1:])}</p>'


def specification_of(board):
    """The sentences of the specification's parts or, without parts, the automaton's acceptance."""
    of = board.specification
    if of is None:
        return f"<p>The automaton's acceptance: <code>{escaped(board.automaton.acceptance)}</code>.</p>"
    rows = [
        (side, part) for side, parts in (("assumed", of.assumptions), ("guaranteed", of.guarantees)) for part in parts
    ]
    items = "\n".join(
        f"<li>{side}: {escaped(part.sentence)} <code>{escaped(part.title)}</code></li>" for side, part in rows
    )
    items += "".join(
        f"\n<li>{SIDES[side]}, but no part by itself: <code>{escaped(said)}</code></li>" for side, said in of.others
    )
    return (
        "<details open><summary>What is wanted, "
        f"in {len(rows) + len(of.others)} parts</summary>\n<ul>\n{items}\n</ul></details>"
    )


def parts_of(board):
    """The parts of a specification with their small pictures, as a section of the page; empty without parts."""
    if board.specification is None or not board.assumed and not board.guaranteed:
        return ""
    rows = [
        (side, part)
        for side, parts in (
            ("assumed", board.specification.assumptions), ("guaranteed", board.specification.guarantees)
        )
        for part in parts
    ]
    items = [
        f'<figure{is_wide(svg) * WIDE}><figcaption>{side}: {escaped(part.sentence)} '
        f'<code>{escaped(part.title)}</code><br><span></span></figcaption><div class="wide picture" tabindex="0" '
        f'role="group" aria-label="the part {escaped(part.title)}, with its present state marked">{svg}</div></figure>'
        for (side, part), svg in zip(rows, drawing.of_parts([part for _, part in rows]))
    ]
    said = "\n".join(items)
    return (
        '<section aria-labelledby="parts-title">\n<h2 id="parts-title">The parts</h2>\n<div '
        f'id="parts">\n{said}\n</div>\n</section>'
    )


def is_wide(svg):
    """Whether a picture has a row of its own."""
    width = re.search(r'width="([0-9]+)pt"', svg)
    return bool(width) and int(width[1]) > WIDTH


def proved_of(board):
    """What is proved, as HTML: three sentences with links to the page's list of proved clauses, and then a paragraph
    that names the prover and psyn's version."""
    links = {name: f'<a href="#clause-{name}"><code>{name}</code></a>' for name in CLAUSES}
    release, printed = releases.here(), "this game and this circuit for this certificate"
    if not board.is_printed:
        answered = (
            "<code>wins</code> for this circuit"
            if board.known_by == "verify"
            else "this circuit as the answer of <code>shrink</code>"
        )
        printed = f"this game and this certificate for this automaton, and {answered}"
    said = [
        re.sub(r"`(\w+)`", r"<code>\1</code>", " ".join(sentences_of(board)).format(**links)),
        f"This is proved with {escaped(release.kit)} of all that psyn prints. When this page was made, by psyn "
        f"{escaped(release.version)}, the program printed {printed}. The page itself is tested, and not proved.",
    ]
    return "\n".join(f"<p>{paragraph}</p>" for paragraph in said)


def sentences_of(board):
    first, *others = SENTENCES[board.winner]
    return (first if board.is_printed else OF_ANOTHER[board.known_by][board.winner], *others)


def clause_entry(name):
    clause = CLAUSES[name]
    return (
        f'<dt id="clause-{name}"><code>{name}</code> of <code>{clause.record}</code>, '
        f'in <code>{clause.file}</code></dt><dd>{clause.words}</dd>'
    )


def link_of(title, name, data):
    """A link by which a browser saves exactly the given bytes as a file."""
    return (
        f'<a download="{escaped(name)}" href="data:text/plain;base64,{base64.b64encode(data).decode()}">the '
        f'{escaped(title)}</a>'
    )
