"""`tlsf`: writes a specification in TLSF's full form out in its basic form."""
from psyntool import console, outputs, specifying
from psyntool.command import TO_TLSF
from psyntool.tlsf.tokens import ENCODING


def run(request):
    paths, prefix = [], request.value(TO_TLSF)
    if prefix is not None:
        paths = outputs.own(request, [f"{prefix}.tlsf"], TO_TLSF.shown, prefix)
    settings = specifying.settings_of(request)
    [text] = request.texts()
    outputs.refuse_read(request, paths)
    made = (text.basic or specifying.basic(text, settings)).text().encode(ENCODING)
    if not request.quiet:
        console.tell(*text.told)
    if paths:
        outputs.write_all({paths[0]: made})
    else:
        console.write(made)
    return 0
