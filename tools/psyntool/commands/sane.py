"""`sane`: whether a specification in temporal logic says what was meant. The first line is the verdict, and each
further one is about what is likely to be a mistake."""
from psyntool import console, remarks, specifying
from psyntool.tlsf import sanity


def run(request):
    [text] = request.texts()
    answer, status = specifying.first_answer(request, text)
    if answer is None:
        return status
    found = [*sanity.Sanity(text.basic).lines(), *remarks.constants(answer), *remarks.unread(answer)]
    console.write_text(
        "\n".join([answer.text.partition("\n")[0], *(found or ["nothing was found that looks like a mistake"]), ""])
    )
    return answer.status
