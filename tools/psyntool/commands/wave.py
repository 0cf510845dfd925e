"""`wave`: what a circuit does, as a VCD file for a wave viewer. A lasso is written as its stem, and then as laps
(repetitions of its repeated part) until the latches repeat."""
from psyntool import asking, console, program
from psyntool.ends import Refused
from psyntool.texts import circuit, stimulus, vcd

LONGEST = 65_536


def run(request):
    texts = request.texts()
    read, given = circuit.read(texts[0].string), stimulus.read(texts[1].string)
    if given.lap == ():
        raise Refused(f"{texts[1].name}: no letter follows the line `-`, so there is nothing that repeats")
    if given.lap is None:
        answer, lap_from = simulated(texts, [*given.stem]), None
    else:
        answer, lap_from = until_it_comes_again(texts, given), len(given.stem)
    if not asking.is_had(answer):
        console.write(b"" if answer.is_fault else answer.bytes)
        console.tell(*([answer.text.rstrip("\n")] if answer.is_fault else []))
        return asking.told(request, texts, answer)
    console.write_text(vcd.wave(read, answer.text, lap_from))
    return 0


def simulated(texts, letters):
    return program.ask(b"sim\n" + texts[0].bytes + b"%%\n" + "".join(f"{letter}\n" for letter in letters).encode())


def until_it_comes_again(texts, given):
    """What the circuit does on a lasso: on the stem, and on laps (repetitions of the repeated part) until a lap begins
    with the same latches as an earlier lap."""
    laps = 1
    while True:
        answer = simulated(texts, given.letters(len(given.stem) + laps * len(given.lap) + 1))
        if not asking.is_had(answer):
            return answer
        rows = answer.bytes.split(b"\n")[:-1]
        begins = [row.split(b"|")[0] for row in rows[len(given.stem) :: len(given.lap)]]
        seen = set()
        again = next((place for place, latches in enumerate(begins) if latches in seen or seen.add(latches)), None)
        if again is not None or len(rows) > LONGEST:
            end = len(given.stem) + (again or laps) * len(given.lap)
            return program.Answer(b"".join(row + b"\n" for row in rows[:end]), 0, "")
        laps *= 2
