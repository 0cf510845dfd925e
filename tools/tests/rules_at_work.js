// Plays on boards by the rules of pages: reads [path of rules.js, [[board, [moves, ..]], ..]] from standard input, plays each to its end (behind
// its moves what holds out longest), and writes what came of it.
const [path, cases] = JSON.parse(require("fs").readFileSync(0, "utf8"));
const rules = require(path);

/** The choices that lead elsewhere than they say, and whether the circuit says without me what it said. */
function wrongAt(board, play, behind) {
  const wrong = rules.choicesOf(board, play).filter((choice) => {
    const after = rules.stepped(board, play, choice.digits);
    const [state, priority] = choice.after === null ? [null, 1] : board.vertices[choice.after];
    return after.state !== state || after.steps.at(-1).priority !== priority;
  });
  const letter = rules.theirLetter(board, play);
  const said = board.amFirst || board.outputs.every((number) => letter[number] === behind.steps.at(-1).letter[number]);
  return wrong.length + (said ? 0 : 1);
}

function played(board, moves) {
  let play = rules.begun(board);
  let wrong = 0;
  while (!rules.isOver(play) && (play.steps.length < moves.length || rules.loopOf(play) === null)) {
    const digits = moves[play.steps.length];
    const behind = digits === undefined ? rules.longestStep(board, play) : rules.stepped(board, play, digits);
    wrong += wrongAt(board, play, behind);
    play = behind;
  }
  const address = rules.movesText(play);
  const again = rules.playOf(board, rules.movesOf(board, address));
  wrong += JSON.stringify(again) === JSON.stringify(play) ? 0 : 1;
  wrong += [`${address}0`, `${address}x`, `${address},`, `${address},2`].filter((text) => rules.movesOf(board, text) !== null).length;
  return { wrong, steps: play.steps, latches: play.latches, loop: rules.loopOf(play), stimulus: rules.stimulusOf(play), text: rules.traceText(board, play) };
}

process.stdout.write(JSON.stringify(cases.map(([board, plays]) => plays.map((moves) => played(board, moves)))));
