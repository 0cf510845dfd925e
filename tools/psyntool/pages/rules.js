"use strict";
// The rules of a play against the circuit that psyn printed, apart from any page: a function gives something new, and changes nothing.
// A board is what `contents.py` writes. A letter is an array of bits, one for each proposition by its number. A play is
// { steps, state, latches }: the steps so far, and behind them the state (null where there was no edge) and the latches.

/** What a decision diagram says of a letter: a row is a leaf [value], or a node [proposition, row where it is 0, row where it is 1]. */
function valueAt(rows, root, letter) {
  let row = rows[root];
  while (row.length === 3) row = rows[letter[row[0]] ? row[2] : row[1]];
  return row[0];
}

/** What the circuit puts out, and its next latches: a literal is twice a variable, and one more where it is negated. */
function circuitStep(circuit, latches, inputs) {
  const bits = new Map([[0, 0]]);
  const at = (literal) => bits.get(literal >>> 1) ^ (literal & 1);
  circuit.inputs.forEach((literal, place) => bits.set(literal >>> 1, inputs[place]));
  circuit.latches.forEach(([literal], place) => bits.set(literal >>> 1, latches[place]));
  for (const [literal, first, second] of circuit.gates) bits.set(literal >>> 1, at(first) & at(second));
  return { outputs: circuit.outputs.map(at), latches: circuit.latches.map(([, next]) => at(next)) };
}

/** The state behind a letter, null where it has no edge, and the priority of that step. */
function nextState(board, state, letter) {
  return valueAt(board.moves.rows, board.moves.roots[state], letter);
}

function begun(board) {
  return { steps: [], state: board.start, latches: board.circuit.latches.map(([, , reset]) => reset) };
}

/** The play behind one letter more of mine, in the order of the circuit's inputs. */
function stepped(board, play, digits) {
  const inputs = [...digits].map(Number);
  const { outputs, latches } = circuitStep(board.circuit, play.latches, inputs);
  const letter = board.names.map(() => 0);
  board.inputs.forEach((number, place) => (letter[number] = inputs[place]));
  board.outputs.forEach((number, place) => (letter[number] = outputs[place]));
  const [target, priority] = nextState(board, play.state, letter);
  const step = { state: play.state, latches: play.latches, letter, digits, target, priority };
  return { steps: [...play.steps, step], state: target, latches };
}

/** What the circuit says where it moves first: then it reads none of my bits. */
function theirLetter(board, play) {
  const { outputs } = circuitStep(board.circuit, play.latches, board.inputs.map(() => 0));
  return board.names.map((_, number) => outputs[board.outputs.indexOf(number)] || 0);
}

/** The step with the same state and latches as now, from which on all comes again; null where there is none. */
function loopOf(play) {
  const now = play.latches.join("");
  const found = play.steps.findIndex((step) => step.state === play.state && step.latches.join("") === now);
  return play.state === null || found < 0 ? null : found;
}

/** Whether no step can follow. A play with a loop may end, or go on. */
function isOver(play) {
  return play.state === null;
}

/** The game's vertex where the play stands. */
function vertexOf(board, play) {
  return play.steps.length ? board.places[`${play.state}/${play.steps.at(-1).priority}`] : board.begin;
}

/** What can be chosen: { said, digits, after, broken }; the first of those that hold out longest has `isLongest`. */
function choicesOf(board, play) {
  if (isOver(play)) return [];
  const vertex = vertexOf(board, play);
  const known = board.choices[board.letters ? `${vertex}/${play.latches.join("")}` : vertex];
  if (!known) return choicesTried(board, play);
  const { longest, choices } = known;
  return choices.map(([said, digits, after, broken], place) => ({ said, digits, after, broken, isLongest: place === longest }));
}

/** The same where nothing is known before the play, of a circuit that was not printed with the game: where a letter leads is tried. */
function choicesTried(board, play) {
  const letters = board.amFirst ? board.letters[vertexOf(board, play)] : lettersApart(board, play);
  const tried = letters.map(([said, digits]) => {
    const { state, steps } = stepped(board, play, digits);
    const after = state === null ? null : board.places[`${state}/${steps.at(-1).priority}`];
    const isBroken = (part) => part.side === "guarantee" && partRun(part, { steps }).broke === steps.length - 1;
    const broken = state === null ? board.parts.filter(isBroken).map((part) => part.title) : [];
    return { said, digits, after, broken, isLongest: false };
  });
  return [...tried.filter((choice) => choice.after !== null), ...tried.filter((choice) => choice.after === null)];
}

/** One of my letters for each place to which one leads, behind the circuit's letter: as text and as digits. */
function lettersApart(board, play) {
  const { rows, roots } = board.moves;
  const found = new Map();
  const seen = new Set();
  const theirs = theirLetter(board, play);
  const visit = (row, letter) => {
    if (seen.has(row)) return;
    seen.add(row);
    if (rows[row].length === 1) {
      found.set(row, letter);
      return;
    }
    const [number, low, high] = rows[row];
    for (const bit of board.inputs.includes(number) ? [0, 1] : [theirs[number]]) visit(bit ? high : low, letter.with(number, bit));
  };
  visit(roots[play.state], theirs);
  return [...found.values()].map((letter) => [letterText(board, letter, board.inputs), board.inputs.map((number) => letter[number]).join("")]);
}

/** The play behind the choice that holds out longest, or behind the first one where none is known to. */
function longestStep(board, play) {
  const choices = choicesOf(board, play);
  return stepped(board, play, (choices.find((choice) => choice.isLongest) || choices[0]).digits);
}

/** The moves of a play as an address has them, and back again: null where they are none of this board. */
function movesText(play) {
  return play.steps.map((step) => step.digits || "-").join(",");
}

function movesOf(board, text) {
  const words = text ? text.split(",") : [];
  const count = board.inputs.length;
  const isMove = (word) => (count ? /^[01]+$/.test(word) && word.length === count : word === "-");
  return words.every(isMove) ? words.map((word) => word.replace("-", "")) : null;
}

/** The play behind choices that hold out longest, at least one, up to a loop, to no edge, or to so many steps. */
function heldOut(board, play, most) {
  let next = play;
  do next = longestStep(board, next);
  while (!isOver(next) && loopOf(next) === null && next.steps.length < most);
  return next;
}

/** The play of these moves, up to a step without an edge. */
function playOf(board, moves) {
  return moves.reduce((play, digits) => (isOver(play) ? play : stepped(board, play, digits)), begun(board));
}

/** My letters as a stem and a lap, which is the loop, or the last letter where there is no edge; a play without either is a stem. */
function stimulusOf(play) {
  const lines = play.steps.map((step) => step.digits);
  const lap = isOver(play) ? lines.length - 1 : loopOf(play);
  const parts = lap === null ? lines : [...lines.slice(0, lap), "-", ...lines.slice(lap)];
  return parts.map((line) => `${line}\n`).join("");
}

// ---- words

function titleOf(board, state) {
  return state === null ? "no edge" : board.titles[state];
}

/** The names of the propositions that are true, among these numbers; `-` where none is. */
function letterText(board, letter, numbers) {
  return numbers.filter((number) => letter[number]).map((number) => board.names[number]).join(" ") || "-";
}

function priorityText(step) {
  return step.target === null ? "no edge" : String(step.priority);
}

/** Where a choice leads, in words. */
function whereText(board, choice) {
  if (choice.after === null) return `no edge${choice.broken.length ? ", since it breaks " : ""}${choice.broken.join(" and ")}`;
  const [state, priority] = board.vertices[choice.after];
  return `${titleOf(board, state)} (priority ${priority})`;
}

/** A row for each step: its number, the state, what both said, and the priority. */
function rowsOf(board, play) {
  const said = (step) => board.owned.map((numbers) => letterText(board, step.letter, numbers));
  return play.steps.map((step, place) => [String(place), titleOf(board, step.state), ...said(step), priorityText(step)]);
}

/** How the play ended, or may end here, in lines; none where there are an edge and no loop. */
function endOf(board, play) {
  const last = play.steps.length - 1;
  const loop = loopOf(play);
  if (!isOver(play) && loop === null) return [];
  let told = `at step ${last} there is no edge: the automaton rejects, whatever follows`;
  if (loop !== null) {
    const greatest = Math.max(...play.steps.slice(loop).map((step) => step.priority));
    const what = loop === last ? `step ${last} comes` : `steps ${loop} to ${last} come`;
    const parity = greatest % 2 === 0 ? "even: the automaton accepts" : "odd: the automaton rejects";
    told = `${what} again and again; the greatest priority there is ${greatest}, ${parity}`;
  }
  return [told, ...board.parts.flatMap((part) => partText(part, play, loop))];
}

/** What became of a part of the specification: it broke, or the loop never meets it; with its sentence. */
function partText(part, play, loop) {
  const { broke, met } = partRun(part, play);
  let said = `step ${broke} breaks the ${part.side} ${part.title}`;
  if (broke === null) {
    if (loop === null || met.some((place) => place >= loop)) return [];
    said = `the loop never meets the ${part.side} ${part.title}`;
  }
  return part.sentence ? [said, `  ${part.sentence}`] : [said];
}

/** Runs a part beside a play: the step that broke it or null, its state then, and the steps at which it was met. */
function partRun(part, play) {
  let state = part.start;
  const met = [];
  for (const [place, step] of play.steps.entries()) {
    const move = state === null ? null : valueAt(part.moves.rows, part.moves.roots[state], step.letter);
    if (move === null) return { broke: place, state: null, met };
    if (move[1]) met.push(place);
    state = move[0];
  }
  return { broke: null, state, met };
}

/** Of names that are lists of pieces, what tells them apart: the pieces that not all of them have, or all where nothing is left. */
function tellingNames(names) {
  const pieces = names.map((name) => name.split("; "));
  const isCommon = (piece) => names.length > 1 && pieces.every((those) => those.includes(piece));
  return pieces.map((those, place) => those.filter((piece) => !isCommon(piece)).join("; ") || names[place]);
}

/** A text in lines of at most so many signs, at most so many lines; what is left out is marked. */
function linesOf(text, signs, most) {
  const lines = [""];
  for (const word of text.split(" ").flatMap((it) => it.match(new RegExp(`.{1,${signs}}`, "gu")) || [])) {
    const longer = lines.at(-1) ? `${lines.at(-1)} ${word}` : word;
    if ([...longer].length <= signs) lines[lines.length - 1] = longer;
    else lines.push(word);
  }
  if (lines.length <= most) return lines;
  return [...lines.slice(0, most - 1), `${[...lines[most - 1]].slice(0, signs - 1).join("")}\u2026`];
}

/** The trace as text, in columns. */
function traceText(board, play) {
  const table = [["step", "state", "environment", "controller", "priority"], ...rowsOf(board, play)];
  const sizes = table[0].map((_, column) => Math.max(...table.map((row) => [...row[column]].length)));
  const lines = table.map((row) => row.map((word, column) => word + " ".repeat(sizes[column] - [...word].length)).join("  ").trimEnd());
  if (loopOf(play) !== null) lines.splice(loopOf(play) + 1, 0, "the loop begins");
  return [...lines, ...endOf(board, play)].join("\n");
}

/** Of a graph, { id: { to, .. } }, at most so many vertices around one: each with how many steps it lies behind it, or before it (below 0). */
function around(graph, center, most) {
  const before = (id) => Object.keys(graph).map(Number).filter((other) => graph[other].to.includes(id));
  const reached = (way, links, known, count) => {
    const found = new Map([[center, 0]]);
    for (const [id, distance] of found) {
      for (const one of links(id)) if (found.size <= count && !found.has(one) && !known.has(one)) found.set(one, distance + way);
    }
    return found;
  };
  const behind = reached(1, (id) => graph[id].to, new Map(), Math.ceil((most * 2) / 3));
  return new Map([...behind, ...reached(-1, before, behind, most + 1 - behind.size)]);
}

const forNode = { around, begun, choicesOf, heldOut, isOver, linesOf, longestStep, loopOf, movesOf, movesText, playOf, stepped, stimulusOf, tellingNames, theirLetter, traceText };
if (typeof module !== "undefined") module.exports = forNode;
