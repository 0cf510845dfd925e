// The page: shows a play, and plays what is pressed. The rules stand in rules.js.

const board = JSON.parse(document.getElementById("board").textContent);
const byId = (id) => document.getElementById(id);
const SVG = byId("wave").namespaceURI;
const AROUND = 12;
const LONGEST = 10000;
const BOX = { wide: 290, tall: 100, width: 242, height: 84, signs: 36, lines: 3 };
let play = begun(board);

/** An element of a document, or with a namespace of a picture, with attributes and text. */
function made(name, text = "", attributes = {}, space = document.body.namespaceURI) {
  const element = document.createElementNS(space, name);
  element.textContent = text;
  for (const [key, value] of Object.entries(attributes)) element.setAttribute(key, value);
  return element;
}

const shape = (name, attributes, text) => made(name, text, attributes, SVG);

// ---- what is shown

function show(message = "") {
  const over = isOver(play);
  const choices = choicesOf(board, play);
  byId("standing").replaceChildren(...standing(choices, message).map(([text, kind]) => made("p", text, { class: kind })));
  byId("choices").replaceChildren(...choices.map(choiceItem));
  for (const id of ["auto", "whole"]) byId(id).disabled = !choices.some((choice) => choice.isLongest);
  for (const id of ["back", "again"]) byId(id).disabled = !play.steps.length;
  byId("letter").hidden = over;
  byId("trace").tBodies[0].replaceChildren(...traceRows());
  showWave();
  byId("stimulus").href = `data:text/plain,${encodeURIComponent(stimulusOf(play))}`;
  byId("address").href = `#moves=${movesText(play)}`;
  showParts();
  showPlace("automaton", "s", play.state, titleOf(board, play.state));
  const vertex = play.state === null ? null : vertexOf(board, play);
  showPlace("game", "v", vertex, vertex === null ? "no edge" : `vertex ${vertex}, of state ${play.state} and priority ${board.vertices[vertex][1]}`);
}

/** Where the play stands, in paragraphs: each its text and its kind. */
function standing(choices, message) {
  const behind = play.steps.length && play.state !== null ? ` (priority ${priorityText(play.steps.at(-1))})` : "";
  const told = [[`step ${play.steps.length}: ${titleOf(board, play.state)}${behind}`, "state"]];
  if (message) told.push([message, "end"]);
  const end = endOf(board, play).join("\n");
  if (isOver(play)) return [...told, [end, "end"]];
  if (end) told.push([`The play may end here, or go on. If it ends, ${end}`, "end"]);
  if (!board.amFirst) told.push([`The ${board.other} says ${letterText(board, theirLetter(board, play), [...board.names.keys()])}`, "theirs"]);
  return [...told, [`${choices.length} ${choices.length === 1 ? "choice" : "choices"} of the ${board.me}:`, "count"]];
}

function choiceItem(choice, place) {
  const longest = choice.isLongest ? " (holds out longest)" : "";
  const button = made("button", `${place + 1}. ${choice.said} \u2192 ${whereText(board, choice)}${longest}`, { type: "button" });
  button.addEventListener("click", () => go(stepped(board, play, choice.digits)));
  const item = made("li");
  item.append(button);
  return item;
}

function traceRows() {
  const rows = rowsOf(board, play).map((cells) => {
    const row = made("tr");
    row.append(made("th", cells[0], { scope: "row" }), ...cells.slice(1).map((cell) => made("td", cell)));
    return row;
  });
  const loop = loopOf(play);
  if (loop === null) return rows;
  const line = made("tr", "", { class: "loop" });
  line.append(made("td", "the loop begins", { colspan: 5 }));
  return [...rows.slice(0, loop), line, ...rows.slice(loop)];
}

/** A line for each proposition, high where it is true; the loop begins at a dashed line. */
function showWave() {
  const [left, cell, high, low, row] = [12, 32, 6, 24, 32];
  const numbers = board.owned.flat();
  const names = numbers.map((number) => `${board.names[number]} (${board.owned[0].includes(number) ? "environment" : "controller"})`);
  const begin = left + 8 * Math.max(8, ...names.map((name) => name.length));
  const lines = numbers.flatMap((number, line) => {
    const levels = play.steps.map((step) => line * row + (step.letter[number] ? high : low));
    const path = levels.map((level, place) => `${place ? "V" : `M${begin} `}${level}h${cell}`).join("");
    return [shape("text", { x: left, y: line * row + 20 }, names[line]), shape("path", { d: path })];
  });
  const bottom = numbers.length * row;
  const at = play.steps.map((_, place) => shape("text", { x: begin + place * cell + 10, y: bottom + 14 }, place));
  const loop = loopOf(play);
  const from = begin + loop * cell;
  const marks = loop === null ? [] : [shape("path", { class: "loop", d: `M${from} 0V${bottom}` }), shape("text", { x: from, y: bottom + 32 }, "the loop begins")];
  const width = Math.max(begin + Math.max(4, play.steps.length + 1) * cell, loop === null ? 0 : from + 8 * "the loop begins".length);
  for (const [key, value] of [["width", width], ["height", bottom + 40]]) byId("wave").setAttribute(key, value);
  byId("wave").replaceChildren(...lines, ...at, ...marks);
}

// ---- pictures

/** Marks the present state of each part in its picture, and names it. */
function showParts() {
  const figures = document.querySelectorAll("#parts figure");
  board.parts.forEach((part, place) => {
    const { broke, state } = partRun(part, play);
    const picture = figures[place].querySelector("svg");
    figures[place].querySelector("span").textContent = state === null ? `broken at step ${broke}` : `now: ${part.titles[state]}`;
    figures[place].querySelector(".picture").hidden = !picture;
    if (picture) mark(picture, state === null ? "" : `s${state}`);
  });
}

/** Marks a place in the picture that Graphviz made, and draws what lies around it where the board has the graph. */
function showPlace(name, sign, place, title) {
  const picture = byId(name).querySelector("svg");
  const graph = board.pictures[name];
  const count = graph ? Object.keys(graph).length : 0;
  const part = graph ? ` The whole, of ${count}, is too large for a picture; this one shows at most ${AROUND} others around it.` : "";
  byId(`${name}-says`).textContent = `Marked: ${title}.${part}`;
  byId(name).hidden = !picture;
  byId(`${name}-around`).hidden = !graph;
  if (picture) mark(picture, place === null ? "" : `${sign}${place}`);
  if (graph) drawAround(byId(`${name}-around`).firstElementChild, graph, place);
}

function mark(picture, id) {
  picture.querySelectorAll(".pin").forEach((pin) => pin.remove());
  for (const group of picture.querySelectorAll("g.node, g.edge")) {
    const title = group.querySelector("title").textContent;
    group.classList.toggle("here", title === id);
    group.classList.toggle("out", title.startsWith(`${id}->`) || title.startsWith(`${id}:`));
    if (title === id) pin(group);
  }
}

/** Writes `here` at a vertex, and moves the picture in its frame so that it is seen. */
function pin(group) {
  const box = group.getBBox();
  group.parentNode.append(group);
  group.append(shape("text", { class: "pin", x: box.x + box.width / 2, y: box.y - 4 }, "\u25bc here"));
  const frame = group.closest(".wide");
  const [at, within] = [group.getBoundingClientRect(), frame.getBoundingClientRect()];
  frame.scrollBy(at.left + at.width / 2 - within.left - within.width / 2, at.top + at.height / 2 - within.top - within.height / 2);
}

/** A curve from the right side of one box to the left side of another; one that leads back bends below them. */
function curve([x, y], [left, top]) {
  const [right, from, to] = [x + BOX.width, y + BOX.height / 2, top + BOX.height / 2];
  const [bend, sink] = left > x ? [25, 0] : [60, 45];
  return shape("path", { d: `M${right} ${from}C${right + bend} ${from + sink} ${left - bend} ${to + sink} ${left} ${to}` });
}

function box(lines, name, [x, y], isCenter) {
  const group = shape("g", { class: isCenter ? "here" : "other" });
  const shown = [lines[0], ...linesOf(name, BOX.signs, BOX.lines)];
  group.append(shape("title", {}, lines.join("\n")), shape("rect", { x, y, width: BOX.width, height: BOX.height }));
  group.append(...shown.map((line, place) => shape("text", { x: x + 6, y: y + 16 + place * 17 }, line)));
  return group;
}

/** Draws the vertices around one, in columns by their distance, with its edges and those that lead to the next column. */
function drawAround(picture, graph, center) {
  const found = center === null ? new Map() : around(graph, center, AROUND);
  const distances = [...new Set(found.values())].sort((one, other) => one - other);
  const columns = distances.map((distance) => [...found.keys()].filter((id) => found.get(id) === distance));
  const most = Math.max(1, ...columns.map((ids) => ids.length));
  const placed = (ids, column) => ids.map((id, row) => [id, [10 + column * BOX.wide, 24 + (row + (most - ids.length) / 2) * BOX.tall]]);
  const corners = new Map(columns.flatMap(placed));
  const isDrawn = (id, to) => corners.has(to) && (id === center || to === center || found.get(to) === found.get(id) + 1);
  const edges = [...corners.keys()].flatMap((id) => graph[id].to.filter((to) => isDrawn(id, to)).map((to) => curve(corners.get(id), corners.get(to))));
  picture.setAttribute("width", Math.max(1, columns.length) * BOX.wide);
  picture.setAttribute("height", most * BOX.tall + 40);
  const names = tellingNames([...corners.keys()].map((id) => graph[id].lines[1]));
  picture.replaceChildren(...edges, ...[...corners].map(([id, corner], place) => box(graph[id].lines, names[place], corner, id === center)));
  picture.querySelectorAll(".here").forEach(pin);
}

// ---- what is pressed

/** Goes to another play; where the button that had the focus is gone, the first choice has it then. */
function go(next) {
  const focused = document.activeElement;
  play = next;
  history.replaceState(null, "", `#moves=${movesText(play)}`);
  show();
  if (!focused.isConnected || focused.disabled) (byId("choices").querySelector("button") || byId("back")).focus();
}

const pressed = {
  back: () => go(playOf(board, play.steps.slice(0, -1).map((step) => step.digits))),
  auto: () => go(longestStep(board, play)),
  whole: () => go(heldOut(board, play, LONGEST)),
  again: () => go(begun(board)),
};
for (const [id, run] of Object.entries(pressed)) byId(id).addEventListener("click", run);

byId("play").addEventListener("keydown", (event) => {
  if (event.ctrlKey || event.altKey || event.metaKey) return;
  const button = /^[1-9]$/.test(event.key) ? byId("choices").querySelectorAll("button")[event.key - 1] : byId({ a: "auto", b: "back" }[event.key]);
  if (button && !button.disabled) button.click();
});

byId("boxes").append(...board.inputs.map((number, place) => {
  const label = made("label", ` ${board.names[number]}`);
  label.prepend(made("input", "", { type: "checkbox", name: place }));
  return label;
}));
byId("letter").addEventListener("submit", (event) => {
  event.preventDefault();
  go(stepped(board, play, [...byId("boxes").querySelectorAll("input")].map((box) => Number(box.checked)).join("")));
});

/** Plays what the address says: `#moves=..`, or `#test=..`, which writes the trace into the page as text too. */
function readAddress() {
  const [, word, text] = /^#(moves|test)=(.*)$/.exec(location.hash) || [];
  const moves = movesOf(board, text);
  play = playOf(board, moves || []);
  show(moves ? "" : "The address has no moves of this board.");
  if (word === "test") document.body.append(made("pre", traceText(board, play), { id: "test" }));
}

addEventListener("hashchange", () => /^#(moves|test)=/.test(location.hash) && readAddress());
readAddress();
