// Boards as SVG.

const CELL = 28, MARGIN = 24;
// How much larger a small board is drawn where there is room.
const LARGEST = 1.5;

function svg(name, attributes, ...children) {
  const made = document.createElementNS("http://www.w3.org/2000/svg", name);
  for (const [key, value] of Object.entries(attributes)) made.setAttribute(key, value);
  made.append(...children);
  return made;
}

function starLines(side) {
  if (side < 7) return [];
  const first = side < 13 ? 2 : 3;
  return side % 2 ? [first, (side - 1) / 2, side - 1 - first] : [first, side - 1 - first];
}

// A board as it is looked at: turned by what undoes a symmetry, and with the colours exchanged or not.
class View {
  constructor(game, label) {
    this.game = game;
    this.symmetry = label % 8;
    this.exchanged = label >= 8;
    this.transposed = this.symmetry >= 4;
    this.columns = this.transposed ? game.rows : game.columns;
    this.rows = this.transposed ? game.columns : game.rows;
  }

  // Where a point of the game is seen.
  seen(x, y) {
    return moved(INVERSES[this.symmetry], this.game.columns, this.game.rows, x, y);
  }

  // The point of the game that is seen at a place.
  shown(x, y) {
    return moved(this.symmetry, this.columns, this.rows, x, y);
  }

  colour(stone) {
    return this.exchanged && stone !== EMPTY ? 3 - stone : stone;
  }

  columnLabel(x) {
    const [column, row] = this.shown(x, 0);
    return this.transposed ? String(this.game.rows - row) : columnName(column);
  }

  rowLabel(y) {
    const [column, row] = this.shown(0, y);
    return this.transposed ? columnName(column) : String(this.game.rows - row);
  }
}

function centre(x, y) {
  return [MARGIN + x * CELL + CELL / 2, MARGIN + y * CELL + CELL / 2];
}

function boardLines(view) {
  const group = svg("g", {});
  const [left, top] = centre(0, 0), [right, bottom] = centre(view.columns - 1, view.rows - 1);
  for (let x = 0; x < view.columns; x++) {
    const rim = x === 0 || x === view.columns - 1 ? " rim" : "";
    group.append(svg("path", {class: "line" + rim, d: `M${centre(x, 0)[0]} ${top}V${bottom}`}));
    group.append(svg("text", {class: "name", x: centre(x, 0)[0], y: MARGIN / 2 + 3}, view.columnLabel(x)));
  }
  for (let y = 0; y < view.rows; y++) {
    const rim = y === 0 || y === view.rows - 1 ? " rim" : "";
    group.append(svg("path", {class: "line" + rim, d: `M${left} ${centre(0, y)[1]}H${right}`}));
    group.append(svg("text", {class: "name", x: MARGIN / 2 + 1, y: centre(0, y)[1]}, view.rowLabel(y)));
  }
  for (const y of starLines(view.game.rows))
    for (const x of starLines(view.game.columns)) {
      const [cx, cy] = centre(...view.seen(x, y));
      group.append(svg("circle", {class: "star", cx, cy, r: 2.6}));
    }
  return group;
}

// The rectangle of a placement, given in points of the game.
function markOf(view, {x, y, width, height}) {
  const [ax, ay] = view.seen(x, y), [bx, by] = view.seen(x + width - 1, y + height - 1);
  const [left, top] = centre(Math.min(ax, bx), Math.min(ay, by));
  return svg("rect", {class: "placement", x: left - CELL / 2, y: top - CELL / 2, rx: 4,
    width: (Math.abs(ax - bx) + 1) * CELL, height: (Math.abs(ay - by) + 1) * CELL});
}

// Texts on one point, which share it where they are several.
function markSvg(view, stone, point, marks) {
  const place = view.seen(point % view.game.columns, Math.floor(point / view.game.columns));
  const [cx, cy] = centre(...place), group = svg("g", {class: "mark", "data-mark": place.join()});
  if (stone === EMPTY) group.append(svg("circle", {class: "patch", cx, cy, r: CELL * 0.42}));
  marks.forEach(({text, colour, act}, i) => {
    const by = view.colour(colour), shift = (i - (marks.length - 1) / 2) * CELL * 0.48;
    const isWhite = stone === EMPTY ? by === WHITE : stone === BLACK;
    const name = isWhite ? "by-white" : "by-black";
    const small = text.length > 1 || marks.length > 1 ? " small" : "";
    const made = svg("text", {class: `letter ${name}${small}`, x: cx + shift, y: cy}, text);
    group.append(made);
    // A text that has the point for itself is pressed anywhere on it.
    const pressed = marks.length === 1 ? group : made;
    if (act) pressed.addEventListener("click", act);
    pressed.classList.toggle("leads", Boolean(act));
  });
  return group;
}

// `stones` are those of the game, `marks` texts by point: {point, text, colour}, perhaps with what a click
// does. `data-point` and `data-stone` tell each stone as it is seen.
function boardSvg(view, stones, {placement = null, last = null, marks = []}) {
  const width = view.columns * CELL + MARGIN + 8, height = view.rows * CELL + MARGIN + 8;
  const {columns} = view.game;
  const board = svg("svg", {class: "board", viewBox: `0 0 ${width} ${height}`, width: LARGEST * width,
    role: "img", "aria-label": "Board"});
  board.append(svg("rect", {class: "wood", width, height, rx: 4}), boardLines(view));
  if (placement) board.append(markOf(view, placement));
  stones.forEach((stone, point) => {
    if (stone === EMPTY) return;
    const place = view.seen(point % columns, Math.floor(point / columns));
    const [cx, cy] = centre(...place);
    const name = view.colour(stone) === BLACK ? "black" : "white";
    board.append(svg("circle", {class: name, cx, cy, r: CELL * 0.46, "data-point": place.join(), "data-stone": name}));
    if (point === last) board.append(svg("circle", {class: `last on-${name}`, cx, cy, r: CELL * 0.2}));
  });
  for (const point of new Set(marks.map(mark => mark.point))) {
    const here = marks.filter(mark => mark.point === point);
    board.append(markSvg(view, view.colour(stones[point]), point, here));
  }
  return board;
}

// A board without names and marks, for lists.
function smallBoardSvg({columns, rows}, stones) {
  const across = columns - 0.5, down = rows - 0.5;
  const lines = Array.from({length: columns}, (_, x) => `M${x + 0.5} 0.5V${down}`).join("")
    + Array.from({length: rows}, (_, y) => `M0.5 ${y + 0.5}H${across}`).join("");
  const board = svg("svg", {class: "board tiny", viewBox: `0 0 ${columns} ${rows}`, "aria-hidden": "true"},
    svg("rect", {class: "wood", width: columns, height: rows}), svg("path", {class: "line thin", d: lines}));
  stones.forEach((stone, point) => {
    if (stone === EMPTY) return;
    board.append(svg("circle", {class: stone === BLACK ? "black" : "white", r: 0.46,
      cx: point % columns + 0.5, cy: Math.floor(point / columns) + 0.5}));
  });
  return board;
}

// How games ended: Black's from the left, White's from the right.
function resultsBar({black, white, other}) {
  const whole = black + white + other || 1;
  const box = {class: "results", viewBox: "0 0 100 10", preserveAspectRatio: "none", "aria-hidden": "true"};
  return svg("svg", box,
    svg("rect", {class: "neither", width: 100, height: 10}),
    svg("rect", {class: "won-black", width: 100 * black / whole, height: 10}),
    svg("rect", {class: "won-white", x: 100 - 100 * white / whole, width: 100 * white / whole, height: 10}));
}
