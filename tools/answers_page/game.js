// Games: reading the text of one, and the position at each of its nodes.

const EMPTY = 0, BLACK = 1, WHITE = 2;
// What undoes each of the eight symmetries.
const INVERSES = [0, 1, 2, 3, 4, 6, 5, 7];

// Where symmetry `s` of a board of c columns and r rows takes the point (x, y).
function moved(s, c, r, x, y) {
  switch (s) {
    case 1: return [c - 1 - x, y];
    case 2: return [x, r - 1 - y];
    case 3: return [c - 1 - x, r - 1 - y];
    case 4: return [y, x];
    case 5: return [y, c - 1 - x];
    case 6: return [r - 1 - y, x];
    case 7: return [r - 1 - y, c - 1 - x];
    default: return [x, y];
  }
}

// Column A is the first, and I is left out; behind Z come AA, AB and so on.
function columnName(x) {
  const letters = "ABCDEFGHJKLMNOPQRSTUVWXYZ";
  return (x < 25 ? "" : letters[Math.floor(x / 25) - 1]) + letters[x % 25];
}

// A board on which moves are played. Stones are a list of cells by the numbers of their points.
class Board {
  constructor(columns, rows) {
    Object.assign(this, {columns, rows});
  }

  play(stones, colour, point) {
    stones[point] = colour;
    for (const next of this.neighbours(point))
      if (stones[next] === 3 - colour) this.removeCaptured(stones, next);
    this.removeCaptured(stones, point);
  }

  neighbours(point) {
    const c = this.columns, x = point % c, found = [];
    if (x > 0) found.push(point - 1);
    if (x < c - 1) found.push(point + 1);
    if (point >= c) found.push(point - c);
    if (point < c * (this.rows - 1)) found.push(point + c);
    return found;
  }

  // Takes the stones of a group away where it has no liberty.
  removeCaptured(stones, point) {
    const colour = stones[point], group = [point], seen = new Set(group);
    for (let i = 0; i < group.length; i++)
      for (const next of this.neighbours(group[i])) {
        if (stones[next] === EMPTY) return;
        if (stones[next] === colour && !seen.has(next)) {
          seen.add(next);
          group.push(next);
        }
      }
    for (const one of group) stones[one] = EMPTY;
  }

  pointName(point) {
    return columnName(point % this.columns) + (this.rows - Math.floor(point / this.columns));
  }
}

class Game extends Board {
  // `text` is a game as gobase prints it, where `~abcdefgh` may stand for `;B[ab];W[cd];B[ef];W[gh]`.
  constructor(text) {
    super(19, 19);
    this.nodes = [];
    this.read(text.replace(/~((?:[A-Za-z]{4})+)/g, (_, points) => points.replace(/(..)(..)/g, ";B[$1];W[$2]")));
    if (this.nodes.length === 0) this.addNode(-1);
  }

  addNode(parent) {
    const number = parent < 0 ? 0 : this.nodes[parent].number;
    this.nodes.push({parent, children: [], setup: [], move: null, number});
    if (parent >= 0) this.nodes[parent].children.push(this.nodes.length - 1);
    return this.nodes.length - 1;
  }

  read(text) {
    const token = /\[((?:[^\]\\]|\\[^])*)\]|([A-Z]+)|([();])/g;
    const branches = [];
    let node = -1, name = "";
    for (let match; (match = token.exec(text)); ) {
      const [, value, identifier, mark] = match;
      if (identifier !== undefined) name = identifier;
      else if (mark === "(") branches.push(node);
      else if (mark === ")") node = branches.length ? branches.pop() : node;
      else if (mark === ";") node = this.addNode(node);
      else if (node >= 0) this.property(this.nodes[node], name, value);
    }
  }

  property(node, name, value) {
    if (name === "SZ") {
      const size = /^(\d{1,2})(?::(\d{1,2}))?$/.exec(value);
      if (size) [this.columns, this.rows] = [Number(size[1]), Number(size[2] || size[1])];
    } else if (name === "B" || name === "W") {
      node.move = {colour: name === "B" ? BLACK : WHITE, point: this.point(value)};
      node.number += 1;
    } else if (name === "AB" || name === "AW" || name === "AE") {
      const colour = {AB: BLACK, AW: WHITE, AE: EMPTY}[name];
      for (const point of this.points(value)) node.setup.push([colour, point]);
    }
  }

  // The number of a point, or null where the value is a pass.
  point(value) {
    const [x, y] = [...value].map(c => (c >= "a" ? c.charCodeAt(0) - 97 : c.charCodeAt(0) - 65 + 26));
    const inside = value.length === 2 && x >= 0 && x < this.columns && y >= 0 && y < this.rows;
    return inside ? y * this.columns + x : null;
  }

  // The points of a value that is a point or a rectangle.
  points(value) {
    const [first, last] = value.split(":").map(corner => this.point(corner));
    if (first === null || last === null) return [];
    if (last === undefined) return [first];
    const found = [], c = this.columns;
    for (let y = Math.floor(first / c); y <= Math.floor(last / c); y++)
      for (let x = first % c; x <= last % c; x++) found.push(y * c + x);
    return found;
  }

  path(node) {
    const nodes = [];
    for (let at = node; at >= 0; at = this.nodes[at].parent) nodes.push(at);
    return nodes.reverse();
  }

  // The stones after a node's setup and move.
  position(node) {
    const stones = new Uint8Array(this.columns * this.rows);
    for (const at of this.path(node)) {
      const {setup, move} = this.nodes[at];
      for (const [colour, point] of setup) stones[point] = colour;
      if (move && move.point !== null) this.play(stones, move.colour, move.point);
    }
    return stones;
  }

  // The nodes behind a node by first children, as many at most.
  following(node, most) {
    const found = [];
    for (let at = this.nodes[node].children[0]; at !== undefined && found.length < most; at = this.nodes[at].children[0])
      found.push(at);
    return found;
  }

  last(node) {
    let at = node;
    while (this.nodes[at].children.length) at = this.nodes[at].children[0];
    return at;
  }

  // A node in words: `12 White Q16`.
  nodeWords(node) {
    const {move, setup, number} = this.nodes[node];
    if (!move) return setup.length ? "stones set up" : "no move";
    return `${number} ${move.colour === BLACK ? "Black" : "White"} ${move.point === null ? "pass" : this.pointName(move.point)}`;
  }
}

// Texts of games are read when the first one is opened, and each game once.
const games = {
  texts: null,
  known: new Map(),
  text(number) {
    this.texts ??= JSON.parse(document.getElementById("texts").textContent);
    return this.texts[number];
  },
  get(number) {
    if (!this.known.has(number) && this.text(number) !== undefined)
      this.known.set(number, new Game(this.text(number)));
    return this.known.get(number);
  },
};
