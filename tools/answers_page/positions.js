// The positions of an opening tree: each as its least image, and which one a next move leads to.

// So many numbers tell a position, and so many each next move behind it.
const POSITION_WORDS = 6, NEXT_WORDS = 6;

// The symmetries of a board, and the least of a position's images under them.
class Frames {
  constructor(columns, rows) {
    const symmetries = columns === rows ? [0, 1, 2, 3, 4, 5, 6, 7] : [0, 1, 2, 3];
    // Where each symmetry takes each point, and from where it takes one there.
    this.to = symmetries.map(s => Uint16Array.from({length: columns * rows}, (_, point) => {
      const [x, y] = moved(s, columns, rows, point % columns, Math.floor(point / columns));
      return y * columns + x;
    }));
    this.from = symmetries.map(s => this.to[INVERSES[s]]);
  }

  // Less than 0 where the image under one symmetry comes before that under the other: at the first point
  // at which they differ, empty before black before white.
  compare(stones, one, other) {
    const a = this.from[one], b = this.from[other];
    for (let point = 0; point < stones.length; point++)
      if (stones[a[point]] !== stones[b[point]]) return stones[a[point]] - stones[b[point]];
    return 0;
  }

  // The first symmetry that brings the stones to their least image.
  least(stones) {
    let best = 0;
    for (let s = 1; s < this.to.length; s++)
      if (this.compare(stones, s, best) < 0) best = s;
    return best;
  }

  image(stones, symmetry) {
    return stones.map((_, point) => stones[this.from[symmetry][point]]);
  }

  // The symmetry that does what two do, one behind the other.
  both(first, second) {
    const goal = this.to[first].map(point => this.to[second][point]);
    return this.to.findIndex(points => points.every((point, i) => point === goal[i]));
  }
}

// Stones as a short text, eight in a character, and back.
function asText(stones) {
  const codes = new Uint16Array(Math.ceil(stones.length / 8));
  stones.forEach((stone, point) => (codes[point >> 3] |= stone << (2 * (point & 7))));
  return String.fromCharCode(...codes);
}

function fromText(text, count) {
  const stone = point => (text.charCodeAt(point >> 3) >> (2 * (point & 7))) & 3;
  return Uint8Array.from({length: count}, (_, point) => stone(point));
}

class Positions {
  constructor({columns, rows, positions}) {
    Object.assign(this, {columns, rows, told: positions, count: positions.length});
    this.board = new Board(columns, rows);
    this.frames = new Frames(columns, rows);
    // The least images as texts, by the number of the position, and the numbers by these texts. The first
    // `indexed` positions are in both.
    this.texts = [];
    this.numbers = new Map();
    this.indexed = 0;
    // The game that was read last: positions of one game mostly stand one behind the other.
    this.last = {number: -1, game: null};
  }

  // A position's numbers, without its next moves.
  of(index) {
    const [count, black, white, other, game, node] = this.told[index];
    return {count, black, white, other, game, node};
  }

  // The next moves, those that came most often first, and those of one count as the record has them.
  nexts(index) {
    const told = this.told[index], found = [];
    for (let i = POSITION_WORDS; i < told.length; i += NEXT_WORDS) {
      const [colour, point, count, black, white, other] = told.slice(i, i + NEXT_WORDS);
      found.push({colour: colour === 0 ? BLACK : WHITE, point, count, black, white, other});
    }
    return found.sort((a, b) => b.count - a.count);
  }

  // The stones as they stand in the game in which the position first came up, or null where the page
  // doesn't have that game, or has it without such a node.
  inGame(index) {
    const {game: number, node} = this.of(index), game = this.read(number);
    const fits = game && game.columns === this.columns && game.rows === this.rows && node < game.nodes.length;
    return fits ? game.position(node) : null;
  }

  // With which move it first came up; 0 stands before the first one.
  moveNumber(index) {
    const {game, node} = this.of(index);
    return this.read(game)?.nodes[node]?.number ?? 0;
  }

  // A game, or null. Those of all positions would be too many to keep.
  read(number) {
    if (this.last.number !== number) {
      const text = games.text(number);
      this.last = {number, game: text === undefined ? null : new Game(text)};
    }
    return this.last.game;
  }

  text(index) {
    if (this.texts[index] === undefined) {
      const stones = this.inGame(index);
      this.texts[index] = stones && this.leastText(stones);
    }
    return this.texts[index];
  }

  leastText(stones) {
    return asText(this.frames.image(stones, this.frames.least(stones)));
  }

  // The least image of a position, in which its next moves stand, or null.
  stones(index) {
    const text = this.text(index);
    return text === null ? null : fromText(text, this.columns * this.rows);
  }

  // Goes on with the index for so many milliseconds, and tells whether it is whole.
  goOn(milliseconds) {
    const end = performance.now() + milliseconds;
    for (; this.indexed < this.count && performance.now() < end; this.indexed++) {
      const text = this.text(this.indexed);
      if (text !== null && !this.numbers.has(text)) this.numbers.set(text, this.indexed);
    }
    return this.indexed === this.count;
  }

  // The stones behind a next move.
  after(stones, {colour, point}) {
    const made = stones.slice();
    if (point >= 0) this.board.play(made, colour, point);
    return made;
  }
}
