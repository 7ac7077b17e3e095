// Opening trees: a position with its next moves, the way to it and back, and the list of all positions.

// So long at a time the page works on what it can do later, in milliseconds.
const AT_ONCE = 20, A_SLICE = 15;
// So many next moves have their letters on the board, and so many stand in the table at first.
const MOST_LETTERS = 26, FIRST_NEXTS = 12;
const NAMES = {[BLACK]: "Black", [WHITE]: "White"};

// The letter of a next move: A to Z, then AA, AB and so on.
function letterOf(index) {
  const last = String.fromCharCode(65 + index % 26);
  return index < 26 ? last : letterOf(Math.floor(index / 26) - 1) + last;
}

function often(count) {
  return ["never", "once", "twice"][count] ?? `${formatted(count)} times`;
}

function resultWords({black, white, other}) {
  return `Black won ${formatted(black)}, White ${formatted(white)}, neither ${formatted(other)}`;
}

function button(text, act, name = "") {
  const made = element("button", name, text);
  made.type = "button";
  made.addEventListener("click", act);
  return made;
}

class Opening {
  constructor(place) {
    this.place = place;
    this.line = Number(place.dataset.opening);
    this.positions = new Positions(data.openings[this.line]);
    this.count = this.positions.count;
    // The way to what is shown, each step with its turn and its words, and the ways that were gone before.
    this.way = [];
    this.before = [];
    this.make();
    this.positions.goOn(AT_ONCE);
    this.refresh();
    this.show([{index: this.order[0], turn: 0, last: null, words: ""}]);
    this.before = [];
    this.indexLater();
  }

  make() {
    this.figure = element("figure", "position");
    this.side = element("div", "side");
    this.sort = select([["count", "most frequent first"], ["entry", "in order of first entry"]],
      "Order", () => this.refresh());
    this.told = element("span", "told", counted(this.count, "position"));
    const all = element("div", "position-list", element("div", "controls", this.sort, this.told));
    this.place.replaceChildren(element("div", "found opened", this.figure, this.side), all);
    this.list = new LongList(all, () => 92, i => this.row(this.order[i]), {short: 4, printed: 40});
  }

  refresh() {
    this.order = this.positions.told.map((_, i) => i);
    if (this.sort.value === "count")
      this.order.sort((a, b) => this.positions.told[b][0] - this.positions.told[a][0] || a - b);
    this.list.show(this.order.length);
  }

  // Which position a next move leads to is known when all are indexed.
  indexLater() {
    const whole = this.positions.goOn(A_SLICE);
    this.place.dataset.indexed = String(whole);
    if (whole) this.draw();
    else setTimeout(() => this.indexLater(), 0);
  }

  get shown() {
    return this.way[this.way.length - 1];
  }

  show(way) {
    if (this.way.length) this.before.push(this.way);
    this.way = way;
    this.draw();
    this.mark();
  }

  back() {
    if (!this.before.length) return;
    this.way = this.before.pop();
    this.draw();
    this.mark();
  }

  // Shows a position of the list, as the record has it.
  open(index) {
    setAddress(`#${this.line}.${index + 1}`);
    this.show([{index, turn: 0, last: null, words: ""}]);
    this.figure.scrollIntoView({block: "nearest"});
  }

  // Marks the position that is shown in the list.
  mark() {
    const before = this.order.indexOf(this.selected);
    this.selected = this.shown.index;
    const at = this.order.indexOf(this.selected);
    this.list.reveal(at);
    this.list.renew(before);
    this.list.renew(at);
  }

  // What a next move leads to: a step of the way, or nothing where that isn't listed or isn't known yet.
  step(next) {
    const {positions} = this, {frames} = positions, {index, turn} = this.shown;
    const stones = positions.stones(index);
    if (!stones) return null;
    const made = positions.after(stones, next), symmetry = frames.least(made);
    const to = positions.numbers.get(asText(frames.image(made, symmetry)));
    if (to === undefined) return null;
    // The board keeps lying as it lies: back from the least image of what follows, and turned as this is.
    const kept = frames.both(INVERSES[symmetry], turn);
    return {index: to, turn: kept, last: this.seen(next), words: this.moveWords(next)};
  }

  // The point of a next move on the board as it lies, or null where it is a pass.
  seen({point}) {
    return point < 0 ? null : this.positions.frames.to[this.shown.turn][point];
  }

  moveWords(next) {
    const point = this.seen(next);
    return `${NAMES[next.colour]} ${point === null ? "passes" : this.positions.board.pointName(point)}`;
  }

  // The next moves with their letters, and where they lead or why they lead nowhere.
  nexts() {
    return this.positions.nexts(this.shown.index).map((next, i) => {
      const step = this.step(next), why = this.whyNot(step);
      return {...next, letter: letterOf(i), why, act: why ? null : () => this.show([...this.way, step])};
    });
  }

  draw() {
    const {index} = this.shown, nexts = this.nexts();
    Object.assign(this.figure.dataset, {position: index, turn: this.shown.turn});
    this.figure.replaceChildren(this.board(nexts), this.caption());
    this.side.replaceChildren(this.wayLine(), this.numbersLine(), ...this.table(nexts));
  }

  board(nexts) {
    const {positions} = this, {index, turn, last} = this.shown;
    const stones = positions.stones(index);
    if (!stones) return element("p", "", "The game of this position isn’t on this page.");
    const marks = nexts.slice(0, MOST_LETTERS).filter(next => next.point >= 0).map(next =>
      ({point: this.seen(next), text: next.letter, colour: next.colour, act: next.act}));
    return boardSvg(new View(positions.board, 0), positions.frames.image(stones, turn), {last, marks});
  }

  caption() {
    const {index} = this.shown, {game} = this.positions.of(index);
    const caption = element("figcaption", "", "First came up in ");
    if (!data.games[game]) caption.append(`game ${game}.`);
    else {
      const move = this.positions.moveNumber(index);
      const open = button("", () => this.openGame(), "open");
      open.append(element("bdi", "", playersOf(data.games[game])));
      caption.append(open, move > 0 ? `, with move ${move}.` : ", before the first move.");
    }
    return caption;
  }

  // The game in which the position first came up, at its node. Turned, it lies as the board does here.
  openGame() {
    const {index, turn} = this.shown, {frames} = this.positions, {game, node} = this.positions.of(index);
    const stones = this.positions.inGame(index);
    const label = stones ? INVERSES[frames.both(frames.least(stones), turn)] : 0;
    viewer.openGame(game, {node, label});
  }

  // The moves that led here, each a way back, and the button back.
  wayLine() {
    const back = button("Back", () => this.back(), "back");
    back.disabled = this.before.length === 0;
    const line = element("p", "chips way", back);
    this.way.forEach(({index, words}, i) => {
      const name = words || `Position ${formatted(index + 1)}`;
      const step = button(name, () => this.show(this.way.slice(0, i + 1)));
      step.disabled = i === this.way.length - 1;
      line.append(step);
    });
    if (this.shown.turn !== 0) line.append(this.turnButton());
    return line;
  }

  turnButton() {
    const listed = {...this.shown, turn: 0, last: null};
    const made = button("Turn as listed", () => this.show([...this.way.slice(0, -1), listed]), "turn");
    made.title = "As it is printed: the least of its images";
    return made;
  }

  numbersLine() {
    const told = this.positions.of(this.shown.index);
    const words = `Came up ${often(told.count)}. ${resultWords(told)}.`;
    return element("div", "came", element("p", "", words), resultsBar(told));
  }

  table(nexts) {
    if (!nexts.length) return [element("p", "", "Nothing was played behind it.")];
    const heads = ["", "Next move", "How often", "Results"].map(text => element("th", "", text));
    const body = element("tbody", "", ...nexts.map((next, i) => this.nextRow(next, i)));
    const head = element("thead", "", element("tr", "", ...heads));
    const table = element("table", "continuations nexts", head, body);
    const hidden = nexts.length - FIRST_NEXTS;
    if (hidden <= 0) return [table];
    const more = button(`Show ${counted(hidden, "more move")}`, () => {
      table.classList.add("whole");
      more.remove();
    }, "all-rows");
    return [table, more];
  }

  nextRow(next, i) {
    const colour = next.colour === BLACK ? "black" : "white";
    const move = element("td", "", element("span", `stone ${colour}`), this.moveWords(next));
    if (next.why) move.append(element("span", "small", next.why));
    const results = element("td", "", resultsBar(next), element("span", "small", resultWords(next)));
    const row = element("tr", i < FIRST_NEXTS ? "" : "more",
      element("td", "", this.letter(next)), move, element("td", "", often(next.count)), results);
    Object.assign(row.dataset, {colour, point: next.point});
    return row;
  }

  letter({letter, act}) {
    const made = button(letter, act, "pick");
    made.disabled = !act;
    made.title = act ? "Go on to this position" : "";
    return made;
  }

  // Why a next move leads nowhere, in words; nothing where it leads on.
  whyNot(step) {
    if (step) return step.index === this.shown.index ? "the position stays" : "";
    if (this.positions.text(this.shown.index) === null) return "its board isn’t known here";
    return this.positions.indexed < this.count ? "looked for …" : "leads to none that is listed";
  }

  row(index) {
    const {positions} = this, told = positions.of(index), stones = positions.stones(index);
    const game = data.games[told.game];
    const row = button("", () => this.open(index), index === this.selected ? "row chosen" : "row");
    const players = element("bdi", "players", game ? playersOf(game) : `game ${told.game}`);
    players.title = players.textContent;
    row.append(
      stones ? smallBoardSvg(positions, stones) : element("span", ""),
      element("span", "count", often(told.count)),
      element("span", "results-cell", resultsBar(told), element("span", "small", resultWords(told))),
      element("span", "first", element("span", "small", "first in"), players));
    return row;
  }
}
