// The hits of a search: sorted, filtered, and opened by a click.

const data = JSON.parse(document.getElementById("data").textContent);
const [BLACK_NAME, WHITE_NAME, EVENT, PLACE, DATE, RESULT, DAY, FILE, IN_FILE] = [0, 1, 2, 3, 4, 5, 6, 7, 8];
// The numbers of a hit.
const WORDS = 7;
const collator = new Intl.Collator("en", {numeric: true});

function playersOf(told) {
  if (!told) return "?";
  if (!told[BLACK_NAME] && !told[WHITE_NAME])
    return told[FILE] === "make" ? `Made game ${formatted(told[IN_FILE])}` : `${told[FILE]}, game ${told[IN_FILE] + 1}`;
  return `${told[BLACK_NAME] || "?"} – ${told[WHITE_NAME] || "?"}`;
}

const SORTS = {
  newest: "newest first", oldest: "oldest first", order: "in order of the games", players: "by players",
  event: "by event", result: "by result", move: "by move number", follows: "by how it went on",
};

function select(choices, label, change) {
  const made = element("select", "");
  made.setAttribute("aria-label", label);
  for (const [value, text] of choices) {
    const option = element("option", "", text);
    option.value = value;
    made.append(option);
  }
  made.addEventListener("change", change);
  return made;
}

class Hits {
  constructor(place) {
    this.line = Number(place.dataset.search);
    Object.assign(this, data.searches[this.line]);
    this.numbers = this.hits;
    this.count = this.numbers.length / WORDS;
    this.selected = -1;
    this.makeControls(place);
    this.list = new LongList(place, width => (width < 800 ? 68 : 38), i => this.row(this.order[i]));
    this.refresh();
  }

  makeControls(place) {
    const again = () => this.refresh();
    this.filter = element("input", "");
    this.filter.type = "search";
    this.filter.placeholder = "Player, event, date, result …";
    this.filter.setAttribute("aria-label", "Show hits with this text");
    this.filter.addEventListener("input", again);
    this.sort = select(Object.entries(SORTS), "Order", again);
    const follows = [["", "all hits"],
      ...this.letters.map(([letter, colour], i) => [i, `${letter}: ${colour === "B" ? "Black" : "White"}`]),
      ["-1", "didn’t go on inside"]];
    this.follows = select(follows, "How it went on", again);
    this.told = element("span", "told");
    const controls = element("div", "controls", this.filter, this.sort, this.follows);
    if (this.before > 0 && this.before < this.count) {
      this.which = select([["", "new hits and old ones"], ["new", "new hits alone"]], "New hits", again);
      controls.append(this.which);
    }
    controls.append(this.told);
    place.replaceChildren(controls, this.head());
  }

  head() {
    const head = element("div", "row head");
    const columns = {players: "Game", event: "Event", newest: "Date", result: "Result", move: "Move", follows: "Goes on"};
    for (const [key, text] of Object.entries(columns)) {
      const button = element("button", "", text);
      button.type = "button";
      button.title = `Sort ${SORTS[key]}`;
      button.addEventListener("click", () => {
        this.sort.value = key === "newest" && this.sort.value === "newest" ? "oldest" : key;
        this.refresh();
      });
      head.append(button);
    }
    head.append(element("span", "", "How it lies"));
    return head;
  }

  // Whether a hit of a watched search wasn't told before.
  isNew(index) {
    return index >= (this.before ?? Infinity);
  }

  hit(index) {
    const [game, node, x, y, label, follows, move] = this.numbers.slice(index * WORDS, index * WORDS + WORDS);
    return {game, node, x, y, label, follows, move};
  }

  // Where a cell of the pattern lies in the turned rectangle.
  turnedCell(x, y, symmetry) {
    return symmetry < 4 ? moved(symmetry, this.width, this.height, x, y)
      : [[y, x], [y, this.width - 1 - x], [this.height - 1 - y, x], [this.height - 1 - y, this.width - 1 - x]][symmetry - 4];
  }

  // The games that have the text of the filter, or nothing where it is empty.
  matching() {
    const asked = this.filter.value.trim().toLowerCase();
    if (!asked) return null;
    const found = new Set();
    for (const [number, told] of Object.entries(data.games))
      if ([...told.slice(0, 6), told[FILE]].join("\n").toLowerCase().includes(asked)) found.add(Number(number));
    return found;
  }

  // For each game its place in the order that is asked for, or nothing where games aren't what counts.
  ranks(sort) {
    const text = {players: playersOf, event: told => told[EVENT], result: told => told[RESULT]}[sort];
    const day = told => (sort === "newest" ? -told[DAY] : told[DAY] || 99999999);
    const entries = Object.entries(data.games);
    if (!text) return new Map(entries.map(([number, told]) => [Number(number), day(told)]));
    const texts = entries.map(([number, told]) => [Number(number), text(told)]);
    const places = new Map([...new Set(texts.map(one => one[1]))].sort(collator.compare).map((one, i) => [one, i]));
    return new Map(texts.map(([number, one]) => [number, places.get(one)]));
  }

  keys() {
    const sort = this.sort.value, {numbers, count} = this, keys = new Float64Array(count);
    if (sort === "order") return keys;
    const column = {move: 6, follows: 5}[sort];
    const ranks = column ? null : this.ranks(sort);
    for (let i = 0; i < count; i++) {
      const key = column ? numbers[i * WORDS + column] : ranks.get(numbers[i * WORDS]) ?? Infinity;
      keys[i] = column && key < 0 ? Infinity : key;
    }
    return keys;
  }

  refresh() {
    const matching = this.matching(), follows = this.follows.value, order = [];
    for (let i = 0; i < this.count; i++) {
      if (matching && !matching.has(this.numbers[i * WORDS])) continue;
      if (this.which?.value === "new" && !this.isNew(i)) continue;
      if (follows !== "" && this.numbers[i * WORDS + 5] >> 1 !== Number(follows)) continue;
      order.push(i);
    }
    const keys = this.keys();
    // Infinity less itself is no number: what has no key stays in its order.
    order.sort((a, b) => (keys[a] === keys[b] ? a - b : keys[a] - keys[b]));
    this.order = order;
    this.told.textContent = order.length === this.count ? counted(this.count, "hit")
      : `${formatted(order.length)} of ${counted(this.count, "hit")}`;
    this.list.show(order.length);
  }

  row(index) {
    const {game, label, follows, move} = this.hit(index), told = data.games[game];
    const row = element("button", index === this.selected ? "row chosen" : "row");
    row.type = "button";
    row.disabled = !told;
    if (this.isNew(index)) row.classList.add("new");
    const cell = (name, text) => {
      const made = element("bdi", name, text);
      made.title = text;
      row.append(made);
    };
    cell("players", told ? playersOf(told) : `game ${game}`);
    if (this.isNew(index)) row.firstChild.prepend(element("span", "new-mark", "new"), " ");
    cell("event", told?.[EVENT] ?? "");
    cell("date", told?.[DATE] ?? "");
    cell("result", told?.[RESULT] ?? "");
    cell("move", move < 0 ? "" : `move ${move}`);
    cell("follows", follows < 0 ? "–" : `${this.letters[follows >> 1][0]} ${follows & 1 ? "later" : "at once"}`);
    cell("label", data.labels[label]);
    row.addEventListener("click", () => this.open(index));
    return row;
  }

  open(index) {
    viewer.openHit(this, index);
  }

  select(index) {
    const before = this.order.indexOf(this.selected), at = this.order.indexOf(index);
    this.selected = index;
    if (at >= 0) this.list.reveal(at);
    this.list.renew(before);
    this.list.renew(at);
  }

  pick(letter) {
    this.follows.value = this.follows.value === String(letter) ? "" : String(letter);
    this.refresh();
  }
}
