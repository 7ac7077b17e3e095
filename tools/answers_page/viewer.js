// The board beside the answers, or over them on a narrow screen.

const part = id => document.getElementById(id);
const NEXT_MOVES = 10;

// What is looked at: a game, a node of it, perhaps a hit with its list, marks of a signature, and by which label
// the board can be turned.
const viewer = {
  number: -1, game: null, node: 0, hit: null, turned: false, signature: false, label: 0,

  openHit(list, index) {
    const hit = list.hit(index);
    const game = games.get(hit.game);
    if (!game) return;
    Object.assign(this, {number: hit.game, game, node: Math.min(hit.node, game.nodes.length - 1), signature: false,
      label: hit.label, hit: {...hit, list, index}});
    setAddress(`#${list.line}.${index + 1}`);
    this.open();
    list.select(index);
  },

  openGame(number, {signature = false, node = 0, label = 0} = {}) {
    const game = games.get(number);
    if (!game) return;
    const at = signature ? game.last(0) : Math.min(node, game.nodes.length - 1);
    this.hit?.list.select(-1);
    Object.assign(this, {number, game, node: at, hit: null, turned: false, signature, label});
    this.open();
  },

  open() {
    part("viewer").hidden = false;
    document.body.classList.add("viewing");
    this.draw();
  },

  close() {
    part("viewer").hidden = true;
    document.body.classList.remove("viewing");
    this.hit?.list.select(-1);
    this.game = null;
    setAddress("");
  },

  go(node) {
    if (node === undefined || node < 0) return;
    this.node = node;
    this.draw();
  },

  // The hit before or behind this one, as the list is sorted.
  step(by) {
    if (!this.hit) return;
    const {list, index} = this.hit, at = list.order.indexOf(index) + by;
    if (at >= 0 && at < list.order.length) this.openHit(list, list.order[at]);
  },

  placement() {
    const {hit} = this;
    if (!hit || hit.list.width === 0) return null;
    const across = hit.label % 8 >= 4;
    return {x: hit.x, y: hit.y, width: across ? hit.list.height : hit.list.width,
      height: across ? hit.list.width : hit.list.height};
  },

  // The hit's continuation on its point, at the nodes before it is played.
  marks() {
    const {hit, game, node} = this;
    if (this.signature) return this.signatureMarks();
    if (!hit || hit.follows < 0 || node !== hit.node || hit.list.width === 0) return [];
    const [text, colour, x, y] = hit.list.letters[hit.follows >> 1];
    const [dx, dy] = hit.list.turnedCell(x, y, hit.label % 8);
    const stone = (colour === "B") !== (hit.label >= 8) ? BLACK : WHITE;
    return [{point: (hit.y + dy) * game.columns + hit.x + dx, text, colour: stone}];
  },

  signatureMarks() {
    const {game} = this, marks = new Map();
    for (const node of game.path(game.last(0))) {
      const {move, number} = game.nodes[node];
      if (move && move.point !== null && [20, 31, 40, 51, 60, 71].includes(number))
        marks.set(move.point, {point: move.point, text: String(number), colour: move.colour});
    }
    return [...marks.values()];
  },

  draw() {
    const {game, node, hit} = this, {move} = game.nodes[node];
    const view = new View(game, this.turned ? this.label : 0);
    const last = move ? move.point : null;
    Object.assign(part("viewer-board").dataset, {game: this.number, node});
    part("viewer-board").replaceChildren(boardSvg(view, game.position(node),
      {placement: this.placement(), last, marks: this.marks()}));
    this.drawWords();
    this.drawVariations();
    this.drawNext();
    part("viewer-turn").hidden = this.label === 0;
    part("as-pattern").textContent = hit ? "Turned as drawn" : "Turned as the position";
    part("as-game").setAttribute("aria-pressed", String(!this.turned));
    part("as-pattern").setAttribute("aria-pressed", String(this.turned));
    part("step-hit").hidden = !hit;
    part("step-back").disabled = part("step-start").disabled = game.nodes[node].parent < 0;
    part("step-on").disabled = part("step-end").disabled = game.nodes[node].children.length === 0;
  },

  drawWords() {
    const {game, node, hit} = this, told = data.games[this.number];
    part("viewer-players").textContent = playersOf(told);
    part("viewer-facts").textContent = [told[2], told[3], told[4], told[5], told[7]].filter(Boolean).join(" · ");
    let where = node === 0 && !game.nodes[0].move ? "The start of the game" : `Move ${game.nodeWords(node)}`;
    if (!game.nodes[node].move && node > 0) where = game.nodeWords(node);
    if (hit && node === hit.node) where += ": here the pattern begins to hold.";
    part("viewer-where").textContent = where;
    const isNew = hit && hit.list.isNew(hit.index) ? ` New since line ${hit.list.since} of the script.` : "";
    part("viewer-label").textContent = hit ? `How the pattern lies: ${data.labels[hit.label]}.${isNew}` : "";
    part("viewer-hits").hidden = !hit;
    if (hit)
      part("hit-count").textContent =
        `${formatted(hit.list.order.indexOf(hit.index) + 1)} of ${formatted(hit.list.order.length)}`;
  },

  nodeButton(node, text) {
    const made = element("button", "", text);
    made.type = "button";
    made.addEventListener("click", () => this.go(node));
    return made;
  },

  // Where the game branches: here, or at the node before.
  drawVariations() {
    const {game, node} = this, {parent, children} = game.nodes[node];
    const siblings = parent >= 0 ? game.nodes[parent].children : [];
    const lines = [];
    if (siblings.length > 1) {
      const others = siblings.filter(one => one !== node);
      lines.push(element("p", "chips", "In place of this: ", ...others.map(one => this.nodeButton(one, game.nodeWords(one)))));
    }
    if (children.length > 1)
      lines.push(element("p", "chips", "Variations: ", ...children.map(one => this.nodeButton(one, game.nodeWords(one)))));
    part("viewer-variations").replaceChildren(...lines);
  },

  drawNext() {
    const {game, node} = this;
    const next = game.following(node, NEXT_MOVES);
    const line = element("p", "chips", next.length ? "Next: " : "The game ends here.");
    line.append(...next.map(one => this.nodeButton(one, game.nodeWords(one))));
    part("viewer-next").replaceChildren(line);
  },

  key(event) {
    if (!this.game || event.target.matches("input, select") || event.ctrlKey || event.metaKey || event.altKey) return;
    const steps = {
      ArrowLeft: () => this.go(this.game.nodes[this.node].parent),
      ArrowRight: () => this.go(this.game.nodes[this.node].children[0]),
      Home: () => this.go(0),
      End: () => this.go(this.game.last(this.node)),
      ArrowUp: () => this.step(-1),
      ArrowDown: () => this.step(1),
      Escape: () => this.close(),
      h: () => this.go(this.hit?.node),
    };
    if (!steps[event.key]) return;
    event.preventDefault();
    steps[event.key]();
  },

  listen() {
    const on = (id, act) => part(id).addEventListener("click", act);
    on("viewer-close", () => this.close());
    on("step-start", () => this.go(0));
    on("step-back", () => this.go(this.game.nodes[this.node].parent));
    on("step-hit", () => this.go(this.hit?.node));
    on("step-on", () => this.go(this.game.nodes[this.node].children[0]));
    on("step-end", () => this.go(this.game.last(this.node)));
    on("hit-before", () => this.step(-1));
    on("hit-behind", () => this.step(1));
    const turn = turned => { this.turned = turned; this.draw(); };
    on("as-game", () => turn(false));
    on("as-pattern", () => turn(true));
    addEventListener("keydown", event => this.key(event));
  },
};
