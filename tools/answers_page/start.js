// The lists of the page, and what its buttons and addresses do.

// The players: sorted by a click on a column.
function makePlayers(place) {
  const players = data.players[place.dataset.players];
  let order = players.map((_, i) => i);
  const head = element("div", "row head player");
  const columns = [["Player", (a, b) => collator.compare(a[3], b[3])], ["Games", (a, b) => b[0] - a[0]],
    ["Won", (a, b) => b[1] - a[1]], ["Lost", (a, b) => b[2] - a[2]],
    ["Results", (a, b) => b[1] / b[0] - a[1] / a[0]]];
  const makeRow = i => {
    const [count, wins, losses, name] = players[order[i]];
    const bar = svg("svg", {class: "results", viewBox: "0 0 100 10", preserveAspectRatio: "none", "aria-hidden": "true"},
      svg("rect", {class: "neither", width: 100, height: 10}),
      svg("rect", {class: "share-part", width: 100 * wins / count, height: 10}),
      svg("rect", {class: "lost", x: 100 - 100 * losses / count, width: 100 * losses / count, height: 10}));
    const named = element("bdi", "", name);
    named.title = name;
    return element("div", "row player", named, element("span", "", formatted(count)),
      element("span", "", formatted(wins)), element("span", "", formatted(losses)), bar);
  };
  place.replaceChildren(head);
  const list = new LongList(place, () => 34, makeRow);
  for (const [text, compare] of columns) {
    const button = element("button", "", text);
    button.type = "button";
    button.addEventListener("click", () => {
      order.sort((a, b) => compare(players[a], players[b]) || a - b);
      list.show(order.length);
    });
    head.append(button);
  }
  list.show(order.length);
}

// A small board with the last position of a game's main line.
function makeSmallBoard(place) {
  const game = games.get(place.dataset.board);
  if (!game) return;
  const node = game.last(0), {move} = game.nodes[node];
  place.append(boardSvg(new View(game, 0), game.position(node), {last: move ? move.point : null}));
}

const lists = new Map();
for (const place of document.querySelectorAll(".hits")) {
  const hits = new Hits(place);
  lists.set(hits.line, hits);
  for (const button of place.parentElement.querySelectorAll(".pick"))
    button.addEventListener("click", () => hits.pick(Number(button.dataset.letter)));
}
document.querySelectorAll(".player-list").forEach(makePlayers);
document.querySelectorAll(".small-board").forEach(makeSmallBoard);
for (const button of document.querySelectorAll(".open"))
  button.addEventListener("click", () =>
    viewer.openGame(Number(button.dataset.game), {signature: button.closest(".games") !== null}));
for (const button of document.querySelectorAll(".all-rows"))
  button.addEventListener("click", () => {
    button.previousElementSibling.classList.add("whole");
    button.remove();
  });

for (const place of document.querySelectorAll(".opening")) {
  const opening = new Opening(place);
  lists.set(opening.line, opening);
}

// The address `#12.3` opens the third hit of the search in line 12, or the third position of the opening tree.
function openAddress() {
  const match = /^#(\d+)\.(\d+)$/.exec(location.hash), list = match && lists.get(Number(match[1]));
  if (list && Number(match[2]) >= 1 && Number(match[2]) <= list.count) list.open(Number(match[2]) - 1);
}

viewer.listen();
addEventListener("hashchange", openAddress);
openAddress();
document.documentElement.dataset.ready = "true";
