// Long lists: rows are made as they are looked at.

function element(name, className, ...children) {
  const made = document.createElement(name);
  if (className) made.className = className;
  made.append(...children);
  return made;
}

function formatted(number) {
  return number.toLocaleString("en");
}

function counted(count, what) {
  return `${formatted(count)} ${what}${count === 1 ? "" : "s"}`;
}

// Puts what is shown into the page's address. Browsers bear only so many changes of it in a time.
function setAddress(hash) {
  if (location.hash !== hash) history.replaceState(null, "", hash || " ");
}

// No element of a browser may be taller than some tens of millions of points. A longer list is scrolled
// in larger steps.
const TALLEST = 8000000;
// So many rows are shown without a scroll bar of their own, and so many are printed.
const SHORT = 15, PRINTED = 300;
// No screen shows more rows than this; a box without an upper bound of its height would want all of them.
const MOST_DRAWN = 400;

class LongList {
  // `rowHeight` tells the height of a row for a width, and `makeRow` makes the row of a number.
  constructor(place, rowHeight, makeRow, {short = SHORT, printed = PRINTED} = {}) {
    Object.assign(this, {short, printed});
    this.makeRow = makeRow;
    this.rowHeight = rowHeight;
    this.count = 0;
    // The rows that stand in the box, by their numbers.
    this.rows = new Map();
    this.space = element("div", "rows");
    this.box = element("div", "long-list", this.space);
    this.box.tabIndex = -1;
    place.append(this.box);
    this.box.addEventListener("scroll", () => this.draw(), {passive: true});
    // A sheet of paper has another width too, but there the rows are all made already.
    this.printing = false;
    new ResizeObserver(() => this.printing || this.layOut()).observe(this.box);
    addEventListener("beforeprint", () => this.print());
    addEventListener("afterprint", () => {
      this.printing = false;
      this.layOut();
    });
  }

  show(count) {
    this.count = count;
    this.box.scrollTop = 0;
    this.layOut();
  }

  // Makes all rows anew.
  layOut() {
    this.space.replaceChildren();
    this.rows.clear();
    this.height = this.rowHeight(this.box.clientWidth);
    this.whole = this.count * this.height;
    const tall = Math.min(this.whole, TALLEST);
    this.space.style.height = `${tall}px`;
    this.box.style.height = this.count <= this.short ? `${tall + 2}px` : "";
    this.draw();
  }

  // Where in the whole list the upper end of the box is.
  top() {
    const view = this.box.clientHeight, tall = Math.min(this.whole, TALLEST);
    if (this.whole <= TALLEST) return this.box.scrollTop;
    return this.box.scrollTop / (tall - view) * (this.whole - view);
  }

  draw() {
    const top = this.top(), first = Math.max(0, Math.floor(top / this.height) - 4);
    const end = Math.ceil((top + this.box.clientHeight) / this.height) + 4;
    const last = Math.min(this.count, end, first + MOST_DRAWN);
    const shift = this.box.scrollTop - top;
    for (const [i, row] of this.rows)
      if (i < first || i >= last) {
        row.remove();
        this.rows.delete(i);
      }
    for (let i = first; i < last; i++) {
      if (!this.rows.has(i)) {
        this.rows.set(i, this.makeRow(i));
        this.space.append(this.rows.get(i));
      }
      const row = this.rows.get(i);
      row.style.top = `${i * this.height + shift}px`;
      row.style.height = `${this.height}px`;
    }
  }

  // Makes one row anew, where it stands in the box.
  renew(i) {
    if (!this.rows.has(i)) return;
    this.rows.get(i).remove();
    this.rows.delete(i);
    this.draw();
  }

  reveal(index) {
    const view = this.box.clientHeight, at = index * this.height;
    if (at >= this.top() && at + this.height <= this.top() + view) return;
    const target = Math.max(0, at - view / 2);
    const tall = Math.min(this.whole, TALLEST);
    this.box.scrollTop = this.whole <= TALLEST ? target : target / (this.whole - view) * (tall - view);
    this.draw();
  }

  print() {
    this.printing = true;
    this.box.style.height = this.space.style.height = "";
    this.rows.clear();
    const rows = [];
    for (let i = 0; i < Math.min(this.count, this.printed); i++) {
      const row = this.makeRow(i);
      row.style.top = "";
      row.style.height = "";
      rows.push(row);
    }
    const more = this.count - this.printed;
    if (more > 0) rows.push(element("p", "", `${formatted(more)} more rows aren’t printed.`));
    this.space.replaceChildren(...rows);
  }
}
