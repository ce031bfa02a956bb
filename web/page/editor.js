// SPDX-License-Identifier: MIT
/**
 * The script editor. The box holds only some hundred lines of a long script, and loads others when the user scrolls to
 * the end of these. A line wider than the box is wrapped.
 */
const ROW_HEIGHT = 20, LONGEST_WHOLE = 2000, SHOWN = 600;
// A line of at most this many plain letters takes one row, however narrow the box is.
const LETTERS_OF_A_ROW = 20;

class Editor {
  /** `on` has the handlers for a change of the text and for the choice of a line. */
  constructor(box, numbers, now, on) {
    this.box = box;
    this.numbers = numbers;
    this.nowLine = now;
    this.lines = [""];
    this.first = 1;
    this.count = 1;
    this.now = 1;
    this.fault = null;
    this.isQuiet = false;
    this.ruler = box.parentElement.appendChild(Object.assign(document.createElement("div"), { className: "ruler" }));
    this.wrapped = { text: null, width: 0, rows: [0, 1] };
    box.addEventListener("input", () => { if (!this.isQuiet) on.change(); });
    box.addEventListener("scroll", () => this.#scrolled());
    // When a fault or a scroll bar disappears, there is room for more lines.
    new ResizeObserver(() => this.draw()).observe(box);
    box.addEventListener("dblclick", () => on.choose(this.first - 1 + box.value.slice(0, box.selectionStart).split("\n").length));
  }

  get isWhole() {
    return this.count === this.lines.length;
  }

  /** The number of rows above each line in the box, and the total. */
  get rows() {
    const { value: text, clientWidth: width } = this.box, { wrapped } = this;
    if (text !== wrapped.text || width !== wrapped.width) this.wrapped = { text, width, rows: this.#wrap(text.split("\n"), width) };
    return this.wrapped.rows;
  }

  /** Wraps lines. Long ones are measured in a block as wide as the box. */
  #wrap(lines, width) {
    const { paddingLeft, paddingRight } = getComputedStyle(this.box), rows = [0];
    const long = [...new Set(lines.filter(it => it.length > LETTERS_OF_A_ROW || /[^ -~]/.test(it)))];
    this.ruler.style.width = `${width - parseFloat(paddingLeft) - parseFloat(paddingRight)}px`;
    this.ruler.replaceChildren(...long.map(it => Object.assign(document.createElement("div"), { textContent: it })));
    const counts = new Map(long.map((it, each) => [it, Math.max(1, Math.round(this.ruler.children[each].offsetHeight / ROW_HEIGHT))]));
    this.ruler.replaceChildren();
    for (const line of lines) rows.push(rows.at(-1) + (counts.get(line) ?? 1));
    return rows;
  }

  /** The offset of a line in the box from the top of the text; one after the last begins where that ends. */
  #topOf(number) {
    const { rows } = this;
    return rows[Math.min(Math.max(number - this.first, 0), rows.length - 1)] * ROW_HEIGHT;
  }

  /** The line in the box at this offset from the top of the text. */
  #lineAt(height) {
    const { rows } = this;
    let [low, high] = [0, rows.length - 2];
    while (low < high) {
      const middle = (low + high + 1) >> 1;
      if (rows[middle] * ROW_HEIGHT <= height) low = middle; else high = middle - 1;
    }
    return this.first + low;
  }

  /** The whole text, with the user's edits. */
  get text() {
    if (this.isWhole) return this.box.value;
    return [...this.lines.slice(0, this.first - 1), this.box.value, ...this.lines.slice(this.first - 1 + this.count)].join("\n");
  }

  /** Sets the text. The box is left unchanged if its lines are the same. */
  show(text) {
    const lines = text.split("\n"), isWhole = lines.length <= LONGEST_WHOLE;
    const first = isWhole ? 1 : Math.min(this.first, lines.length), count = isWhole ? lines.length : Math.min(SHOWN, lines.length - first + 1);
    this.lines = lines;
    this.#put(first, count);
  }

  #put(first, count) {
    const text = this.lines.slice(first - 1, first - 1 + count).join("\n");
    this.first = first;
    this.count = count;
    if (this.box.value !== text) this.box.value = text;
  }

  /** Replaces the text, as if typed if possible, so that the browser can undo it. */
  replace(text) {
    const { box } = this, { activeElement } = document;
    if (!this.isWhole || text.length > LONGEST_WHOLE * LETTERS_OF_A_ROW) return this.show(text);
    this.isQuiet = true;
    box.focus({ preventScroll: true });
    box.select();
    if (!document.execCommand("insertText", false, text)) box.value = text;
    this.isQuiet = false;
    activeElement.focus({ preventScroll: true });
  }

  /** Marks the current line, and scrolls to it unless the user is typing. */
  mark(number) {
    this.now = number;
    if (document.activeElement !== this.box) {
      if (!this.isWhole && (number < this.first || number >= this.first + this.count)) this.#move(number - SHOWN / 2);
      const [top, bottom] = [number, number + 1].map(it => this.#topOf(it)), { scrollTop, clientHeight } = this.box;
      if (top < scrollTop || bottom + ROW_HEIGHT > scrollTop + clientHeight) this.box.scrollTop = Math.max(0, top - clientHeight / 2);
    }
    this.draw();
  }

  /** Loads other lines of a long text, from about this one on. */
  #move(first) {
    this.#put(Math.min(Math.max(1, Math.floor(first)), Math.max(1, this.lines.length - SHOWN + 1)), Math.min(SHOWN, this.lines.length));
  }

  #scrolled() {
    const { scrollTop, clientHeight, scrollHeight } = this.box, was = this.first, line = this.#lineAt(scrollTop), below = scrollTop - this.#topOf(line);
    const isTyped = !this.isWhole && this.box.value.split("\n").length !== this.count;
    if (!this.isWhole && !isTyped) {
      if (scrollTop < ROW_HEIGHT && this.first > 1) this.#move(this.first - SHOWN / 2);
      else if (scrollTop + clientHeight > scrollHeight - ROW_HEIGHT && this.first + this.count <= this.lines.length) this.#move(this.first + SHOWN / 2);
      if (this.first !== was) this.box.scrollTop = this.#topOf(line) + below;
    }
    this.draw();
  }

  /** The numbers of the lines in sight, and the mark. */
  draw() {
    const { scrollTop, clientHeight } = this.box, first = this.#lineAt(scrollTop), last = this.#lineAt(scrollTop + clientHeight);
    const numbers = Array.from({ length: last - first + 1 }, (_, each) => this.#numberHtml(first + each));
    this.numbers.style.transform = `translateY(${this.#topOf(first) - scrollTop}px)`;
    draw(this.numbers, markup`${numbers}`);
    this.nowLine.style.height = `${this.#heightOf(this.now)}px`;
    this.nowLine.style.transform = `translateY(${this.#topOf(this.now) - scrollTop}px)`;
  }

  #heightOf(number) {
    return this.#topOf(number + 1) - this.#topOf(number);
  }

  #numberHtml(number) {
    return markup`<span class="${number === this.fault ? "refused" : ""}" data-place="height:${this.#heightOf(number)}px">${number}</span>`;
  }
}
