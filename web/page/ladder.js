// SPDX-License-Identifier: MIT
/** The ladder: a line for each host, time downwards, a row for each event. Only the visible rows are drawn. */
// A row has room for two lines of words, and on a narrow screen for three. Below the last row is room for the controls of a message in flight.
const LINES = matchMedia("(max-width: 640px)").matches ? 3 : 2, ROW = LINES * 14, BELOW = 2, MARGIN = 24, OVERSCAN = 8;
// The minimal visible width of the words of a row: between many hosts the ladder is scrolled sideways for them.
const WORDS = 160;

/** The picture of some events as the content of an SVG, from the height of the first of them. */
class Picture {
  constructor(run, width, at) {
    this.run = run;
    this.width = width;
    this.at = at;
  }

  column(host) {
    const gaps = Math.max(this.run.hosts.length - 1, 1);
    return MARGIN + host * (this.width - 2 * MARGIN) / gaps;
  }

  rows(first, last) {
    const height = event => (event - first + 0.5) * ROW;
    const bottom = (last - first + 1) * ROW;
    const lines = this.run.hosts.map((_, host) => markup`<line class="host" x1="${this.column(host)}" x2="${this.column(host)}" y1="0" y2="${bottom}"/>`);
    const shown = Math.min(last, this.at);
    const messages = this.run.seen(first, shown).map(it => this.#message(it, height));
    const events = [];
    for (let event = first; event <= shown; event++) events.push(this.#event(event, height(event)));
    return [...lines, ...messages, ...events];
  }

  /** How far a message has got: to the other host if it was delivered, else part of the way. */
  tip(message) {
    const [x1, x2] = [this.column(message.from), this.column(message.to)];
    const hasEnded = message.end !== null && message.end <= this.at;
    const fate = hasEnded ? message.fate : "underway";
    const part = fate === "deliver" ? 1 : fate === "underway" ? 0.5 : 0.8;
    return { fate, x: x1 + part * (x2 - x1), event: hasEnded ? message.end : Math.max(this.at, message.event) };
  }

  #message(message, height) {
    const { fate, x, event } = this.tip(message), [x1, y1, y2] = [this.column(message.from), height(message.event), height(event) + (event === message.event ? ROW / 2 : 0)];
    const kind = Picture.kind(message);
    const angle = Math.atan2(y2 - y1, x - x1) * 180 / Math.PI;
    const arrow = markup`<line x1="${x1}" y1="${y1}" x2="${x}" y2="${y2}"/><path d="${Picture.MARKS[fate]}" transform="translate(${x} ${y2}) rotate(${angle})"/>`;
    return markup`<g class="message ${kind} ${fate}">${arrow}<text x="${(x1 + x) / 2}" y="${(y1 + y2) / 2 - 5}" text-anchor="middle">${Picture.label(message)}</text></g>`;
  }

  static kind(message) {
    return message.link === 0 ? "control" : "text";
  }

  static label(message) {
    return (message.words.map(it => it.split(" ")[0]).join(" ") || Picture.kind(message)).slice(0, 24);
  }

  #event(event, y) {
    const answer = this.run.answers.get(event);
    if (answer) {
      const [x1, x2] = [this.column(answer.to), this.column(answer.from)];
      const arrow = markup`<line x1="${x1}" y1="${y}" x2="${x2}" y2="${y}"/><path d="${Picture.MARKS.deliver}" transform="translate(${x2} ${y}) rotate(${x2 < x1 ? 180 : 0})"/>`;
      return markup`<g class="answer">${arrow}<text x="${(x1 + x2) / 2}" y="${y - 4}" text-anchor="middle">${answer.words}</text></g>`;
    }
    const [, name, ...words] = this.run.lines(event).split("\n")[0].split(" ");
    const host = this.run.hosts.findIndex(it => it.name === name);
    const refused = words.includes("refused") ? " refused" : "";
    return host < 0 ? "" : markup`<circle class="event${refused}" cx="${this.column(host)}" cy="${y}" r="4"/>`;
  }

  static MARKS = {
    deliver: "M0 0 L-8 -4 L-8 4 Z", lose: "M-5 -5 L5 5 M-5 5 L5 -5", dead: "M0 -7 L0 7", underway: "M-3 0 a3 3 0 1 0 6 0 a3 3 0 1 0 -6 0",
  };
}

class Ladder {
  /** `on` has the handlers for choosing a row, moving it, and clicking on a message in flight. */
  constructor(box, heads, on) {
    this.box = box;
    this.heads = heads;
    this.on = on;
    this.sheet = box.querySelector(".sheet");
    this.run = null;
    this.at = 0;
    this.drag = null;
    box.style.setProperty("--lines", LINES);
    box.addEventListener("scroll", () => {
      heads.style.setProperty("--scrolled", `${box.scrollLeft}px`);
      this.#soon();
    });
    new ResizeObserver(() => this.#soon()).observe(box);
    box.addEventListener("click", event => this.#click(event));
    box.addEventListener("pointerdown", event => this.#grab(event));
    box.addEventListener("pointermove", event => this.#carry(event));
    box.addEventListener("pointerup", event => this.#drop(event));
    box.addEventListener("pointercancel", () => this.#letGo());
  }

  show(run, at) {
    const isNew = run !== this.run;
    this.run = run;
    this.at = at;
    this.underway = run.seen(Math.max(at, 1), Math.max(at, 1)).filter(it => it.event <= at && (it.end === null || it.end > at));
    this.#fit();
    if (isNew) this.box.scrollTop = 0;
    this.reveal(at);
    this.draw();
  }

  /** Called when there are more events than before. */
  grow() {
    this.#fit();
    this.#soon();
  }

  /** The height of all rows, with room for the controls below the row that is shown. */
  #fit() {
    this.sheet.style.height = `${Math.max(this.run.length + BELOW, this.at + this.underway.length + 1) * ROW}px`;
  }

  reveal(event) {
    const top = (event - 1) * ROW, below = (Math.max(this.underway.length, 1) + 2) * ROW, { scrollTop, clientHeight } = this.box;
    if (top < scrollTop + ROW) this.box.scrollTop = Math.max(0, top - 2 * ROW);
    else if (top + below > scrollTop + clientHeight) this.box.scrollTop = Math.min(top, top + below - clientHeight);
  }

  get width() {
    const wanted = 150 + 70 * Math.max(this.run.hosts.length - 2, 0);
    return Math.min(wanted + 60, Math.max(wanted, 0.45 * this.box.clientWidth), Math.max(0.5 * this.box.clientWidth, 60 * this.run.hosts.length));
  }

  #soon() {
    if (this.waits || !this.run) return;
    this.waits = true;
    requestAnimationFrame(() => { this.waits = false; this.draw(); });
  }

  draw() {
    const { run, at, box } = this;
    const first = Math.max(1, Math.floor(box.scrollTop / ROW) + 1 - OVERSCAN);
    const last = Math.min(run.length, Math.ceil((box.scrollTop + box.clientHeight) / ROW) + OVERSCAN);
    const width = this.width, picture = new Picture(run, width, at), shown = [run, run.length, at, first, last, width];
    // Rows already drawn are kept, so that nothing changes below a finger.
    if (shown.every((it, each) => it === this.shown?.[each])) return;
    this.shown = shown;
    this.sheet.style.minWidth = `${width + WORDS}px`;
    draw(this.heads, markup`${run.hosts.map((it, host) => markup`<span data-place="left:${picture.column(host)}px">${run.isMany ? `host ${it.number}` : `${it.name} (${it.number})`}</span>`)}`);
    const rows = [];
    for (let event = first; event <= last; event++) rows.push(this.#row(event, width));
    const height = Math.max(last - first + 1, 0) * ROW;
    const drawing = last < first ? "" : markup`<svg class="picture" aria-hidden="true" width="${width}" height="${height}" data-place="top:${(first - 1) * ROW}px">${picture.rows(first, last)}</svg>`;
    draw(this.sheet, markup`${drawing}${rows}${this.#tips(picture)}`);
    if (at > 0) box.setAttribute("aria-activedescendant", `event-${at}`); else box.removeAttribute("aria-activedescendant");
  }

  #row(event, width) {
    const [line, ...details] = this.run.lines(event).split("\n");
    const [number, ...words] = line.split(" ");
    const more = details.map(it => it.trim()).filter(it => !it.startsWith("size=") && !it.startsWith("ledger")).join("; ");
    const state = event === this.at ? " now" : event > this.at ? " later" : "";
    const refused = words.includes("refused") ? " refused" : "";
    const parts = markup`<span class="grip" title="drag to another place">⠿</span><span class="number">${number}</span><span class="words">${words.join(" ")}${more ? markup` <i>${more}</i>` : ""}</span>`;
    return markup`<div role="option" id="event-${event}" class="row${state}${refused}" data-event="${event}" aria-selected="${event === this.at}" aria-posinset="${event}" aria-setsize="${this.run.length}" data-place="top:${(event - 1) * ROW}px;padding-left:${width}px">${parts}</div>`;
  }

  /** Next to each message in flight, the controls for what can happen to it. */
  #tips(picture) {
    const isOne = this.underway.length === 1;
    return this.underway.map((message, each) => {
      const { x } = picture.tip(message), name = `${this.run.hosts[message.from].name} to ${this.run.hosts[message.to]?.name}, link ${message.link}`;
      const buttons = [["deliver", "✓"], ["lose", "✗"], ["dead", "†"]].map(([move, sign]) =>
        markup`<button class="move ${move}" tabindex="-1" data-move="${move}" data-from="${message.from}" data-to="${message.to}" data-link="${message.link}" title="${move} (${name})" aria-label="${move} the message from ${name}">${sign}</button>`);
      return markup`<div class="tip" data-place="top:${(this.at + 0.15 + each) * ROW}px;left:${Math.max(0, x - 36)}px">${buttons}${isOne ? "" : markup`<span class="${Picture.kind(message)}">${Picture.label(message)}</span>`}</div>`;
    });
  }

  #eventAt(pointer) {
    const y = pointer.clientY - this.box.getBoundingClientRect().top + this.box.scrollTop;
    return Math.min(Math.max(Math.floor(y / ROW) + 1, 1), this.run.length);
  }

  #click(event) {
    const move = event.target.closest("[data-move]"), row = event.target.closest("[data-event]");
    if (move) {
      const { move: verb, from, to, link } = move.dataset;
      this.on.move(verb, Number(from), Number(to), Number(link));
    } else if (row && !event.target.closest(".grip")) {
      this.on.choose(Number(row.dataset.event));
    }
  }

  #grab(event) {
    const grip = event.target.closest(".grip");
    if (!grip) return;
    event.preventDefault();
    this.drag = { from: Number(grip.closest("[data-event]").dataset.event) };
    this.drag.to = this.drag.from;
    this.box.setPointerCapture(event.pointerId);
    this.box.classList.add("dragging");
  }

  #carry(event) {
    if (!this.drag) return;
    this.drag.to = this.#eventAt(event);
    for (const row of this.sheet.querySelectorAll(".row")) row.classList.toggle("target", Number(row.dataset.event) === this.drag.to);
  }

  #drop(event) {
    if (!this.drag) return;
    const { from } = this.drag, to = this.#eventAt(event);
    this.#letGo();
    if (from !== to) this.on.drag(from, to);
  }

  #letGo() {
    this.drag = null;
    this.box.classList.remove("dragging");
    for (const row of this.sheet.querySelectorAll(".target")) row.classList.remove("target");
  }

  /** The whole ladder up to now as a standalone picture. */
  svg(style) {
    const width = 220 + 90 * Math.max(this.run.hosts.length - 2, 0), picture = new Picture(this.run, width, this.at), height = (this.at + 2) * ROW;
    const heads = this.run.hosts.map((it, host) => markup`<text class="name" x="${picture.column(host)}" y="16" text-anchor="middle">${it.name} (${it.number})</text>`);
    const words = Array.from({ length: this.at }, (_, each) => markup`<text x="${width + 10}" y="${(each + 1.6) * ROW}">${this.run.lines(each + 1).split("\n")[0]}</text>`);
    return markup`<svg xmlns="http://www.w3.org/2000/svg" width="${width + 640}" height="${height}"><style>${style}</style>${heads}<g transform="translate(0 ${ROW})">${this.at ? picture.rows(1, this.at) : ""}</g>${words}</svg>`.text;
  }
}
