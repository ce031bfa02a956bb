// SPDX-License-Identifier: MIT
/** The lines that the module wrote for a script, event by event, and the messages in them. */
const KINDS = ["call", "out", "deliver", "lose", "dead", "answer"];
const MOVES = new Set(KINDS.slice(2));

class Run {
  /** A script has hosts only if the module has opened it. */
  constructor(script, isOpen) {
    this.script = script;
    this.hosts = isOpen ? script.hosts() : [];
    this.isMany = script.isMany;
    this.events = [];
    this.ends = [0];
    this.messages = [];
    this.answers = new Map();
    this.links = new Map();
    this.pairs = new Map();
    this.blocks = [];
    this.last = new Map();
    this.hasRefused = false;
  }

  static BLOCK = 64;

  get length() {
    return this.events.length;
  }

  /** All lines of an event; events are numbered from 1. */
  lines(event) {
    return this.events[event - 1];
  }

  /** The line of the script that caused an event: all those of a `settle` have the same. */
  lineOf(event) {
    let [low, high] = [0, this.ends.length];
    while (low < high) {
      const middle = (low + high) >> 1;
      if (this.ends[middle] < event) low = middle + 1; else high = middle;
    }
    return low;
  }

  /** The last event of a line of the script; Infinity if the line has not ended yet. */
  lastOf(line) {
    return this.ends[line] ?? Infinity;
  }

  /** Takes the lines of all events: a line of details begins with a space. */
  addAll(text) {
    for (const lines of text.split(/\n(?! )/)) if (lines) this.add(lines);
  }

  /** Takes the lines of the next event. */
  add(lines) {
    const [line, ...details] = lines.split("\n");
    if (this.length % Run.BLOCK === 0) this.blocks.push([...this.last.values()].filter(it => it.end === null));
    this.events.push(lines);
    if (!this.script.isSettle(this.ends.length) || /^\d+ settle \d+$/.test(line)) this.ends.push(this.length);
    this.hasRefused ||= line.includes(" refused ");
    this.#readEvent(line.split(" "));
    for (const it of details) this.#readDetail(it.slice(2));
  }

  #column(name) {
    return this.hosts.findIndex(it => it.name === name);
  }

  #readEvent([number, name, verb, ...rest]) {
    const event = this.length, { last } = this, from = this.#column(name);
    this.went = null;
    if (verb === "out" && rest[0] !== "nothing") {
      const [to, link] = [Number(rest[0].slice(5)), Number(rest[1].slice(5))];
      this.went = { event, from, to: this.hosts.findIndex(it => it.number === to), link, fate: "underway", end: null, words: [] };
      const key = `${from} ${this.went.to} ${link}`;
      last.set(key, this.went);
      this.links.set(key, { from, to: this.went.to, link });
      this.messages.push(this.went);
    } else if (MOVES.has(verb) && rest.at(-1) !== "nothing") {
      const to = this.isMany ? this.#column(rest.shift()) : 1 - from, link = Number(rest.shift());
      const message = last.get(`${from} ${to} ${link}`);
      if (verb === "answer") this.answers.set(event, { from, to, link, words: rest.join(" ") });
      else if (message) Object.assign(message, { fate: verb, end: event, outcome: rest.join(" ") });
    }
  }

  #readDetail(words) {
    if (this.went && !/^(size=|ledger)/.test(words)) this.went.words.push(words);
    const asked = /^(?:RTS receive=(\d+) send=(\d+)|STR send=(\d+) receive=(\d+))/.exec(words);
    if (asked && this.went) this.addPair(this.went.from, this.went.to, asked[1] ?? asked[3], asked[2] ?? asked[4]);
  }

  /** Notes two sockets that may be a connection, as either host names it. */
  addPair(from, to, local, remote) {
    this.pairs.set(`${from} ${to} ${local} ${remote}`, { from, to, local: Number(local), remote: Number(remote) });
    this.pairs.set(`${to} ${from} ${remote} ${local}`, { from: to, to: from, local: Number(remote), remote: Number(local) });
  }

  /** The pairs that users ask for, by the lines of the script. */
  addAsked() {
    for (const [, name, words] of this.script.text.matchAll(/^(\S+) ask-(?:send|receive) ([^\r\n]*)/gm)) {
      const rest = words.split(" "), from = this.#column(name), to = this.isMany ? this.#column(rest.shift()) : 1 - from;
      if (from >= 0 && to >= 0 && rest.length > 1) this.addPair(from, to, rest[0], rest[1]);
    }
  }

  /** The messages that are visible during these events. */
  seen(first, last) {
    const block = Math.floor((first - 1) / Run.BLOCK), found = [...(this.blocks[block] ?? [])];
    for (let at = this.#firstFrom(block * Run.BLOCK + 1); at < this.messages.length && this.messages[at].event <= last; at++) found.push(this.messages[at]);
    return found.filter(it => it.event <= last && (it.end ?? Infinity) >= first);
  }

  #firstFrom(event) {
    let [low, high] = [0, this.messages.length];
    while (low < high) {
      const middle = (low + high) >> 1;
      if (this.messages[middle].event < event) low = middle + 1; else high = middle;
    }
    return low;
  }
}
