// SPDX-License-Identifier: MIT
/**
 * The module, made from the proved crate `ncp_web`. It takes and returns bytes: nothing here knows the protocol, and no
 * line is composed here.
 */
const ANSWER = { DONE: 0, BAD: 1, FAULT: 2, NO_MEMORY: 3, NO_SESSION: 4, NO_LINE: 5, FULL: 6, NOTHING: 7, GOES_ON: 8 };

/** The state of the last message on a link, by the number that the module returns. */
const FATES = ["free", "underway", "delivered", "lost", "dead"];

/** Maximal sizes in bytes: the lines of one event, a message, a struct, and others. */
const ROOM = { event: 1 << 16, message: 1024, words: 4096, struct: 16 };

/** The structs that are passed to the module besides bytes: their fields in order, each with its size in bytes. */
const STRUCTS = {
  Modes: { part: 1, standard: 1, coverage: 1 },
  Queued: { host: 1, peer: 1, place: 4 },
  LinkBetween: { host: 1, peer: 1, link: 1 },
  Sender: { host: 1, peer: 1, local: 4, remote: 4 },
};

const decoder = new TextDecoder(), encoder = new TextEncoder();
const asText = bytes => decoder.decode(bytes);
const asBytes = text => encoder.encode(text);

/** Decodes base 64. */
function unpacked(text) {
  const letters = atob(text), bytes = new Uint8Array(letters.length);
  for (let at = 0; at < letters.length; at++) bytes[at] = letters.charCodeAt(at);
  return bytes;
}

/** Allocation failed in the module; the call had no effect. */
class NoMemory extends Error {
  constructor() {
    super("the module has no memory left");
  }
}

/** Handles an error: runs the fallback on an allocation failure, and rethrows any other error. */
const ifLacking = otherwise => error => {
  if (error instanceof NoMemory) return otherwise();
  throw error;
};

/** Runs an action, or a fallback if allocation fails. */
function orLacking(act, otherwise) {
  try {
    return act();
  } catch (error) {
    return ifLacking(otherwise)(error);
  }
}

class Module {
  static async load(code) {
    const { instance } = await WebAssembly.instantiate(code, {});
    return new Module(instance.exports);
  }

  constructor(exports) {
    this.exports = exports;
    this.lengths = this.room(16);
    this.words = this.room(ROOM.words);
    this.struct = this.room(ROOM.struct);
  }

  /** Allocates in the module's memory, and returns the address. */
  room(bytes) {
    const at = this.exports.web_alloc(BigInt(Math.max(bytes, 1)));
    if (!at) throw new NoMemory();
    return Number(at);
  }

  free(...rooms) {
    for (const at of rooms) this.exports.web_free(BigInt(at));
  }

  /** A view of the memory now: it may move whenever the module allocates. */
  get memory() {
    return new Uint8Array(this.exports.memory.buffer);
  }

  /** Runs an action with buffers of these sizes, and frees them afterwards, even if it throws. */
  lending(sizes, act) {
    const rooms = [];
    try {
      for (const it of sizes) rooms.push(this.room(it));
      return act(...rooms);
    } finally {
      this.free(...rooms);
    }
  }

  /** Writes bytes to an address. */
  put(bytes, at) {
    this.memory.set(bytes, at);
  }

  read(at, length) {
    return this.memory.slice(at, at + length);
  }

  number(at) {
    return Number(new DataView(this.exports.memory.buffer).getBigUint64(at, true));
  }

  /** Lays out a struct, each field aligned to its size, and returns its address. The next struct overwrites it. */
  lend(name, fields) {
    const view = new DataView(this.exports.memory.buffer, this.struct, ROOM.struct);
    let at = 0;
    for (const [field, bytes] of Object.entries(STRUCTS[name])) {
      at = Math.ceil(at / bytes) * bytes;
      if (bytes === 1) view.setUint8(at, fields[field]);
      else view.setUint32(at, fields[field], true);
      at += bytes;
    }
    return this.struct;
  }

  /** The modes of a function, by name: a single one is passed by value, several as a struct. */
  modes(modes) {
    return Object.keys(modes).length > 1 ? [this.lend("Modes", modes)] : Object.values(modes).map(Boolean);
  }

  /** Calls a function with addresses, lengths and modes, and returns its result, one of ANSWER. Throws on an allocation failure. */
  answer(name, ...words) {
    const status = this.exports[`ncp_web_${name}`](...words.map(it => typeof it === "boolean" ? Number(it) : BigInt(it)));
    if (status === ANSWER.NO_MEMORY) throw new NoMemory();
    return status;
  }

  /** Calls a function from bytes to bytes, perhaps with modes; retries with a larger buffer if the result does not fit. */
  call(name, input, modes = {}, room = 4 * input.length + ROOM.event) {
    for (;; room *= 4) {
      const result = this.lending([input.length, room], (from, out) => this.#callAt(name, input, modes, from, out, room));
      if (!result.error.includes("WriteFailed")) return result;
    }
  }

  #callAt(name, input, modes, from, out, room) {
    this.put(input, from);
    const status = this.answer(name, ...this.modes(modes), from, input.length, out, room, this.words, ROOM.words, this.lengths);
    const error = status === ANSWER.FAULT ? asText(this.read(this.words, this.number(this.lengths + 8))) : "";
    return { status, bytes: this.read(out, this.number(this.lengths)), error };
  }

  /** Calls a function that explains, by its name, with some texts. */
  explain(name, ...texts) {
    const inputs = texts.map(asBytes);
    return this.lending(inputs.map(it => it.length), (...rooms) => {
      inputs.forEach((it, each) => this.put(it, rooms[each]));
      const status = this.answer(name, ...inputs.flatMap((it, each) => [rooms[each], it.length]), this.words, ROOM.words, this.lengths);
      return status === ANSWER.DONE ? asText(this.read(this.words, this.number(this.lengths))) : "";
    });
  }

  /** The lines that `show` prints for one message, without its number. */
  showMessage(bytes, bits) {
    const file = new Uint8Array(6 + bytes.length);
    file.set(asBytes("NCPH"));
    file.set([bits >> 8, bits & 255], 4);
    file.set(bytes, 6);
    return asText(this.call("show", file).bytes).replace(/^\d+ /, "");
  }
}

/** Hosts in the module that run event by event, and can be read between events. */
class Session {
  constructor(module) {
    this.module = module;
    this.handle = module.room(8);
    module.memory.fill(0, this.handle, this.handle + 8);
    this.out = module.room(ROOM.event);
    this.begin();
  }

  /** No line has run; `stepped` is how many events there were, and `goesOn` whether the last line has more. */
  begin() {
    this.stepped = 0;
    this.line = 0;
    this.goesOn = false;
  }

  /** Closes the hosts: the session is at no event. */
  close() {
    this.begin();
    this.stepped = Infinity;
    this.module.exports.ncp_web_close(BigInt(this.handle));
  }

  /** Makes new hosts, as the first line of a script names them; returns whether it names any. Its bytes are in the module at an address. */
  open(script, at) {
    this.close();
    this.script = script;
    this.from = at;
    const [begin, end] = script.place(0), status = this.module.answer("open", this.handle, at + begin, end - begin);
    this.stepped = 0;
    return status === ANSWER.DONE;
  }

  get isAtEnd() {
    return !this.goesOn && this.line >= this.script.length;
  }

  /** Runs the next event, of the last line or of the next one; `said` reads its text. Returns whether one was run. */
  step() {
    const line = this.goesOn ? this.line : this.line + 1, [begin, end] = this.script.place(line);
    this.status = this.module.answer("step", this.handle, this.from + begin, end - begin, this.out, ROOM.event, this.module.lengths);
    this.line = line;
    this.stepped++;
    this.goesOn = this.status === ANSWER.GOES_ON;
    return this.goesOn || this.status === ANSWER.DONE;
  }

  /** The same; throws if none was run. */
  next() {
    if (!this.step()) throw new Error(`event ${this.stepped} is answered ${this.status}`);
  }

  said() {
    return asText(this.module.read(this.out, this.module.number(this.module.lengths)));
  }

  /** The answer to a line that reads a host, without its number; null if the line is refused. */
  ask(line) {
    const input = asBytes(line);
    const status = this.module.lending([input.length], at => {
      this.module.put(input, at);
      return this.module.answer("ask", this.handle, at, input.length, this.out, ROOM.event, this.module.lengths);
    });
    return status === ANSWER.DONE ? this.said().trimEnd().replace(/^\d+ /, "") : null;
  }

  /** The commands that a host has queued for a peer, one per line. */
  waiting(host, peer) {
    const lines = [];
    for (let place = 0; ; place++) {
      const status = this.module.answer("waiting", this.handle, this.module.lend("Queued", { host, peer, place }), this.out, ROOM.event, this.module.lengths);
      if (status !== ANSWER.DONE) return lines;
      lines.push(this.said().trim());
    }
  }

  /** The message that a host keeps for a peer on a link. */
  kept(host, peer, link) {
    return this.message(this.module.answer("kept", this.handle, this.module.lend("LinkBetween", { host, peer, link }), this.out, ROOM.message, this.module.lengths));
  }

  /** The message that was sent or arrived at an event. */
  messageOf(number) {
    return this.message(this.module.answer("message", this.handle, number, this.out, ROOM.message, this.module.lengths));
  }

  message(status) {
    if (status !== ANSWER.DONE) return null;
    const bits = this.module.number(this.module.lengths);
    return { bits, bytes: this.module.read(this.out, Math.ceil(bits / 8)) };
  }

  /** The ledger of a sender, in messages and bits; null if an end is not open. */
  ledger(host, peer, local, remote) {
    const status = this.module.answer("ledger", this.handle, this.module.lend("Sender", { host, peer, local, remote }), this.out);
    if (status !== ANSWER.DONE) return null;
    const amount = place => ({ messages: this.module.number(this.out + 16 * place), bits: this.module.number(this.out + 16 * place + 8) });
    return { outstanding: amount(0), counters: amount(1), all: amount(2), text: amount(3), ret: amount(4) };
  }

  /** The state of the last message from a host to a peer on a link. */
  transit(host, peer, link) {
    const status = this.module.answer("transit", this.handle, this.module.lend("LinkBetween", { host, peer, link }), this.out);
    return status === ANSWER.DONE ? FATES[this.module.memory[this.out]] : FATES[0];
  }
}
