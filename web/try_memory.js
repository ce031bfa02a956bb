/**
 * The module with little memory, in node, for web/test: each call returns the result of enough memory, or an allocation
 * failure; a block is freed once, even after an exception; and all that worked before works afterwards.
 *
 *     node try_memory.js blocks MODULE PAGES ROUNDS              only the heap, in PAGES pages
 *     node try_memory.js errors                                  the page's part, over a module whose calls fail
 *     node try_memory.js calls MODULE FOLDER SEED TRIES LITTLE.. the calls, over the examples of a folder, as with enough memory
 *     node try_memory.js sizes MODULE FOLDER                     the calls, over the scripts of a folder, in files there
 */
"use strict";
const fs = require("fs"), path = require("path"), vm = require("vm");
const SOURCES = ["module", "script", "sessions", "run"];
vm.runInThisContext(SOURCES.map(it => fs.readFileSync(path.join(__dirname, "page", `${it}.js`), "utf8")).join("\n"));

/** Numbers that are the same for the same seed. */
function diceOf(seed) {
  let state = BigInt(seed);
  return below => {
    state = (state * 6364136223846793005n + 1442695040888963407n) & ((1n << 64n) - 1n);
    return Number((state >> 33n) % BigInt(below));
  };
}

function check(isGood, words) {
  if (!isGood) throw new Error(words);
}

const instance = file => new WebAssembly.Instance(new WebAssembly.Module(fs.readFileSync(file)), {}).exports;

// ---- blocks

function tryBlocks(file, pages, rounds) {
  const heap = instance(file), dice = diceOf(pages), held = new Map(), bytes = () => new Uint8Array(heap.memory.buffer);
  const isKept = at => held.get(at).places.every(it => bytes()[it] === held.get(at).mark);
  let refused = 0;
  const take = size => {
    const at = Number(heap.web_alloc(BigInt(size)));
    if (!at) return refused++;
    check(at % 16 === 0 && at + size <= bytes().length, `a block of ${size} at ${at} of ${bytes().length}`);
    const mark = dice(256);
    bytes().fill(mark, at, at + size);
    held.set(at, { mark, places: [at, at + (size >> 1), at + size - 1] });
  };
  const give = at => {
    check(isKept(at), `the block at ${at} is overwritten`);
    heap.web_free(BigInt(at));
    held.delete(at);
  };
  for (let round = 0; round < rounds; round++) {
    if (held.size === 0 || dice(2)) take(1 + dice(1 << 1 + dice(20)));
    else give([...held.keys()][dice(held.size)]);
  }
  for (const at of held.keys()) give(at);
  for (const size of [8n << 30n, 1n << 32n, (1n << 32n) - 8n, 1n << 31n, 1n << 40n, (1n << 64n) - 1n, BigInt(pages) << 16n]) check(heap.web_alloc(size) === 0n, `a block of ${size} bytes`);
  check(bytes().length <= pages * 65536, "there are more pages");
  // What was cut in parts is joined again.
  check(heap.web_alloc(BigInt(pages << 14)) !== 0n, "a quarter of all memory is not there, though all is free");
  return refused;
}

// ---- errors

/** Exports of a module with counted memory, whose calls fail: no memory, an exception, or a block beyond memory. */
class Failing {
  constructor(kind, left) {
    const fails = () => --this.left === 0, { held } = this;
    Object.assign(this, { left });
    this.web_alloc = bytes => {
      const isBad = fails();
      if (isBad && kind === "lacks") return 0n;
      const at = isBad ? 1n << 32n : this.top;
      this.top += bytes + 15n & ~15n;
      held.add(at);
      return at;
    };
    this.web_free = at => { if (!held.delete(at)) this.isFreedTwice = true; };
    const call = () => {
      if (!fails()) return ANSWER.DONE;
      if (kind === "throws") throw new Error("it fails");
      return ANSWER.NO_MEMORY;
    };
    for (const name of ["open", "close", "step", "ask", "play", "meaning", "wrong_line"]) this[`ncp_web_${name}`] = call;
  }

  memory = new WebAssembly.Memory({ initial: 100 });
  held = new Set();
  top = 16n;
  isFreedTwice = false;
}

function tryErrors() {
  let count = 0;
  for (const kind of ["lacks", "throws", "lies beyond"]) {
    for (let left = 1, isOver = false; !isOver; left++) {
      const failing = new Failing(kind, Infinity), module = new Module(failing), sessions = new Sessions(module), begun = failing.held.size;
      failing.left = left;
      const [short, long] = [new Script("hosts 1 2\n"), new Script("hosts 1 2\na reset\na out\n")];
      const acts = [() => sessions.hold(short), () => module.call("play", short.bytes), () => sessions.now.next(), () => sessions.now.ask("a phase"), () => sessions.hold(long),
        () => module.explain("meaning", "word"), () => module.explain("wrong_line", "first", "line"), () => sessions.choose(1), () => sessions.hold(short)];
      for (const act of acts) {
        try {
          act();
        } catch (error) {
          count++;
        }
        check(!failing.isFreedTwice, `${act} frees a block twice, if call ${left} ${kind}`);
      }
      isOver = failing.left > 0;
      failing.left = Infinity;
      sessions.release();
      check(!failing.isFreedTwice && failing.held.size === begun, `${failing.held.size - begun} blocks are left, if call ${left} ${kind}`);
    }
  }
  return count;
}

// ---- calls

const CALLS = { ".script": [["play", {}], ["record", {}]], ".ncp": [["show", {}], ["check", {}], ["audit", { part: false, standard: false, coverage: true }], ["follow", { part: true }]] };

/** The calls of the module about a file: each has a name and an action that returns a text. */
function actsOn(name, data) {
  const acts = (CALLS[path.extname(name)] ?? []).map(([call, modes]) => [call, ({ module }) => {
    const { status, bytes, error } = module.call(call, data, modes);
    if (error.includes("OutOfMemory")) throw new NoMemory();
    return `${status} ${error} ${Buffer.from(bytes).toString("base64")}`;
  }]);
  if (!name.endsWith(".script")) return acts;
  return [...acts, ["steps", ({ sessions }) => {
    const script = new Script(asText(data)), lines = [];
    if (!sessions.hold(script)) return "no hosts";
    while (!sessions.now.isAtEnd) {
      sessions.now.next();
      lines.push(sessions.now.said());
      if (lines.at(-1).includes("OutOfMemory")) throw new NoMemory();
      lines.push(sessions.now.ask(`${script.isMany ? "1" : "a"} phase`), sessions.now.messageOf(sessions.now.stepped)?.bits ?? "");
    }
    return lines.join("\n");
  }]];
}

const hostsOf = async code => {
  const module = await Module.load(code);
  return { module, sessions: new Sessions(module) };
};

/** The result of an action, or null on an allocation failure. Any other error ends the test. */
const answerOf = (act, host) => orLacking(() => act(host), () => null);

async function tryCalls(file, folder, seed, tries, little) {
  const dice = diceOf(seed), counts = { answers: 0, lacks: 0 }, codes = little.map(it => fs.readFileSync(it));
  const names = fs.readdirSync(folder).filter(it => CALLS[path.extname(it)] && it !== "host.script").sort();
  const acts = names.flatMap(name => actsOn(name, new Uint8Array(fs.readFileSync(path.join(folder, name)))).map(([call, act]) => ({ name: `${call} ${name}`, act })));
  const enough = await hostsOf(fs.readFileSync(file));
  for (const it of acts) it.wanted = it.act(enough);
  const once = (it, host) => {
    const answer = answerOf(it.act, host);
    check(answer === null || answer === it.wanted, `${it.name} answers otherwise`);
    counts[answer === null ? "lacks" : "answers"]++;
    return answer !== null;
  };
  for (let each = 0; each < tries; each++) {
    const host = await hostsOf(codes[dice(codes.length)]), first = acts[dice(acts.length)], isThere = once(first, host);
    host.sessions.release();
    const ballast = [];
    for (let left = dice(400); left > 0; left--) orLacking(() => ballast.push(host.module.room(1 + dice(1 << 1 + dice(18)))), () => {});
    for (let left = 1 + dice(6); left > 0; left--) once(acts[dice(acts.length)], host);
    for (let left = dice(ballast.length + 1); left > 0; left--) host.module.free(ballast.splice(dice(ballast.length), 1)[0]);
    once(acts[dice(acts.length)], host);
    host.module.free(...ballast);
    host.sessions.release();
    check(once(first, host) || !isThere, `try ${each} of seed ${seed}: ${first.name} could be done before`);
  }
  return counts;
}

// ---- sizes

/** The lines of a script of several hosts, event by event, and the hosts' state at its end: between the first two, and of the link and the sender named here. */
function lastOf(sessions, script, { link, local, remote }) {
  check(sessions.hold(script), "there are no hosts");
  const { now } = sessions, lines = [];
  while (!now.isAtEnd) {
    now.next();
    lines.push(now.said());
  }
  return {
    lines: lines.join(""), phase: now.ask(script.isMany ? "1 phase 2" : "a phase"), waiting: now.waiting(1, 2).length, kept: now.kept(1, 2, link)?.bits ?? 0,
    message: now.messageOf(now.stepped)?.bits ?? 0, transit: now.transit(1, 2, link), ledger: now.ledger(1, 2, local, remote)?.outstanding.messages ?? 0,
  };
}

async function trySizes(file, folder) {
  const { module, sessions } = await hostsOf(fs.readFileSync(file)), found = {};
  for (const name of fs.readdirSync(folder)) {
    const data = new Uint8Array(fs.readFileSync(path.join(folder, name)));
    const make = (call, input, modes) => {
      const { status, bytes, error } = module.call(call, input, modes);
      fs.writeFileSync(path.join(folder, `${name}.${call}`), Buffer.concat([Buffer.from([status]), Buffer.from(`${error.trimEnd()}\n`), Buffer.from(bytes)]));
      return bytes;
    };
    if (name.startsWith("host")) {
      make("host", data);
      continue;
    }
    make("play", data);
    const recorded = make("record", data);
    for (const [call, modes] of CALLS[".ncp"]) make(call, recorded, modes);
    found[name] = lastOf(sessions, new Script(asText(data)), { link: 2, local: 1, remote: 0 });
  }
  const texts = [0, 1, 100, 3900].map(length => "x".repeat(length));
  found.explained = texts.flatMap(text => [module.explain("wrong_first_line", text), module.explain("wrong_line", "hosts 1 2", text)]).filter(Boolean).length;
  return found;
}

async function main([what, ...words]) {
  if (what === "blocks") return tryBlocks(words[0], Number(words[1]), Number(words[2]));
  if (what === "errors") return tryErrors();
  if (what === "sizes") return trySizes(...words);
  return tryCalls(words[0], words[1], Number(words[2]), Number(words[3]), words.slice(4));
}

main(process.argv.slice(2)).then(it => console.log(JSON.stringify(it)), error => {
  console.error(error.message);
  process.exitCode = 1;
});
