// SPDX-License-Identifier: MIT
/** The page: the module runs a script, and the page shows it event by event. */
const $ = id => document.getElementById(id);
const WAIT_AFTER_TYPING = 150, LONGEST_PICTURE = 2000, LONGEST_AT_ONCE = 5000, LONGEST_SCRIPT = 16e6;
const FIRST = "one_connection", OUT_OF_MEMORY = "OutOfMemory";

/** Messages for an allocation failure in the module. */
const LACKING = {
  script: "There is no memory left for this script. A shorter one may still be played.",
  event: "There is no memory left to show what the hosts hold at this event.",
  record: "There is no memory left to record this script.",
};

// The magic numbers of packet captures, in hexadecimal: pcap with microseconds or nanoseconds, in either byte order.
const PACKETS = { a1b2c3d4: "pcap", d4c3b2a1: "pcap", a1b23c4d: "pcap", "4d3cb2a1": "pcap", "0a0d0d0a": "pcapng" };

/** The kind of packet capture that begins with these bytes, if any. */
const packetsIn = bytes => PACKETS[Array.from(bytes.subarray(0, 4), it => it.toString(16).padStart(2, "0")).join("")];

/** Shows why something cannot be displayed. */
function complain(words) {
  $("fault").hidden = false;
  $("fault").textContent = words;
  $("status").textContent = "";
}

class Page {
  constructor(module, { examples, exercises }) {
    this.module = module;
    this.sessions = new Sessions(module);
    this.capture = new Capture(module);
    this.examples = examples;
    this.exercises = exercises;
    this.exercise = null;
    this.at = 0;
    this.loads = 0;
    this.isLoading = false;
    this.isBehind = false;
    this.timer = null;
    this.typing = null;
    this.shownPair = [0, 1];
    this.ladder = new Ladder($("ladder"), $("heads"), {
      choose: event => this.goTo(event),
      drag: (from, to) => this.shift(this.run.lineOf(from), this.run.lineOf(to)),
      move: (verb, from, to, link) => this.insert(this.moveLine(verb, from, to, link)),
    });
    this.editor = new Editor($("script"), $("numbers"), $("line-now"), {
      change: () => {
        this.stop();
        clearTimeout(this.typing);
        // If the page shows the last event, it moves on to the new last one.
        this.typing = setTimeout(() => this.load(this.editor.text, this.at === this.run.length ? Infinity : this.at), WAIT_AFTER_TYPING);
      },
      choose: number => this.goTo(this.run.lastOf(this.script.lineAt(number))),
    });
    this.#fillChoices();
    this.#listen();
  }

  /** The hosts at the event that is shown. */
  get session() {
    return this.sessions.now;
  }

  /** Their state. */
  get panels() {
    return new Panels(this.session, this.run);
  }

  // ---- a script

  /** Runs a script from its start, and shows an event, or the last one of a `line`. */
  load(text, at = 0, line = null) {
    this.editor.show(text);
    this.script = new Script(text);
    this.loads++;
    orLacking(() => this.#begin(() => line === null ? at : this.run.lastOf(line)), () => this.#giveUp());
  }

  #begin(place) {
    const { loads } = this;
    this.isOpen = this.sessions.hold(this.script);
    this.run = new Run(this.script, this.isOpen);
    this.run.addAsked();
    this.isLoading = this.isOpen && this.script.length > LONGEST_AT_ONCE;
    this.isChecked = !this.isLoading;
    this.#choosePairs();
    if (this.isLoading) {
      this.#loadInSlices(place).catch(ifLacking(() => { if (loads === this.loads) this.#giveUp(); }));
    } else {
      this.#playWhole(true);
      this.goTo(place());
    }
  }

  /** Allocation failed for the script: there are no hosts. */
  #giveUp() {
    this.sessions.release();
    this.isOpen = false;
    this.run = new Run(this.script, false);
    this.#choosePairs();
    this.#conclude(false, LACKING.script);
    complain(LACKING.script);
    this.goTo(0);
  }

  #playWhole(isShown) {
    const { status, bytes, error } = this.module.call("play", this.script.bytes);
    if (isShown) this.run.addAll(asText(bytes));
    this.#conclude(status === ANSWER.BAD, error);
  }

  /** Updates what is known once the whole script has run. */
  #conclude(hasRefused, error) {
    this.isLoading = false;
    this.hasRefused = hasRefused;
    this.#tellFault(error);
    this.#checkExercise(error);
    $("slider").max = this.run.length;
  }

  /** Runs a long script event by event. The finished part can be inspected meanwhile. */
  async #loadInSlices(place) {
    const { run, script, loads } = this, reader = this.sessions.beginToRead();
    let [isGood, isShown] = [true, false];
    this.#tellFault("");
    this.goTo(0);
    while (isGood && !reader.isAtEnd) {
      for (const end = performance.now() + SLICE; !reader.isAtEnd && performance.now() < end;) {
        isGood = reader.step();
        if (!isGood) break;
        run.add(reader.said().trimEnd());
      }
      this.#grow();
      if (!isShown && run.length >= place()) {
        isShown = true;
        if (place()) this.goTo(place());
      }
      await nextTurn();
      if (loads !== this.loads) return;
    }
    this.sessions.reader = null;
    if (isGood) this.#conclude(run.hasRefused, "");
    else {
      reader.stepped = Infinity;
      this.#playWhole(false);
    }
    this.#grow();
    if (!isShown) this.goTo(place());
  }

  /** Called when there are more events than before. */
  #grow() {
    $("slider").max = this.run.length;
    this.#showButtons();
    this.ladder.grow();
  }

  /** Replaces the script as if typed, and shows the last event of a line. */
  edit(text, line) {
    const { activeElement } = document;
    clearTimeout(this.typing);
    this.editor.replace(text);
    this.load(text, 0, line);
    if (!activeElement.isConnected || activeElement === document.body) $("ladder").focus({ preventScroll: true });
  }

  /** Inserts a line after the line that is shown; within a `settle`, after all of it. */
  insert(words) {
    const line = this.run.lineOf(this.at);
    this.stop();
    this.edit(this.script.withLine(line, words), line + 1);
  }

  /** Moves a line of the script to the position of another. */
  shift(line, place) {
    if (line !== place && place >= 1 && place < this.run.ends.length) this.edit(this.script.withMoved(line, place), place);
  }

  moveLine(verb, from, to, link) {
    const [one, other] = [this.run.hosts[from], this.run.hosts[to]];
    return this.run.isMany ? `${one.name} ${verb} ${other.number} ${link}` : `${one.name} ${verb} ${link}`;
  }

  // ---- an event

  /** Goes to an event. If the hosts are far from it, they run up to it in slices; the ladder shows it at once. */
  goTo(event) {
    const at = this.at = Math.min(Math.max(event, 0), this.run.length), { sessions, loads } = this;
    const isWanted = () => this.at === at && this.loads === loads;
    this.#showPlace();
    orLacking(() => {
      this.#setBehind(this.isOpen && !sessions.choose(at));
      if (!this.isBehind) return this.#arrive(at, isWanted);
      sessions.reach(sessions.now, at, isWanted).then(isThere => { if (isThere) this.#arrive(at, isWanted); })
        .catch(ifLacking(() => { if (isWanted()) this.#lackHeld(); }));
    }, () => this.#lackHeld());
  }

  /** The hosts are near an event: runs them up to it, and shows them. */
  #arrive(at, isWanted) {
    const { sessions } = this;
    this.#setBehind(false);
    if (this.isOpen) while (sessions.now.stepped < at) this.#step();
    this.#showHeld();
    if (at > AT_ONCE) sessions.park(at, isWanted).catch(ifLacking(() => {}));
  }

  #setBehind(isBehind) {
    this.isBehind = isBehind;
    $("held").setAttribute("aria-busy", String(isBehind));
  }

  #step() {
    const { session } = this;
    session.next();
    const [said, wanted] = [session.said().trimEnd(), this.run.lines(session.stepped)];
    if (!this.isChecked || said === wanted) return;
    session.close();
    if ([said, wanted].some(it => it.includes(OUT_OF_MEMORY))) throw new NoMemory();
    throw new Error("an event has other lines than in the whole script");
  }

  play() {
    if (this.timer) return this.stop();
    if (this.at >= this.run.length) this.goTo(0);
    $("play").textContent = "pause";
    $("play").setAttribute("aria-pressed", "true");
    const on = () => {
      this.goTo(this.at + 1);
      if (this.at >= this.run.length) return this.stop();
      this.timer = setTimeout(on, Number($("speed").value));
    };
    this.timer = setTimeout(on, 0);
  }

  stop() {
    clearTimeout(this.timer);
    this.timer = null;
    $("play").textContent = "play";
    $("play").setAttribute("aria-pressed", "false");
  }

  // ---- what is shown

  /** Shows the current event in the ladder, in the script, and in the controls. */
  #showPlace() {
    const { at, run } = this;
    this.ladder.show(run, at);
    $("slider").value = at;
    $("now").textContent = at ? run.lines(at) : this.isOpen ? "No event has happened: the hosts are new." : "There are no hosts yet.";
    this.#showRemark(this.script.remarkAt(run.lineOf(at)));
    this.#showButtons();
    this.editor.mark(this.script.numberOf(run.lineOf(at)));
  }

  /** The comment in the script about an event, if any. */
  #showRemark(words) {
    $("remark").hidden = !words;
    $("remark").textContent = words;
  }

  #showButtons() {
    const { at, run } = this;
    $("slider").setAttribute("aria-valuetext", `event ${at} of ${run.length}`);
    $("place").textContent = `${at} of ${run.length}`;
    $("back").disabled = $("first").disabled = at === 0;
    $("step").disabled = $("last").disabled = at === run.length;
    if (this.isLoading) $("status").textContent = `playing: ${run.ends.length - 1} of ${this.script.length} lines`;
  }

  /** The state of the hosts. */
  #showHeld() {
    this.#showMessage();
    this.#showHosts();
  }

  /** Allocation failed: the state of the hosts is not known. */
  #lackHeld() {
    this.#setBehind(false);
    $("no-message").hidden = true;
    for (const id of ["hosts", "ledgers", "transit", "bits"]) $(id).replaceChildren();
    draw($("hosts"), markup`<p class="refused">${LACKING.event}</p>`);
  }

  #showMessage() {
    const message = this.at ? this.session.messageOf(this.at) : null;
    $("no-message").hidden = Boolean(message);
    $("bits").hidden = !message;
    if (message) drawBits($("bits"), message, this.module.showMessage(message.bytes, message.bits));
  }

  #showHosts() {
    if (!this.isOpen || this.run.hosts.length < 2) {
      for (const id of ["hosts", "ledgers", "transit"]) $(id).replaceChildren();
      return;
    }
    const { panels } = this, [one, other] = this.shownPair, { hosts } = this.run;
    const title = host => this.run.isMany ? `Host ${hosts[host].number}` : `Host ${hosts[host].name} (${hosts[host].number})`;
    draw($("hosts"), markup`${hostHtml(`${title(one)}, toward ${hosts[other].name}`, panels.of(one, other))}${hostHtml(`${title(other)}, toward ${hosts[one].name}`, panels.of(other, one))}`);
    const ledgers = [[one, other], [other, one]].flatMap(([host, peer]) => panels.ledgers(host, peer).map(it => ledgerHtml(title(host), it)));
    draw($("ledgers"), ledgers.length ? markup`${legendHtml()}${ledgers}` : markup`<p class="dim">No connection is open at both ends.</p>`);
    this.#showTransit();
  }

  /** Each message in the subnet, with what can happen to it; and the next message of each host. */
  #showTransit() {
    const { hosts } = this.run, rows = [];
    for (const { from, to, link } of this.run.links.values()) {
      const fate = this.session.transit(hosts[from].number, hosts[to].number, link);
      if (fate === "free") continue;
      const verbs = fate === "underway" ? ["deliver", "lose", "dead"] : ["answer"];
      const buttons = verbs.map(verb => markup`<button data-line="${this.moveLine(verb, from, to, link)}">${verb}</button> `);
      rows.push(markup`<li>${hosts[from].name} → ${hosts[to].name}, link ${link}: <b>${fate}</b> ${buttons}</li>`);
    }
    const outs = hosts.map(it => markup`<button data-line="${it.name} out">${it.name} out</button> `);
    draw($("transit"), markup`${listHtml(rows, "nothing is in transit")}<p>The next message of a host: ${outs}</p>`);
  }

  #choosePairs() {
    const { hosts } = this.run, pairs = hosts.flatMap((one, from) => hosts.slice(from + 1).map((other, each) => [from, from + 1 + each]));
    draw($("pair"), markup`${pairs.map(([one, other]) => markup`<option value="${one} ${other}">${hosts[one].name} and ${hosts[other].name}</option>`)}`);
    $("pair-choice").hidden = pairs.length < 2;
    this.shownPair = pairs[0] ?? [0, 1];
  }

  #tellFault(error) {
    const [, line, name] = /^ncp: (?:line (\d+): )?(\w+)/.exec(error) ?? [];
    this.editor.fault = line ? Number(line) : name === "BadHosts" ? this.script.numberOf(0) : null;
    const words = !name ? "" : name === "BadLine" ? this.module.explain("wrong_line", this.script.line(0), this.#textOf(this.editor.fault))
      : name === "BadHosts" ? this.module.explain("wrong_first_line", this.script.line(0)) : this.module.explain("meaning", name);
    $("fault").hidden = !name;
    draw($("fault"), name ? markup`<b>${error.split("\n")[0]}</b><br>${words}` : markup``);
    $("status").textContent = name ? "" : this.hasRefused ? "Script ran; a call was refused." : "Script ran; no call was refused.";
  }

  #textOf(number) {
    return this.script.text.split("\n")[number - 1].replace(/\r$/, "");
  }

  // ---- exercises

  #checkExercise(fault) {
    const { exercise } = this;
    $("exercise").hidden = !exercise;
    if (!exercise) return;
    const lines = Array.from({ length: this.run.length }, (_, each) => this.run.lines(each + 1));
    const { results, good } = checkExercise(exercise, lines, fault);
    $("exercise-title").textContent = exercise.title;
    $("exercise-text").textContent = exercise.text;
    draw($("wants"), markup`${results.map(it => markup`<li class="${it.good ? "met" : "unmet"}"><span aria-hidden="true">${it.good ? "✓" : "○"}</span> ${it.words} <span class="sr">${it.good ? "done" : "not yet"}</span></li>`)}`);
    $("verdict").textContent = good ? "Solved." : "";
    if (good) this.#markSolved(exercise);
  }

  /** Marks an exercise as solved in the menu, while the page is open. */
  #markSolved({ name, title }) {
    const number = this.exercises.findIndex(it => it.name === name) + 1;
    document.querySelector(`#choice [value="exercise ${name}"]`).textContent = `✓ ${number}. ${title}`;
  }

  // ---- files

  /** Shows a capture, or runs a script. A file that is neither is not read: it may be larger than memory. */
  async take(file) {
    const read = part => part.arrayBuffer().then(it => new Uint8Array(it), error => complain(`The file cannot be read: ${error.message}`));
    const prefix = await read(file.slice(0, 4));
    if (!prefix) return;
    const packets = packetsIn(prefix);
    if (packets) return complain(`${file.name} is a ${packets} file, a capture of network packets: Wireshark opens it. This page opens scripts and message files (.ncp).`);
    const isCapture = asText(prefix.subarray(0, 3)) === "NCP";
    if (!isCapture && file.size > LONGEST_SCRIPT) return complain(`The file is too long for a script: this page takes ${LONGEST_SCRIPT / 1e6} MB at most.`);
    const bytes = await read(file);
    if (!bytes) return;
    if (isCapture) this.capture.show(bytes, file.name);
    else this.choose(null, asText(bytes));
  }

  // ---- saving a run

  save(bytes, name, type) {
    const link = Object.assign(document.createElement("a"), { href: URL.createObjectURL(new Blob([bytes], { type })), download: name });
    link.click();
    setTimeout(() => URL.revokeObjectURL(link.href), 1000);
  }

  saveCapture() {
    const { bytes, error } = orLacking(() => this.module.call("record", this.script.bytes), () => ({ error: OUT_OF_MEMORY }));
    if (error.includes(OUT_OF_MEMORY)) this.tell(LACKING.record);
    else this.save(bytes, "run.ncp", "application/octet-stream");
  }

  saveSvg() {
    if (this.at > LONGEST_PICTURE) return this.tell(`A picture has at most ${LONGEST_PICTURE} events.`);
    this.save(this.ladder.svg($("picture-style").textContent), "run.svg", "image/svg+xml");
  }

  /** A link that contains the script and the event. */
  link() {
    const packed = btoa(String.fromCharCode(...this.script.bytes)).replace(/\+/g, "-").replace(/\//g, "_").replace(/=+$/, "");
    return `${location.href.split("#")[0]}#at=${this.at}&script=${packed}`;
  }

  async copyLink() {
    if (this.script.bytes.length > 1 << 16) return this.tell("A link holds at most 65,536 bytes of a script.");
    history.replaceState(null, "", this.link());
    await navigator.clipboard?.writeText(this.link()).catch(() => {});
    this.tell("The link is in the address line, and copied where the browser lets it.");
  }

  /** Shows what the address asks for, at an event; if it cannot be shown, the reason and the first example. */
  open(hash) {
    const asked = new URLSearchParams(hash.replace(/^#/, "")), at = asked.has("at") ? Math.trunc(Number(asked.get("at"))) || 0 : undefined;
    const { exercise = null, text, fault } = this.#asked(asked);
    this.choose(exercise, text ?? this.examples[FIRST], at);
    if (fault) complain(fault);
  }

  /** The text that an address asks for: a script, or an exercise or an example by its name. */
  #asked(asked) {
    if (asked.has("script")) return Page.#unpackedScript(asked.get("script"));
    if (asked.has("exercise")) {
      const exercise = this.exercises.find(it => it.name === asked.get("exercise"));
      return exercise ? { exercise, text: exercise.start } : { fault: "The link asks for an exercise that is not here." };
    }
    const name = asked.get("example") ?? FIRST;
    return Object.hasOwn(this.examples, name) ? { text: this.examples[name] } : { fault: "The link asks for an example that is not here." };
  }

  static #unpackedScript(packed) {
    try {
      // A plus sign in an address is read as a space.
      return { text: asText(unpacked(packed.replace(/[- ]/g, "+").replace(/_/g, "/"))) };
    } catch {
      return { fault: "The script in the link cannot be read: a part of it may be missing." };
    }
  }

  /** Shows a script: an example from its start, or an exercise from its end, where the user goes on. */
  choose(exercise, text, at = exercise ? Infinity : 0) {
    const example = Object.keys(this.examples).find(it => this.examples[it] === text);
    this.stop();
    this.exercise = exercise;
    $("choice").value = exercise ? `exercise ${exercise.name}` : example ? `example ${example}` : "";
    this.load(text, at);
  }

  tell(words) {
    $("told").textContent = words;
    setTimeout(() => { $("told").textContent = ""; }, 6000);
  }

  #fillChoices() {
    const option = (value, words) => markup`<option value="${value}">${words}</option>`;
    const examples = Object.keys(this.examples).map(it => option(`example ${it}`, it.replace(/_/g, " ")));
    const exercises = this.exercises.map((it, each) => option(`exercise ${it.name}`, `${each + 1}. ${it.title}`));
    draw($("choice"), markup`<option value="">choose ..</option><optgroup label="Examples">${examples}</optgroup><optgroup label="Exercises">${exercises}</optgroup>`);
  }

  #listen() {
    const press = { first: () => this.goTo(0), back: () => this.goTo(this.at - 1), step: () => this.goTo(this.at + 1), last: () => this.goTo(this.run.length) };
    for (const [id, act] of Object.entries(press)) $(id).onclick = () => { this.stop(); act(); };
    $("play").onclick = () => this.play();
    $("slider").oninput = () => { this.stop(); this.goTo(Number($("slider").value)); };
    $("choice").onchange = () => {
      const [kind, name] = $("choice").value.split(" ");
      const exercise = kind === "exercise" ? this.exercises.find(it => it.name === name) : null;
      this.choose(exercise, exercise ? exercise.start : this.examples[name] ?? "");
    };
    $("pair").onchange = () => {
      this.shownPair = $("pair").value.split(" ").map(Number);
      this.goTo(this.at);
    };
    $("transit").onclick = event => { if (event.target.dataset.line) this.insert(event.target.dataset.line); };
    $("save-svg").onclick = () => this.saveSvg();
    $("save-script").onclick = () => this.save(this.script.bytes, "run.script", "text/plain");
    $("save-capture").onclick = () => this.saveCapture();
    $("save-link").onclick = () => this.copyLink();
    $("file").onchange = () => { if ($("file").files[0]) this.take($("file").files[0]); };
    addEventListener("hashchange", () => this.open(location.hash));
    addEventListener("dragover", event => event.preventDefault());
    addEventListener("drop", event => {
      event.preventDefault();
      if (event.dataTransfer.files[0]) this.take(event.dataTransfer.files[0]);
    });
    addEventListener("keydown", event => this.#key(event));
  }

  #key(event) {
    if (event.target.closest("textarea, select, dialog, input") || event.ctrlKey || event.metaKey) return;
    const { at } = this, line = this.run.lineOf(at), move = event.altKey && at > 0;
    const keys = {
      ArrowRight: () => this.goTo(at + 1), ArrowLeft: () => this.goTo(at - 1), ArrowDown: () => (move ? this.shift(line, line + 1) : this.goTo(at + 1)), ArrowUp: () => (move ? this.shift(line, line - 1) : this.goTo(at - 1)),
      Home: () => this.goTo(0), End: () => this.goTo(this.run.length), " ": () => this.play(),
    };
    if (!keys[event.key] || (event.key === " " && event.target.closest("button"))) return;
    event.preventDefault();
    if (event.key !== " ") this.stop();
    keys[event.key]();
  }
}

async function begin() {
  const module = Module.load(unpacked($("module").textContent));
  const page = new Page(await module, JSON.parse($("data").textContent));
  page.open(location.hash);
  globalThis.ncpPage = page;
  page.readyAfter = performance.now();
  document.body.dataset.ready = "true";
}

begin().catch(error => {
  complain(`The page cannot begin: ${error.message}`);
  throw error;
});
