// SPDX-License-Identifier: MIT
/** A capture: its violations, its connections, whether its messages are well formed, and its records. */
const LONGEST_LIST = 1000;
const NO_ROOM = { status: ANSWER.NO_MEMORY, bytes: new Uint8Array(), error: "There is no memory left for a capture of this length." };

class Capture {
  constructor(module) {
    this.module = module;
    this.bytes = new Uint8Array();
    for (const id of ["is-part", "is-standard"]) $(id).onchange = () => this.#look();
    $("close-capture").onclick = () => $("capture").close();
    $("capture-body").onclick = event => { if (event.target.dataset.record) this.#lookAt(event.target.dataset.record); };
  }

  show(bytes, name) {
    this.bytes = bytes;
    $("capture-name").textContent = name;
    const { bytes: line, error } = this.#read("check");
    $("soundness").textContent = asText(line) + error;
    this.#look();
    $("capture").showModal();
    $("capture-body").scrollTop = 0;
  }

  #read(name, modes = {}) {
    return orLacking(() => this.module.call(name, this.bytes, modes, 16 * this.bytes.length + ROOM.event), () => NO_ROOM);
  }

  #look() {
    this.#showRecords(new Set(this.#judge()), new Set(this.#follow()));
  }

  /** Shows the findings, what the broken rules require, and what was not judged. Returns the records with a finding. */
  #judge() {
    const { status, bytes, error } = this.#read("audit", { part: $("is-part").checked, standard: $("is-standard").checked, coverage: true });
    const lines = asText(bytes).split("\n").slice(0, -1);
    const findings = lines.filter(it => !it.startsWith("- ")).map(line => ({ line, record: line.split(" ")[0] }));
    const count = findings.length ? counted(findings.length, "finding") : "No rule is seen to be broken";
    draw($("findings"), markup`${Capture.outcome(status, count, error)}${this.#list(findings, "What these rules require", it => Capture.namesIn(it.line))}`);
    this.#cover(lines.filter(it => it.startsWith("- ")));
    return findings.map(it => it.record);
  }

  /** Shows how many records were judged, and between which two hosts not all was, and why. */
  #cover(lines) {
    const reasons = lines.slice(1).map(it => it.split(" ").at(-1));
    draw($("coverage"), markup`${lines.length ? markup`<pre>${lines.slice(0, LONGEST_LIST).join("\n")}</pre>` : ""}${Capture.omitted(lines)}${this.#meanings("Why not all was judged", reasons)}`);
  }

  /** Shows the connections in the order of opening, each with its text, and the texts on no connection. Returns the records that opened them. */
  #follow() {
    const { status, bytes, error } = this.#read("follow", { part: $("is-part").checked });
    const entries = asText(bytes).split(/\n(?! )/).filter(Boolean).map(lines => {
      const [line, text] = lines.split("\n");
      return { line, text, ...Object.fromEntries(line.split(" ").map(it => it.split("="))) };
    });
    const connections = entries.filter(it => it.opened), others = entries.filter(it => !it.opened);
    const count = connections.length ? counted(connections.length, "connection") : "No connection was opened";
    const list = this.#list(connections.map(it => ({ line: it.line, text: it.text + Capture.letters(it), record: it.opened, by: it.by })), "How they ended", it => [it.by]);
    const lines = others.slice(0, LONGEST_LIST).map(it => it.line).join("\n");
    draw($("connections"), markup`${Capture.outcome(status, count, error)}${list}${others.length ? markup`<h4>Texts on no connection</h4><pre>${lines}</pre>${Capture.omitted(others)}` : ""}`);
    return connections.map(it => it.opened);
  }

  /** A list of entries, each a line with its record, followed by the meanings of the names in them. */
  #list(entries, title, namesOf) {
    if (!entries.length) return "";
    const items = entries.slice(0, LONGEST_LIST).map(it => markup`<li><button data-record="${it.record}" title="look at the record">${it.line}</button>${it.text ? markup`<pre>${it.text}</pre>` : ""}</li>`);
    return markup`<ol>${items}</ol>${Capture.omitted(entries)}${this.#meanings(title, entries.flatMap(namesOf))}`;
  }

  /** The meanings of these names, each once. */
  #meanings(title, names) {
    if (!names.length) return "";
    const meant = [...new Set(names)].map(it => markup`<dt>${it}</dt><dd>${orLacking(() => this.module.explain("meaning", it), () => "")}</dd>`);
    return markup`<h4>${title}</h4><dl>${meant}</dl>`;
  }

  /** How many of a list are not shown. */
  static omitted({ length }) {
    return length > LONGEST_LIST ? markup`<p>The first ${LONGEST_LIST} are shown, and ${length - LONGEST_LIST} are omitted.</p>` : "";
  }

  /** How many entries a file has, or how many come before its fault. */
  static outcome(status, count, error) {
    const fault = error.split("\n")[0];
    const words = status === ANSWER.NO_MEMORY ? fault
      : fault.includes("BadHeader") ? `${fault}: this needs a file of version 2, whose records name the host at whose interface they were seen; 'ncp convert --at H' makes one of version 1.`
      : fault ? `${count} before ${fault}` : `${count}.`;
    return markup`<p>${words}</p>`;
  }

  /** The rule that a finding names, and for the rule `fault` also the name of the fault. */
  static namesIn(line) {
    const [, , , rule, word] = line.split(" ");
    return rule === "fault" ? [rule, word.slice("name=".length)] : [rule];
  }

  /** A text as letters, if its bytes have eight bits and all are printable ASCII. */
  static letters({ text, size }) {
    const digits = text.match(/^ {2}text .* ([0-9a-f]+)$/)?.[1];
    if (size !== "8" || !digits) return "";
    const letters = String.fromCharCode(...digits.match(/../g).map(it => parseInt(it, 16)));
    return /^[ -~]+$/.test(letters) ? `  “${letters}”` : "";
  }

  /** Shows the records. One with a finding is marked, and one that opened a connection can be jumped to. */
  #showRecords(found, opened) {
    const { bytes, error } = this.#read("show");
    Object.assign(this, { found, opened, error, records: asText(bytes).split(/(?<=\n)(?! )/) });
    this.#drawRecords(0);
  }

  /** Draws at most LONGEST_LIST records, starting with this one. */
  #drawRecords(first) {
    const { records, error } = this, end = Math.min(first + LONGEST_LIST, records.length);
    draw($("records"), markup`${records.slice(first, end).map(it => this.#record(it))}${end === records.length ? error : ""}`);
    $("omitted").hidden = records.length <= LONGEST_LIST;
    $("omitted").textContent = `Records ${first + 1} to ${end} are shown, and ${records.length - (end - first)} are omitted.`;
  }

  #record(lines) {
    const number = lines.slice(0, lines.indexOf(" "));
    if (this.found.has(number)) return markup`<mark id="record-${number}" tabindex="-1">${lines}</mark>`;
    return this.opened.has(number) ? markup`<span id="record-${number}" tabindex="-1">${lines}</span>` : lines;
  }

  #lookAt(record) {
    if (!$(`record-${record}`)) this.#drawRecords(Math.max(0, this.records.findIndex(it => it.startsWith(`${record} `)) - LONGEST_LIST / 2));
    const found = $(`record-${record}`);
    found?.scrollIntoView({ block: "center" });
    found?.focus({ preventScroll: true });
  }
}
