// SPDX-License-Identifier: MIT
const SETTLE = "settle";

/** A script as bytes: which of its lines are played, and the position of each. */
class Script {
  constructor(text) {
    this.text = text;
    this.bytes = asBytes(text);
    this.begins = [];
    this.ends = [];
    this.numbers = [];
    this.remarks = [];
    this.count = 1;
    this.#find();
  }

  #find() {
    const LF = 10, CR = 13, HASH = 35, { bytes } = this;
    let remark = null, isRemark = false;
    for (let begin = 0; begin <= bytes.length; this.count++) {
      let end = bytes.indexOf(LF, begin);
      if (end < 0) end = bytes.length;
      const last = end > begin && bytes[end - 1] === CR ? end - 1 : end;
      if (last > begin && bytes[begin] !== HASH) {
        this.begins.push(begin);
        this.ends.push(last);
        this.numbers.push(this.count);
        this.remarks.push(remark);
      }
      if (bytes[begin] === HASH) remark = isRemark ? { begin: remark.begin, end: last } : { begin, end: last };
      isRemark = bytes[begin] === HASH;
      begin = end + 1;
    }
    this.count--;
  }

  /** How many lines are played after the first. */
  get length() {
    return Math.max(this.begins.length - 1, 0);
  }

  /** Where a line begins and ends, of those that are played; the first is line 0. */
  place(line) {
    return [this.begins[line] ?? 0, this.ends[line] ?? 0];
  }

  /** The words of a line. */
  line(line) {
    return asText(this.bytes.subarray(...this.place(line)));
  }

  /** The remark that precedes a line, or the lines before it, with all its lines joined. */
  remarkAt(line) {
    const { begin, end } = this.remarks[line] ?? { begin: 0, end: 0 };
    return asText(this.bytes.subarray(begin, end)).replace(/^# ?/gm, "").replace(/\s+/g, " ").trim();
  }

  /** Whether a line is `settle`, which runs every event that needs no call: it has events, and then a line of its own. */
  isSettle(line) {
    const [begin, end] = this.place(line);
    return end - begin === SETTLE.length && this.line(line) === SETTLE;
  }

  /** The number of a line in the text, from 1. */
  numberOf(line) {
    return this.numbers[line] ?? this.count + 1;
  }

  /** The line that has this number in the text, or the last one before it. */
  lineAt(number) {
    let [low, high] = [0, this.numbers.length];
    while (low < high) {
      const middle = (low + high) >> 1;
      if (this.numbers[middle] <= number) low = middle + 1; else high = middle;
    }
    return Math.max(low - 1, 0);
  }

  /** The text with a line inserted after another. */
  withLine(line, words) {
    const lines = this.text.replace(/\n$/, "").split("\n");
    lines.splice(Math.min(this.numberOf(line), lines.length), 0, words);
    return lines.join("\n") + "\n";
  }

  /** The text with a line moved to the position of another. */
  withMoved(line, place) {
    const lines = this.text.replace(/\n$/, "").split("\n");
    const [words] = lines.splice(this.numberOf(line) - 1, 1);
    lines.splice(this.numberOf(place) - 1, 0, words);
    return lines.join("\n") + "\n";
  }

  /** The hosts that the first line names: what a line calls each, and its number. */
  hosts() {
    const [word, ...rest] = this.line(0).split(" ");
    if (word === "hosts") return ["a", "b"].map((name, each) => ({ name, number: Number(rest[each]) }));
    if (word === "many") return rest.join(" ").split(" watch ")[0].split(" ").map(it => ({ name: it, number: Number(it) }));
    return [];
  }

  get isMany() {
    return this.line(0).startsWith("many ");
  }
}
