// SPDX-License-Identifier: MIT
/**
 * Sessions of one script, each at its own event. A session only goes forwards: to go back, another one that is still
 * before the event is played on, or a new one is opened. Long runs are split into slices, so that the page stays responsive.
 */
const AT_ONCE = 4000, PARKED = 1000, SLICE = 10;

const nextTurn = () => new Promise(done => setTimeout(done));

class Sessions {
  constructor(module) {
    this.module = module;
    this.all = Array.from({ length: 3 }, () => new Session(module));
    this.now = this.all[0];
    this.reader = null;
    this.address = null;
  }

  /** Replaces the script; returns whether its first line names hosts. */
  hold(script) {
    this.release();
    this.address = this.module.room(script.bytes.length);
    this.module.put(script.bytes, this.address);
    this.script = script;
    return this.open(this.now);
  }

  /** Frees the script and its sessions. */
  release() {
    const { address } = this;
    this.address = null;
    this.reader = null;
    [this.now] = this.all;
    if (address !== null) this.module.free(address);
    for (const it of this.all) it.close();
  }

  open(session) {
    return session.open(this.script, this.address);
  }

  /** A session that runs the script to its end, and is not read meanwhile. */
  beginToRead() {
    this.reader = this.all[2];
    this.open(this.reader);
    return this.reader;
  }

  /** The session with the fewest events left to play before an event. */
  #nearest(event, sessions) {
    const before = sessions.filter(it => it.stepped <= event).sort((one, other) => other.stepped - one.stepped);
    if (before.length) return before[0];
    const one = sessions.find(it => it.stepped === Infinity) ?? sessions.reduce((least, it) => it.stepped < least.stepped ? it : least);
    this.open(one);
    return one;
  }

  /** Chooses the session to read at an event; returns whether it is near enough to reach the event at once. */
  choose(event) {
    this.now = this.#nearest(event, this.all.filter(it => it !== this.reader));
    return event - this.now.stepped <= AT_ONCE;
  }

  /** Plays a session on, in slices, while it is wanted; returns whether it reached the event. */
  async reach(session, event, isWanted) {
    while (session.stepped < event) {
      for (const end = performance.now() + SLICE; session.stepped < event && performance.now() < end;) session.next();
      await nextTurn();
      if (!isWanted()) return false;
    }
    return true;
  }

  /** Brings another session to a point somewhat before an event, in case the user goes back. */
  async park(event, isWanted) {
    const place = event - PARKED, others = this.all.filter(it => it !== this.now && it !== this.reader);
    if (place <= 0 || others.length === 0 || others.some(it => it.stepped < event && it.stepped >= place - PARKED)) return;
    await this.reach(this.#nearest(place, others), place, isWanted);
  }
}
