// SPDX-License-Identifier: MIT
/** The state of the hosts, as the module reports it. */
const FLAG_WORDS = { asked: "asked", heard: "heard", opened: "opened", leaving: "leaving", left: "left", cls: "CLS came" };

class Panels {
  constructor(session, run) {
    this.session = session;
    this.run = run;
  }

  /** A script line that reads something that a host has about a peer. */
  line(host, peer, verb, rest = "") {
    const [one, other] = [this.run.hosts[host], this.run.hosts[peer]];
    return this.run.isMany ? `${one.name} ${verb} ${other.number}${rest}` : `${one.name} ${verb}${rest}`;
  }

  /** The part of the answer after `ok`; null if the line is refused. */
  answer(host, peer, verb, rest) {
    const said = this.session.ask(this.line(host, peer, verb, rest));
    const at = said?.indexOf(" ok") ?? -1;
    return at < 0 ? null : said.slice(at + 3).trim();
  }

  connections(host, peer) {
    const found = [];
    for (const { from, to, local, remote } of this.run.pairs.values()) {
      if (from !== host || to !== peer) continue;
      const words = this.answer(host, peer, "state", ` ${local} ${remote}`);
      if (words !== null) found.push({ local, remote, ...Object.fromEntries(words.split(" ").map(it => it.split("="))) });
    }
    return found;
  }

  slots(host, peer) {
    const [one, other] = [this.run.hosts[host].number, this.run.hosts[peer].number], found = [];
    for (const { from, to, link } of this.run.links.values()) {
      if (from !== host || to !== peer) continue;
      const message = this.session.kept(one, other, link), fate = this.session.transit(one, other, link);
      if (message || fate !== "free") found.push({ link, message, fate });
    }
    return found.sort((one, other) => one.link - other.link);
  }

  /** All that a host stores about a peer. */
  of(host, peer) {
    const [one, other] = [this.run.hosts[host].number, this.run.hosts[peer].number];
    return {
      phase: this.answer(host, peer, "phase"), echoed: this.answer(host, peer, "echoed"), counts: this.answer(host, peer, "counts"),
      waiting: this.session.waiting(one, other), connections: this.connections(host, peer), slots: this.slots(host, peer),
    };
  }

  /** The ledgers of a host's senders. */
  ledgers(host, peer) {
    const [one, other] = [this.run.hosts[host].number, this.run.hosts[peer].number];
    return this.connections(host, peer).filter(it => it.end === "send")
      .map(it => ({ ...it, ledger: this.session.ledger(one, other, it.local, it.remote) })).filter(it => it.ledger);
  }

  /** The state of both hosts as a string, to compare two moments. */
  state(pairs) {
    return JSON.stringify(pairs.map(([host, peer]) => ({ ...this.of(host, peer), ledgers: this.ledgers(host, peer) })), (_, it) => it instanceof Uint8Array ? [...it] : it);
  }
}

/** A count with its noun, in the plural if needed. */
const counted = (count, word) => `${count} ${word}${Number(count) === 1 ? "" : "s"}`;

function connectionHtml(it) {
  const flags = Object.entries(FLAG_WORDS).filter(([name]) => it[name] === "1").map(([, word]) => word).join(", ");
  const books = `allowed ${counted(it.messages, "message")}, ${counted(it.bits, "bit")}; ${it.end === "send" ? "queued" : "held"} ${counted(it.stored, "bit")}`;
  return markup`<li><b>${it.end} ${it.local} → ${it.remote}</b> link ${it.link}, size ${it.size}<br><span class="dim">${flags}</span><br>${books}${it.interrupts !== "0" ? `; interrupts ${it.interrupts}` : ""}</li>`;
}

function slotHtml(it) {
  const size = it.message ? `${counted(it.message.bits, "bit")} kept` : "nothing kept";
  return markup`<li>link ${it.link}: ${size}, subnet: <b>${it.fate}</b></li>`;
}

const listHtml = (items, none) => items.length ? markup`<ul>${items}</ul>` : markup`<p class="dim">${none}</p>`;

function hostHtml(name, held) {
  const counted = held.counts?.split(" ").filter(it => !it.endsWith("=0")).join(" ");
  return markup`<section class="host-state" aria-label="${name}"><h3>${name}: <span class="phase">${held.phase ?? ""}</span></h3>
    <h4>Connections</h4>${listHtml(held.connections.map(connectionHtml), "none")}
    <h4>Queued commands</h4>${listHtml(held.waiting.map(it => markup`<li>${it}</li>`), "none")}
    <h4>Slots</h4>${listHtml(held.slots.map(slotHtml), "empty")}
    ${held.echoed !== "none" && held.echoed !== null ? markup`<p>echo answered: ${held.echoed}</p>` : ""}
    ${counted ? markup`<p class="refused">counted: ${counted}</p>` : ""}</section>`;
}

const PARTS = [["counters", "at the sender"], ["all", "ALL underway"], ["text", "text underway"], ["ret", "RET underway"]];

function ledgerHtml(name, it) {
  const bar = unit => {
    const whole = it.ledger.outstanding[unit];
    const parts = PARTS.filter(([part]) => it.ledger[part][unit]).map(([part, words]) =>
      markup`<span class="part ${part}" data-place="flex:${it.ledger[part][unit]}" title="${words}">${it.ledger[part][unit]}</span>`);
    const label = PARTS.map(([part, words]) => `${words} ${it.ledger[part][unit]}`).join(", ");
    return markup`<div class="bar-row"><span>${unit}</span><div class="bar" role="img" aria-label="outstanding ${whole} ${unit}: ${label}">${parts.length ? parts : markup`<span class="part none">0</span>`}</div><span>= ${whole}</span></div>`;
  };
  return markup`<section><h3>${name} ${it.local} → ${it.remote}, link ${it.link}</h3>${bar("messages")}${bar("bits")}</section>`;
}

const legendHtml = () => markup`<p class="legend">${PARTS.map(([part, words]) => markup`<span><i class="part ${part}"></i> ${words}</span> `)}</p>`;
