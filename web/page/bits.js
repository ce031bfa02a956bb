// SPDX-License-Identifier: MIT
/** A message in bits, by the fields of its leader (BBN 1822) and of the text after it (NIC 8246). */
const LEADER = [["flags", 4], ["type", 4], ["host", 8], ["link", 8], ["low field", 8]];
const PREFIX = [["M1", 8], ["size", 8], ["count", 16], ["M2", 8]];
const REGULAR = 0;

function bitsOf({ bytes, bits }) {
  return Array.from(bytes, it => it.toString(2).padStart(8, "0")).join("").slice(0, bits);
}

/** The fields in order: a name, its bits, and their value, most significant bit first. */
function fieldsOf(message) {
  const all = bitsOf(message), fields = [];
  let at = 0;
  const take = layout => {
    for (const [name, width] of layout) {
      if (at >= all.length) return;
      const bits = all.slice(at, at + width);
      fields.push({ name, bits, value: parseInt(bits, 2) });
      at += width;
    }
  };
  take(LEADER);
  const isRegular = fields.length > 1 && fields[1].value === REGULAR;
  if (isRegular) take(PREFIX);
  const [size, count] = ["size", "count"].map(name => fields.find(it => it.name === name)?.value ?? 0);
  const text = isRegular ? size * count : 0;
  if (text) fields.push({ name: "text", bits: all.slice(at, at + text), value: null });
  if (at + text < all.length) fields.push({ name: isRegular ? "padding" : "rest", bits: all.slice(at + text), value: null });
  return fields;
}

const grouped = bits => bits.replace(/(.{8})(?=.)/g, "$1 ");
const shortened = bits => bits.length > 320 ? `${grouped(bits.slice(0, 320))} …` : grouped(bits);

function drawBits(box, message, shown) {
  const rows = fieldsOf(message).map(({ name, bits, value }) =>
    markup`<tr><th scope="row">${name}</th><td class="bits">${shortened(bits)}</td><td>${value ?? `${bits.length} bits`}</td></tr>`);
  draw(box, markup`<table><thead><tr><th scope="col">field</th><th scope="col">bits</th><th scope="col">number</th></tr></thead><tbody>${rows}</tbody></table><pre>${shown}</pre>`);
}
