// SPDX-License-Identifier: MIT
/**
 * Markup. Each value in a template is escaped, unless it is markup itself. So no text of a script, of a file, of a link
 * or of the module becomes a tag: only this file puts markup into the page.
 */
const ENTITIES = { "&": "&amp;", "<": "&lt;", ">": "&gt;", '"': "&quot;", "'": "&#39;" };

class Markup {
  constructor(text) {
    this.text = text;
  }

  /** The text of a value in markup: of a list, the texts of all its values in order. */
  static textOf(value) {
    if (value instanceof Markup) return value.text;
    if (Array.isArray(value)) return value.map(Markup.textOf).join("");
    return String(value).replace(/[&<>"']/g, it => ENTITIES[it]);
  }
}

const markup = (parts, ...values) => new Markup(String.raw({ raw: parts }, ...values.map(Markup.textOf)));

/** Draws markup in a box. A `data-place` is a style: the page's policy allows no attribute `style`. */
function draw(box, what) {
  if (!(what instanceof Markup)) throw new TypeError("what is drawn is no markup");
  box.innerHTML = what.text;
  for (const it of box.querySelectorAll("[data-place]")) it.style.cssText = it.dataset.place;
}
