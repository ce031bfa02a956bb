// The search over names. The names come with the first letter that is typed: a page from the disk can load a script, and no other file.
"use strict";

const MOST = 50;
const field = document.getElementById("search");
const list = document.getElementById("found");
let isAsked = false;

// How well a name meets what is sought: it is that, begins with it, or has it. The lower, the better.
function distance(name, sought) {
  const at = name.toLowerCase().indexOf(sought);
  if (at < 0) return null;
  return (at === 0 ? 0 : 1000) + name.length - sought.length;
}

function foundNames(sought) {
  const all = window.NAMES || [];
  return all
    .map((row) => [distance(row[0], sought), row])
    .filter(([far]) => far !== null)
    .sort((one, other) => one[0] - other[0])
    .slice(0, MOST)
    .map(([, row]) => row);
}

function rowOf([name, kind, where, target]) {
  const row = document.createElement("li");
  const link = document.createElement("a");
  const remark = document.createElement("small");
  link.href = target;
  link.textContent = name;
  remark.textContent = " " + kind + (where ? " of " + where : "");
  link.append(remark);
  row.append(link);
  return row;
}

function show() {
  const sought = field.value.trim().toLowerCase();
  const rows = sought ? foundNames(sought).map(rowOf) : [];
  if (sought && !rows.length && window.NAMES) {
    const none = document.createElement("li");
    none.textContent = "no such name";
    rows.push(none);
  }
  list.replaceChildren(...rows);
  list.hidden = !rows.length;
}

function ask() {
  if (isAsked) return;
  isAsked = true;
  const names = document.createElement("script");
  names.src = "names.js";
  names.onload = show;
  document.head.append(names);
}

field.addEventListener("input", () => {
  ask();
  show();
});
field.addEventListener("keydown", (event) => {
  const first = list.querySelector("a");
  if (event.key === "Enter" && first) first.click();
  if (event.key === "Escape") list.hidden = true;
});
list.addEventListener("click", () => {
  list.hidden = true;
});
