// The script of the page of `report`: it folds, selects and sorts the rows, and cuts the table for paper.
"use strict";
const table = document.getElementById("access"), body = table.tBodies[0], heads = [...table.tHead.rows[0].cells];
const [search, person, level, count] = ["search", "person", "level", "count"].map(id => document.getElementById(id));
const ranks = "nrowauf", good = {read: "rwa", write: "owa", all: "a", none: "n", unknown: "u", refused: "f"};
const rows = [...body.rows].map(row => ({row, depth: Number(row.dataset.d), below: [], above: null, open: true,
  rest: row.classList.contains("rest"), names: null}));
const tops = [], path = [];
for (const one of rows) {
  path.length = one.depth - 1;
  one.above = path[one.depth - 2] || null;
  (one.above ? one.above.below : tops).push(one);
  path[one.depth - 1] = one;
}
const named = rows.filter(one => !one.rest), absent = rows.filter(one => one.rest);
for (const one of named) if (one.below.length) {
  const button = document.createElement("button");
  button.type = "button";
  button.className = "fold";
  button.setAttribute("aria-label", "exceptions below");
  button.addEventListener("click", () => { one.open = !one.open; show(); });
  one.row.cells[0].prepend(button);
  one.fold = button;
  one.open = !one.below[0].row.hidden;
}
function names(one) {
  one.names = one.names || [...one.row.cells[0].querySelectorAll("code")].map(code => code.textContent.toLowerCase());
  return one.names;
}
function has(cell, wanted) {
  const [mine, own] = cell.className.split(" ");
  if (wanted === "none") return mine === "n" && !own;
  return good[wanted].includes(mine) || Boolean(own) && good[wanted].includes(own[1]);
}
function matches(one) {
  const text = search.value.toLowerCase();
  if (text && !names(one).some(name => name.includes(text))) return false;
  if (!level.value) return true;
  const cells = [...one.row.cells].slice(2);
  return (person.value === "" ? cells : [cells[Number(person.value)]]).some(cell => has(cell, level.value));
}
function isOpen(one) {
  for (let above = one.above; above; above = above.above) if (!above.open) return false;
  return true;
}
function show() {
  const active = Boolean(search.value || level.value);
  let found = 0, partly = 0;
  table.classList.toggle("flat", active);
  for (const one of named) {
    const match = !active || matches(one);
    one.matches = match;
    one.row.hidden = active ? !match : !isOpen(one);
    if (match) found += 1;
    if (one.row.dataset.more) partly += 1;
    if (one.fold) one.fold.setAttribute("aria-expanded", String(one.open));
  }
  for (const one of absent) one.row.hidden = active || !isOpen(one);
  let text = active ? `${found} of ${named.length} rows` : `${named.length} rows`;
  if (active && absent.length) text += "; exceptions without a row on this page were not searched";
  if (search.value && partly) text += `; rows that do not name all of their places: ${partly}`;
  count.textContent = text;
}
function rank(cell) {
  const [mine, own] = cell.className.split(" ");
  return 10 * ranks.indexOf(mine) + (own ? 1 + ranks.indexOf(own[1]) : 0);
}
function value(one, place) {
  if (place === 0) return names(one)[0];
  return place === 1 ? Number(one.row.cells[1].textContent.replace(/,/g, "")) : rank(one.row.cells[place]);
}
function sort(place) {
  const was = heads[place].getAttribute("aria-sort"), up = place === 0 ? was !== "ascending" : was === "descending";
  for (const head of heads) head.removeAttribute("aria-sort");
  heads[place].setAttribute("aria-sort", up ? "ascending" : "descending");
  const order = [], arrange = some => {
    const sorted = some.filter(one => !one.rest).map(one => [value(one, place), one]);
    sorted.sort(([a], [b]) => (a < b ? -1 : a > b ? 1 : 0) * (up ? 1 : -1));
    return [...sorted.map(pair => pair[1]), ...some.filter(one => one.rest)];
  };
  const waiting = arrange(tops).reverse();
  while (waiting.length) {
    const one = waiting.pop();
    order.push(one.row);
    waiting.push(...arrange(one.below).reverse());
  }
  body.append(...order);
}
heads.forEach((head, place) => head.querySelector("button").addEventListener("click", () => sort(place)));
for (const tool of [search, person, level]) tool.addEventListener("input", show);
document.getElementById("tools").hidden = false;
show();
const paper = document.getElementById("print"), width = 10;
let opened = [];
addEventListener("beforeprint", () => {
  paper.replaceChildren();
  const shown = [...body.rows].filter(row => rows.find(one => one.row === row).rest ? !row.hidden :
    rows.find(one => one.row === row).matches);
  for (let start = 2; start === 2 || start < heads.length; start += width) {
    const part = document.createElement("table"), end = Math.min(start + width, heads.length);
    part.createCaption().textContent = `People ${start - 1} to ${end - 2} of the ${heads.length - 2} columns`;
    const copy = (row, into) => {
      const made = into.appendChild(row.cloneNode(false));
      made.hidden = false;
      [...row.cells].forEach((cell, place) => {
        if (place < 2 || place >= start && place < end) made.append(cell.cloneNode(true));
      });
    };
    copy(table.tHead.rows[0], part.createTHead());
    const into = part.createTBody();
    for (const row of shown) copy(row, into);
    paper.append(part);
  }
  opened = [...document.querySelectorAll("details.found:not([open]), .found details:not([open])")];
  for (const one of opened) one.open = true;
  document.body.classList.add("blocks");
});
addEventListener("afterprint", () => {
  document.body.classList.remove("blocks");
  paper.replaceChildren();
  for (const one of opened) one.open = false;
});
