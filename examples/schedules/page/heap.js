"use strict";
// Draws roots, objects and references of a state. What is drawn is what the state says; nothing is worked out here but places.

const NAMES = { f: "free", u: "unpublished", v: "unpublished, marked", w: "white", g: "grey", b: "black" };
const CARD_NAMES = { c: "clean", d: "dirty", k: "being cleaned", x: "dirty, being cleaned" };
const CARD = 16;

function element(name, attributes = {}, ...inside) {
  const made = document.createElement(name);
  for (const [key, it] of Object.entries(attributes)) made.setAttribute(key, it);
  made.append(...inside);
  return made;
}

function drawn(name, attributes = {}, ...inside) {
  const made = document.createElementNS("http://www.w3.org/2000/svg", name);
  for (const [key, it] of Object.entries(attributes)) made.setAttribute(key, it);
  made.append(...inside);
  return made;
}

// The cells that aren't free, by their numbers.
function used(state) {
  return [...state.colours].map((letter, cell) => [cell, letter]).filter(([, letter]) => letter !== "f");
}

// What names cells from outside: variables, then registers.
function rootsOf(state) {
  const roots = state.roots.map(([section, variable, cell]) => ({ text: `s${section} v${variable}`, cell, kind: "root" }));
  for (const key of Object.keys(state).filter((it) => /^seat\d+$/.test(it) && state[it]))
    if (state[key].got >= 0) roots.push({ text: `reg ${key.slice(4)}`, cell: state[key].got, kind: "register" });
  return roots;
}

// Where each root and cell stands: rows of roots, and below them rows of cells.
function places(state, width) {
  const roots = rootsOf(state), cells = used(state);
  const wide = 62, across = Math.max(3, Math.floor(width / wide)), step = width / across;
  const rows = Math.ceil(roots.length / across), top = rows * 44 + (rows ? 26 : 4);
  const perRow = Math.max(2, Math.floor(width / 84)), gap = width / perRow;
  const place = new Map();
  cells.forEach(([cell], n) => {
    const row = Math.floor(n / perRow), inRow = Math.min(perRow, cells.length - row * perRow);
    place.set(cell, { x: ((n % perRow) + 0.5) * (width / Math.min(perRow, Math.max(inRow, cells.length < perRow ? cells.length : perRow))), y: top + row * 92 + 34 });
  });
  roots.forEach((it, n) => Object.assign(it, { x: ((n % across) + 0.5) * (roots.length < across ? width / roots.length : step), y: Math.floor(n / across) * 44 + 16 }));
  return { roots, cells, place, gap, height: top + Math.ceil(cells.length / perRow) * 92 };
}

// A curve from one point to another that stops short of what it leads to. A kind is its class.
function edge(from, to, kind, label) {
  const dx = to.x - from.x, dy = to.y - from.y, far = Math.hypot(dx, dy) || 1;
  const bend = Math.min(34, far / 4), mx = (from.x + to.x) / 2 - (dy / far) * bend, my = (from.y + to.y) / 2 + (dx / far) * bend;
  const endx = to.x - mx, endy = to.y - my, last = Math.hypot(endx, endy) || 1, stop = 26;
  const x = to.x - (endx / last) * stop, y = to.y - (endy / last) * stop;
  const begx = mx - from.x, begy = my - from.y, first = Math.hypot(begx, begy) || 1, start = kind.startsWith("field") ? 24 : 12;
  const path = `M${from.x + (begx / first) * start} ${from.y + (begy / first) * start} Q${mx} ${my} ${x} ${y}`;
  const made = drawn("g", {}, drawn("path", { class: `edge ${kind}`, d: path, "marker-end": "url(#arrow)" }));
  if (label !== "") made.append(drawn("text", { x: (mx + from.x) / 2, y: (my + from.y) / 2 }, label));
  return made;
}

function loop(at, kind, label) {
  const path = `M${at.x + 14} ${at.y - 20} C${at.x + 52} ${at.y - 46} ${at.x + 56} ${at.y + 6} ${at.x + 25} ${at.y + 2}`;
  const made = drawn("g", {}, drawn("path", { class: `edge ${kind}`, d: path, "marker-end": "url(#arrow)" }));
  if (label !== "") made.append(drawn("text", { x: at.x + 46, y: at.y - 24 }, label));
  return made;
}

// A black cell is a square, all others are circles; the letter says which.
function node(cell, letter, at, stake, changed) {
  const shape = letter === "b"
    ? drawn("rect", { class: "shape", x: at.x - 22, y: at.y - 22, width: 44, height: 44 })
    : drawn("circle", { class: "shape", cx: at.x, cy: at.y, r: 23 });
  const made = drawn("g", { class: `node ${letter}${stake ? " stake" : ""}${changed ? " changed" : ""}`, "data-cell": cell, "data-colour": NAMES[letter] }, drawn("title", {}, `cell ${cell}: ${NAMES[letter]}`), shape);
  made.append(drawn("text", { x: at.x, y: at.y - 2 }, `${cell}`), drawn("text", { x: at.x, y: at.y + 13 }, letter.toUpperCase()));
  if (stake) made.append(drawn("circle", { class: "ring", cx: at.x, cy: at.y, r: 31 }), drawn("text", { class: "mark", x: at.x + 34, y: at.y - 18 }, "!"));
  return made;
}

// The field of a cell, where that isn't free.
function fieldOf(state, cell, field) {
  return state[`cell${cell}`] && state[`cell${cell}`][3][field];
}

// What isn't as it was before, if there is a before, is drawn thick.
function drawHeap(svg, state, before, shape, stakes) {
  const width = Math.max(260, svg.clientWidth || 600), at = places(state, width);
  const old = new Set(before ? rootsOf(before).map((it) => `${it.text} ${it.cell}`) : []);
  const fresh = (it) => (before && !old.has(`${it.text} ${it.cell}`) ? " changed" : "");
  svg.setAttribute("viewBox", `0 0 ${width} ${Math.max(40, at.height)}`);
  svg.setAttribute("height", Math.max(40, at.height));
  const arrow = drawn("marker", { id: "arrow", viewBox: "0 0 8 8", refX: 7, refY: 4, markerWidth: 10, markerHeight: 10, markerUnits: "userSpaceOnUse", orient: "auto-start-reverse" }, drawn("path", { class: "head", d: "M0 0 L8 4 L0 8 z" }));
  const hatch = drawn("pattern", { id: "hatch", width: 6, height: 6, patternUnits: "userSpaceOnUse", patternTransform: "rotate(45)" }, drawn("rect", { width: 6, height: 6, fill: "#ddd" }), drawn("rect", { width: 3, height: 6, fill: "#b5b5b5" }));
  const parts = [drawn("defs", {}, arrow, hatch)];
  for (const it of at.roots) if (at.place.has(it.cell)) parts.push(edge(it, at.place.get(it.cell), it.kind + fresh(it), ""));
  for (const [cell] of at.cells)
    state[`cell${cell}`][3].forEach((to, field) => {
      if (to < 0 || !at.place.has(to)) return;
      const label = shape.fields > 1 ? `${field}` : "", kind = before && fieldOf(before, cell, field) !== to ? "field changed" : "field";
      parts.push(to === cell ? loop(at.place.get(cell), kind, label) : edge(at.place.get(cell), at.place.get(to), kind, label));
    });
  for (const it of at.roots)
    parts.push(drawn("g", { class: `root${fresh(it)}`, "data-root": it.text, "data-to": it.cell }, drawn("rect", { x: it.x - 26, y: it.y - 13, width: 52, height: 22, rx: 4 }), drawn("text", { x: it.x, y: it.y + 2 }, it.text)));
  for (const [cell, letter] of at.cells) parts.push(node(cell, letter, at.place.get(cell), stakes.has(cell), before && before.colours[cell] !== letter));
  if (!at.cells.length) parts.push(drawn("text", { x: width / 2, y: 24 }, "no cell is in use"));
  svg.replaceChildren(...parts);
}

function cardRow(k, state, before, stakes) {
  const row = element("span", { class: "row" });
  for (let cell = k * CARD; cell < (k + 1) * CARD; cell++) {
    const letter = state.colours[cell], shown = letter === "f" ? "." : letter.toUpperCase();
    row.append(element("span", { class: `cell ${letter}${stakes.has(cell) ? " stake" : ""}`, title: `cell ${cell}: ${NAMES[letter]}`, "data-at": cell }, shown));
  }
  const told = CARD_NAMES[state.cards[k]];
  return element("div", { class: `card${told === "clean" ? "" : " dirty"}`, "data-card": k, "data-state": told }, element("span", before && before.cards[k] !== state.cards[k] ? { class: "changed" } : {}, `card ${k}: ${told}`), row);
}
