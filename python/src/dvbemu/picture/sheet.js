"use strict";
// Cuts the picture into strips that fit the window, and ties its marks to the list of commands. What it draws stands in #source, once.
const $ = (id) => document.getElementById(id);
const SVG = "http://www.w3.org/2000/svg";
const state = { zoom: 1, row: null, hidden: new Set() };
const rows = [...$("list").children].filter((row) => row.dataset.client);
const byClient = new Map();
for (const row of rows) {
  if (!byClient.has(row.dataset.client)) byClient.set(row.dataset.client, []);
  byClient.get(row.dataset.client).push(row);
}

// The last row of a client that begins at this step, or stands at this line, or before.
function rowAt(client, name, value) {
  const own = byClient.get(client) || [];
  let low = 0, high = own.length;
  while (low < high) {
    const middle = (low + high) >> 1;
    if (+own[middle].dataset[name] <= value) low = middle + 1; else high = middle;
  }
  return own[low - 1] || null;
}

// The rows that a mark's title names.
function rowsOf(lane, title) {
  const found = new Set();
  for (const line of title.split("\n")) {
    const call = line.match(/^\d+ (c\d) (\d+) /), command = line.match(/^line (\d+), steps /);
    const row = call ? rowAt(call[1], "first", +call[2]) : command ? rowAt(lane, "line", +command[1]) : null;
    if (row) found.add(row);
  }
  return found;
}

const lanes = [...$("source").children].map((group) => {
  const lane = { name: group.dataset.lane, top: +group.dataset.top, bottom: +group.dataset.bottom, names: [], shapes: [] };
  for (const shape of group.children) {
    const x = +shape.getAttribute("x"), box = shape.getBBox();
    const title = shape.querySelector("title");
    const one = { shape, from: box.x, to: box.x + box.width, rows: title ? rowsOf(lane.name, title.textContent) : new Set() };
    if (shape.hasAttribute("transform")) [one.from, one.to] = [x - 6, x + 2];
    (shape.tagName === "text" && x < LEFT ? lane.names : lane.shapes).push(one);
  }
  return lane;
});
const shapes = lanes.flatMap((lane) => lane.shapes);
shapes.forEach((one, number) => { if (one.rows.size) one.shape.setAttribute("data-shape", number); });

function inner(x, width, begin, lane, those) {
  const part = document.createElementNS(SVG, "svg"), high = lane.bottom - lane.top;
  for (const [name, value] of Object.entries({ x, y: 0, width, height: high, viewBox: `${begin} ${lane.top} ${width} ${high}` })) part.setAttribute(name, value);
  for (const one of those) part.append(one.shape.cloneNode(true));
  return part;
}

function cuts(room) {
  const found = [EDGES[0]];
  for (let place = 1; place < EDGES.length - 1; place++) {
    if (EDGES[place + 1] - found.at(-1) > room) found.push(EDGES[place]);
  }
  return [...found, EDGES.at(-1)];
}

function draw() {
  const zoom = state.zoom, room = Math.max($("strips").clientWidth / zoom - LEFT - 8, 60), ends = cuts(room), made = [];
  for (let number = 0; number + 1 < ends.length; number++) {
    const [from, to] = [ends[number], ends[number + 1]], strip = document.createElement("div");
    strip.className = "strip";
    for (const lane of lanes) {
      if (state.hidden.has(lane.name)) continue;
      const outer = document.createElementNS(SVG, "svg"), wide = LEFT + to - from + 0.7, high = lane.bottom - lane.top;
      for (const [name, value] of Object.entries({ width: wide * zoom, height: high * zoom, viewBox: `0 0 ${wide} ${high}` })) outer.setAttribute(name, value);
      outer.dataset.lane = lane.name;
      outer.append(inner(0, LEFT, 0, lane, lane.names));
      outer.append(inner(LEFT, to - from + 0.7, from, lane, lane.shapes.filter((one) => one.to >= from && one.from <= to)));
      strip.append(outer);
    }
    made.push(strip);
  }
  $("strips").replaceChildren(...made);
  $("zoomed").textContent = `${Math.round(zoom * 100)} %`;
  mark(state.row, false);
}

// The marks of a row: those that name it, or else, where several are gathered, the last box of its client that begins before it.
function marksOf(row) {
  const own = shapes.filter((one) => one.rows.has(row));
  if (own.length) return own;
  const lane = lanes.find((one) => one.name === row.dataset.client), line = +row.dataset.line;
  const begun = lane ? lane.shapes.filter((one) => one.rows.size && +[...one.rows][0].dataset.line <= line) : [];
  return begun.slice(-1);
}

function mark(row, moves) {
  document.querySelectorAll(".marked").forEach((one) => one.classList.remove("marked"));
  state.row = row;
  if (!row) return;
  row.classList.add("marked");
  const numbers = marksOf(row).map((one) => one.shape.getAttribute("data-shape"));
  const found = numbers.flatMap((number) => [...$("strips").querySelectorAll(`[data-shape="${number}"]`)]);
  found.forEach((one) => one.classList.add("marked"));
  if (moves === "row") row.scrollIntoView({ block: "nearest" });
  if (moves === "mark" && found.length) found[0].scrollIntoView({ block: "center" });
}

function zoomBy(factor) {
  state.zoom = factor ? Math.min(4, Math.max(0.5, state.zoom * factor)) : 1;
  draw();
}

function sift() {
  const asked = $("search").value.trim().toLowerCase();
  let shown = 0, told = 0;
  for (const row of rows) {
    const gone = state.hidden.has(row.dataset.client) || state.hidden.has(row.dataset.node);
    row.hidden = gone || (asked !== "" && !row.textContent.toLowerCase().includes(asked));
    shown += !row.hidden;
  }
  for (const sentence of document.querySelectorAll("#told p")) {
    const has = asked !== "" && sentence.textContent.toLowerCase().includes(asked);
    sentence.classList.toggle("found", has);
    told += has;
  }
  $("count").textContent = `${shown} of ${rows.length} ${rows.length === 1 ? "command" : "commands"}`
    + (asked ? `, ${told} ${told === 1 ? "sentence" : "sentences"}` : "");
}

function theme(name) {
  document.documentElement.dataset.theme = name;
  $("theme").textContent = name === "dark" ? "light" : "dark";
}

for (const box of document.querySelectorAll("#lanes input")) {
  box.addEventListener("change", () => {
    if (box.checked) state.hidden.delete(box.value); else state.hidden.add(box.value);
    draw();
    sift();
  });
}
$("strips").addEventListener("click", (event) => {
  const shape = event.target.closest("[data-shape]");
  if (shape) mark([...shapes[+shape.dataset.shape].rows][0], "row");
});
$("list").addEventListener("click", (event) => {
  const row = event.target.closest("[data-client]");
  if (row) mark(row, "mark");
});
$("strips").addEventListener("wheel", (event) => {
  if (!event.ctrlKey && !event.altKey) return;
  event.preventDefault();
  zoomBy(event.deltaY < 0 ? 1.15 : 1 / 1.15);
}, { passive: false });
$("search").addEventListener("input", sift);
$("larger").addEventListener("click", () => zoomBy(1.25));
$("smaller").addEventListener("click", () => zoomBy(0.8));
$("theme").addEventListener("click", () => theme(document.documentElement.dataset.theme === "dark" ? "light" : "dark"));
document.addEventListener("keydown", (event) => {
  if (event.key === "Escape") { $("search").value = ""; $("search").blur(); sift(); mark(null); }
  if (event.target.tagName === "INPUT" && event.target.type === "search" || event.ctrlKey || event.metaKey) return;
  if (event.key === "+" || event.key === "=") zoomBy(1.25);
  if (event.key === "-") zoomBy(0.8);
  if (event.key === "0") zoomBy(0);
  if (event.key === "/") { event.preventDefault(); $("search").focus(); }
});
let waiting = 0;
window.addEventListener("resize", () => { cancelAnimationFrame(waiting); waiting = requestAnimationFrame(draw); });
theme(matchMedia("(prefers-color-scheme: dark)").matches ? "dark" : "light");
draw();
sift();
