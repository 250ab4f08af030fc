"use strict";
// Steps through the runs of a sample. Every text is set as text, never as markup.
(() => {
const SVG = "http://www.w3.org/2000/svg";
const LISTED = 64, WIDE = 1000, HIGH = 150, LEFT = 40, TOP = 32, POINTS = 900;
const data = JSON.parse(document.getElementById("data").textContent);
const at = (id) => document.getElementById(id);
const state = { run: 0, place: 0, regions: [], sizes: [], hides: false, isShown: true, timer: null };

// A whole number with its digits in groups of three.
const whole = (number) => String(number).replace(/\B(?=(\d{3})+$)/g, ",");
const plural = (number, noun) => `${whole(number)} ${noun}${String(number) === "1" ? "" : "s"}`;
const steps = () => state.regions.length - 1;
const isLast = () => state.run === data.runs.length - 1;

// An element with attributes and a text.
function made(name, attributes = {}, text = "") {
  const element = document.createElementNS(SVG, name);
  for (const [key, value] of Object.entries(attributes)) element.setAttribute(key, value);
  element.textContent = text;
  return element;
}

// A region: the least and the greatest number of each queue, and the states of a set.
function regionOf(form) {
  if (form.box) return { low: form.box[0], high: form.box[1], set: null };
  const low = form.set[0].slice(), high = form.set[0].slice();
  for (const one of form.set) {
    one.forEach((number, queue) => {
      low[queue] = Math.min(low[queue], number);
      high[queue] = Math.max(high[queue], number);
    });
  }
  return { low, high, set: form.set };
}

// The region after a change of another one.
function changed(region, change) {
  if (change === 0) return region;
  if (!Array.isArray(change)) return regionOf(change);
  const low = region.low.slice(), high = region.high.slice();
  for (const [queue, least, greatest] of change) {
    low[queue] = least;
    high[queue] = greatest;
  }
  return { low, high, set: null };
}

// All regions of a run, from its start to time zero.
function regionsOf(run) {
  const found = [regionOf(run.begin)];
  for (const change of run.steps) found.push(changed(found[found.length - 1], change));
  return found;
}

// The number of states of a region.
function countOf(region) {
  if (region.set) return BigInt(region.set.length);
  return region.low.reduce((count, low, queue) => count * BigInt(region.high[queue] - low + 1), 1n);
}

// The logarithm of the number of states, to the base ten.
function sizeOf(region) {
  if (region.set) return Math.log10(region.set.length);
  return region.low.reduce((sum, low, queue) => sum + Math.log10(region.high[queue] - low + 1), 0);
}

// The name of an event within a sentence.
const called = (event) => (event.place === null ? event.name : `“${event.name}”`);

const interval = (low, high) => (low === high ? whole(low) : `${whole(low)} to ${whole(high)}`);

// How a run ends, in words.
function endOf(run) {
  const length = run.steps.length;
  const left = countOf(regionsOf(run)[length]);
  const end = left === 1n ? "all states have coalesced" : `${plural(left, "state")} left, so it fails`;
  return `${plural(length, "step")}: ${end}`;
}

// The bar and the text that each queue of the picture gets.
const gauges = data.queues.map((queue, place) => {
  const box = at(`queue-q${place}`).getBBox();
  const group = made("g", { "class": "gauge" });
  const certain = made("rect", { y: box.y, height: box.height, fill: "#0072b2", "fill-opacity": 0.55 });
  const possible = made("rect", { y: box.y, height: box.height, fill: "url(#hatch)", stroke: "#d55e00" });
  const text = made("text", {
    x: box.x + box.width / 2, y: box.y + box.height / 2 + 4.2, "text-anchor": "middle", "font-size": 12,
    "font-weight": "bold", fill: "#000", stroke: "#fff", "stroke-width": 3.4, "paint-order": "stroke",
    "font-family": "DejaVu Sans, sans-serif",
  });
  group.append(certain, possible, text);
  return { box, group, certain, possible, text, capacity: queue.capacity };
});

function addGauges() {
  const hatch = made("pattern", { id: "hatch", width: 5, height: 5, patternUnits: "userSpaceOnUse" });
  hatch.append(made("path", { d: "M0 5L5 0", stroke: "#d55e00", "stroke-width": 1.4 }));
  at("picture").append(hatch, ...gauges.map((gauge) => gauge.group));
  data.queues.forEach((queue, place) => {
    const row = at("queues").insertRow();
    row.insertCell().textContent = queue.name;
    row.insertCell().id = `customers-${place}`;
    row.insertCell().textContent = whole(queue.capacity);
  });
}

// Fills each queue from its server's side: solid up to its least number, hatched up to its greatest. While the
// answer is hidden it is the region before the step that is shown.
function showRegion(isHidden) {
  const region = state.regions[state.place - (isHidden ? 1 : 0)];
  gauges.forEach((gauge, place) => {
    const { x, width } = gauge.box, share = width / gauge.capacity;
    const low = region.low[place], high = region.high[place];
    gauge.certain.setAttribute("x", x + width - share * low);
    gauge.certain.setAttribute("width", share * low);
    gauge.possible.setAttribute("x", x + width - share * high);
    gauge.possible.setAttribute("width", share * (high - low));
    const text = interval(low, high) + (isHidden ? " → ?" : "");
    gauge.text.textContent = text;
    at(`customers-${place}`).textContent = text;
  });
  const count = plural(countOf(region), "state");
  at("size").textContent = isHidden ? `${count} before this event: how many are left?` : `${count} left`;
  at("listed").hidden = !region.set;
  const listed = (region.set || []).slice(0, LISTED).map((one) => one.join(","));
  const more = (region.set || []).length - listed.length;
  at("states").textContent = listed.join("  ") + (more > 0 ? `  and ${whole(more)} more` : "");
}

// The step that ends at the place, as the steps before time zero at which its word is drawn.
const timeOf = (place) => steps() - place + 1;

function showEvent() {
  const isBegin = state.place === 0;
  const time = timeOf(state.place);
  const number = data.numbers[time - 1], event = data.events[number];
  document.querySelectorAll(".fires").forEach((arrow) => arrow.classList.remove("fires"));
  at("now").textContent = isBegin ? `Time −${whole(steps())}: the start of the run`
    : `Step ${whole(state.place)} of ${whole(steps())}, to time ${time === 1 ? "zero" : `−${whole(time - 1)}`}`;
  if (isBegin) {
    at("event").textContent = "The run begins in every state at once.";
    at("word").textContent = "";
    return;
  }
  const name = event.place === null ? "idle: nothing happens" : `${event.name}, rate ${whole(event.rate)}`;
  at("event").textContent = `Event: ${name}`;
  const word = data.words[time - 1];
  const isOne = event.end - event.from === 1, isIdle = event.place === null;
  const verb = isIdle ? (isOne ? "is" : "are") : (isOne ? "picks" : "pick");
  const numbers = isOne ? whole(event.from) : `${whole(event.from)} to ${whole(event.end - 1)}`;
  at("word").textContent = `Random word ${whole(word)}; modulo ${whole(data.modulus)} it is `
    + `${whole(word % data.modulus)}, and ${numbers} ${verb} ${called(event)}.`;
  data.arrows.forEach((place, arrow) => {
    if (place !== event.place) return;
    const parts = document.querySelectorAll(`[id^="arrow-${arrow}-"]:not([id$="-blocks"])`);
    parts.forEach((one) => one.classList.add("fires"));
  });
  scrollToArrow();
}

// Where the picture is wider than the screen, brings the arrow that fires to its middle.
function scrollToArrow() {
  const arrow = document.querySelector(".fires"), drawing = at("picture").parentElement;
  if (arrow === null || drawing.scrollWidth <= drawing.clientWidth) return;
  const part = arrow.getBoundingClientRect(), whole = drawing.getBoundingClientRect();
  drawing.scrollLeft += part.left + part.width / 2 - whole.left - whole.width / 2;
}

// What replay checks of the line of the log that has this step, in words.
function checksOf() {
  if (!isLast()) return ["Nothing: psi writes no log of a run that fails. A plain program in Python followed this one."];
  const place = state.place, region = state.regions[place], before = state.regions[place - 1];
  const line = `Line ${whole(6 + place)} of the log`;
  if (place === 0) return [`${line} has every state of the network: ${plural(countOf(region), "state")}.`];
  const time = timeOf(place), event = called(data.events[data.numbers[time - 1]]);
  const found = [
    `${line} is step ${whole(time)} before time zero, one less than the line above it.`,
    `The random word of seed ${data.seed}, stream ${data.stream} and step ${whole(time)} picks ${event}.`,
    "The line's region lies within the capacities of the queues.",
  ];
  if (region.set && !before.set) found.push("The states of the box above are few enough to be listed as a set.");
  const above = countOf(before) === 1n ? "the state" : `each of the ${whole(countOf(before))} states`;
  found.push(`What ${event} makes of ${above} above is in this region.`);
  if (place === steps()) found.push(`One state is left, and the last line of the log repeats it: ${region.low.join(",")}.`);
  return found;
}

function showChecks(isHidden) {
  const texts = isHidden ? ["The answer is hidden."] : checksOf();
  at("checks").replaceChildren(...texts.map((text) => {
    const item = document.createElement("li");
    item.textContent = text;
    return item;
  }));
}

const across = (place) => LEFT + (WIDE - LEFT - 20) * (steps() ? place / steps() : 0);

// The line of the number of states, up to a place; of many steps each point is the greatest of some.
function drawChart(until) {
  const most = state.sizes[0] || 1, step = Math.max(1, Math.ceil(steps() / POINTS));
  const height = (size) => TOP + HIGH * (1 - size / most);
  const points = [];
  for (let place = 0; place <= until; place += step) {
    const some = state.sizes.slice(place, Math.min(place + step, until + 1));
    points.push(`${across(place).toFixed(1)},${height(Math.max(...some)).toFixed(1)}`);
  }
  const here = across(state.place).toFixed(1), low = HIGH + TOP;
  at("chart").replaceChildren(
    made("path", { "class": "axis", d: `M${LEFT} ${TOP}V${low}H${WIDE - 20}` }),
    made("polyline", { "class": "curve", points: points.join(" ") }),
    made("path", { "class": "here", d: `M${here} ${TOP}V${low}` }),
    made("text", { x: LEFT, y: TOP - 8 }, plural(countOf(state.regions[0]), "state")),
    made("text", { x: LEFT - 12, y: low, "text-anchor": "end" }, "1"),
    made("text", { x: LEFT, y: low + 8, "dominant-baseline": "hanging" }, `−${whole(steps())}`),
    made("text", { x: WIDE - 20, y: low + 8, "text-anchor": "end", "dominant-baseline": "hanging" }, "time zero"),
  );
}

function show() {
  const isHidden = state.hides && !state.isShown;
  showRegion(isHidden);
  showEvent();
  showChecks(isHidden);
  at("question").hidden = !isHidden;
  at("question").textContent = isHidden ? "Which states are left after this event? Enter shows the answer." : "";
  drawChart(state.hides ? state.place - (isHidden ? 1 : 0) : steps());
  const time = at("time");
  time.value = state.place;
  time.setAttribute("aria-valuetext", at("now").textContent);
}

function go(place) {
  const found = Math.max(0, Math.min(steps(), place));
  state.isShown = !(state.hides && found > state.place);
  state.place = found;
  show();
}

// One step on; while an answer is hidden it is shown first.
function next() {
  if (state.hides && !state.isShown) return reveal();
  if (state.place === steps()) return pause();
  go(state.place + 1);
}

function reveal() {
  state.isShown = true;
  show();
}

function choose(run) {
  if (run < 0 || run >= data.runs.length) return;
  state.run = run;
  state.regions = regionsOf(data.runs[run]);
  state.sizes = state.regions.map(sizeOf);
  at("run").value = run;
  at("time").max = steps();
  at("chosen").textContent = `The run of ${endOf(data.runs[run])}.`;
  state.place = 0;
  state.isShown = true;
  show();
}

function pause() {
  clearInterval(state.timer);
  state.timer = null;
  at("play").textContent = "Play";
}

function play() {
  if (state.timer !== null) return pause();
  if (state.place === steps()) go(0);
  state.timer = setInterval(next, 1000 / Number(at("speed").value));
  at("play").textContent = "Pause";
}

function toggle(button, is) {
  at(button).setAttribute("aria-pressed", String(is));
}

function hide() {
  state.hides = !state.hides;
  state.isShown = true;
  toggle("hide", state.hides);
  show();
}

function enlarge() {
  toggle("large", document.body.classList.toggle("large"));
}

const KEYS = {
  ArrowRight: next, ArrowLeft: () => go(state.place - 1), PageDown: () => go(state.place + 10),
  PageUp: () => go(state.place - 10), Home: () => go(0), End: () => go(steps()), " ": play, Enter: reveal,
  "[": () => choose(state.run - 1), "]": () => choose(state.run + 1), h: hide, l: enlarge,
};

function pressed(event) {
  const key = event.key.length === 1 ? event.key.toLowerCase() : event.key;
  const isTyped = event.target.matches("select") || (event.target.matches("input") && key.length > 1);
  const isPressed = event.target.matches("button, summary") && (key === " " || key === "Enter");
  if (!(key in KEYS) || isTyped || isPressed || event.ctrlKey || event.altKey || event.metaKey) return;
  event.preventDefault();
  KEYS[key]();
}

function begin() {
  addGauges();
  data.runs.forEach((run, place) => at("run").add(new Option(endOf(run), place)));
  at("about").textContent = `Seed ${data.seed}, stream ${data.stream}. Each run begins in all states, `
    + "and every run has the same random words.";
  const clicks = {
    first: KEYS.Home, back: KEYS.ArrowLeft, play, next, last: KEYS.End, hide, large: enlarge,
  };
  for (const [id, does] of Object.entries(clicks)) at(id).addEventListener("click", does);
  at("run").addEventListener("change", () => choose(Number(at("run").value)));
  at("speed").addEventListener("change", () => { if (state.timer !== null) { pause(); play(); } });
  at("time").addEventListener("input", () => go(Number(at("time").value)));
  at("chart").addEventListener("click", (event) => {
    const box = at("chart").getBoundingClientRect();
    const place = ((event.clientX - box.left) / box.width * WIDE - LEFT) / (WIDE - LEFT - 20);
    go(Math.round(place * steps()));
  });
  document.addEventListener("keydown", pressed);
  addEventListener("beforeprint", () => { at("listed").open = true; });
  addEventListener("afterprint", () => { at("listed").open = false; });
  choose(data.runs.length - 1);
}

begin();
})();
