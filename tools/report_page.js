"use strict";
// Shows what the page's data has: cards for session lines, snapshots and calls, of which only those near the window
// are in the document.

const data = JSON.parse(document.getElementById("data").textContent);
const DRIVER = 0;
const [LINE, ACTOR, CLOCK, LOOK, CALL, TOUCHES, ROWS, SNAPSHOT] = [0, 1, 2, 3, 4, 5, 6, 7];
const [BY_ENTRY, FRONT, SAYS, CHANGED] = [0, 1, 2, 3];
const [NUMBER, CALLER, CLUSTER, ENTRIES, USED, PICKS, ROUTE, ENDED, WHY] = [0, 1, 2, 3, 4, 5, 6, 7, 8];
const CARDS_PER_CHUNK = 30, TREES_SHOWN = 6, ALL_TREES_SHOWN = 40, RAW_SHOWN = 240;
const list = document.getElementById("list");
const form = document.getElementById("filter");
const callPlace = new Map(data.calls.map((call, place) => [call[NUMBER], place]));
let view = "entries";

function element(tag, look, ...content) {
  const made = document.createElement(tag);
  if (look) made.className = look;
  made.append(...content);
  return made;
}

function button(text, action, look) {
  const made = element("button", look, text);
  made.type = "button";
  made.addEventListener("click", action);
  return made;
}

const withCommas = number => number.toLocaleString("en-US");
const actorName = actor => actor === DRIVER ? "driver" : "caller " + actor;

// A sentence, in which what stands between backticks is code.
function sentence(text) {
  const made = element("p");
  text.split("`").forEach((piece, place) => made.append(place % 2 ? element("code", "", piece) : piece));
  return made;
}

// Snapshots: each is told by what differs from the one before.

const known = {number: 0, trees: new Map()};

function treesOf(number) {
  if (number < known.number) Object.assign(known, {number: 0, trees: new Map()});
  for (; known.number < number; known.number++) {
    for (const [cluster, tree] of data.snapshots[known.number][CHANGED]) {
      if (tree < 0) known.trees.delete(cluster); else known.trees.set(cluster, tree);
    }
  }
  return [...known.trees].sort((one, other) => one[0] - other[0]);
}

function rawSnapshot(number) {
  const trees = treesOf(number).map(([cluster, tree]) => ` ${data.clusters[cluster][0]}=${data.trees[tree][0]}`);
  return `  snap ${number} front=${data.fronts[data.snapshots[number - 1][FRONT]][0]}${trees.join("")}`;
}

function raw(text) {
  const made = element("code", "raw");
  const cut = text.length > RAW_SHOWN ? text.slice(0, RAW_SHOWN) : text;
  const found = /^(\d+)( .*)$/s.exec(cut);
  if (found) made.append(element("span", "number", found[1]), found[2]); else made.append(cut);
  if (cut !== text) {
    made.append("… ", button(`show all ${withCommas(text.length)} characters`, () => made.replaceChildren(text), "more"));
  }
  return made;
}

function childPill([leaf, priority, state, flags], cluster) {
  const words = [state || "not there"];
  const looks = ["child", state || "none"];
  [["chosen", 1], ["pending", 2], ["out of use", 4]].forEach(([word, bit]) => {
    if (flags & bit) { words.push(word); looks.push(word === "out of use" ? "unused" : word); }
  });
  const name = leaf === cluster ? "priority " + priority : `${leaf}/${priority}`;
  return element("span", looks.join(" "), `${name}: ${words.join(", ")}`);
}

function treeLine(cluster, place) {
  const name = data.clusters[cluster][1];
  const made = element("div", "tree", element("span", "name", name));
  if (place < 0) return element("div", "tree", element("span", "name", name), element("span", "waits", "gone"));
  const [, error, serving, waiting] = data.trees[place];
  if (error) made.append(element("span", "child failing", "in error: " + error));
  made.append(...serving.map(child => childPill(child, name)));
  if (waiting) made.append(element("span", "waits", "a new tree waits:"), ...waiting.map(child => childPill(child, name)));
  return made;
}

// The trees that changed, or all; with a button that shows the others.
function trees(number, all) {
  const changed = data.snapshots[number - 1][CHANGED];
  const every = treesOf(number);
  const shown = all && every.length <= ALL_TREES_SHOWN ? every : changed.slice(0, TREES_SHOWN);
  const made = element("div", "trees", ...shown.map(([cluster, tree]) => treeLine(cluster, tree)));
  if (every.length > shown.length) {
    const more = button(`show all ${withCommas(every.length)} trees of snapshot ${number}`,
      () => made.replaceChildren(...treesOf(number).map(([cluster, tree]) => treeLine(cluster, tree))), "more");
    made.append(element("div", "", more));
  }
  return made;
}

// Cards.

function badge(look, text) {
  return element("span", "badge " + look, text);
}

// The badges of a line of the report.
function badges(text) {
  const found = /^\d+ \d+ \S+ (?:response|bytes|lost|pick) \S+ (\w+)/.exec(text);
  if (!found || found[1] === "ok") return [];
  const names = {ack: "ACK", nack: "NACK", toolong: "too long", notheld: "not held"};
  const looks = {ack: "good", endpoint: "good", queue: "slow", ignored: "quiet", closed: "quiet", notheld: "quiet"};
  return [badge(looks[found[1]] || "bad", names[found[1]] || found[1])];
}

function row(text, note) {
  const paragraph = sentence(note);
  paragraph.prepend(...badges(text));
  return element("div", "row", raw(text), element("div", "note", paragraph));
}

function snapshotRow(number) {
  const says = data.snapshots[number - 1][SAYS].map(sentence);
  says[0].prepend(badge("news", "snapshot " + number));
  const few = says.slice(0, TREES_SHOWN + 1);
  const note = element("div", "note", ...few);
  if (says.length > few.length) {
    const more = button(`show ${withCommas(says.length - few.length)} more changes`, () => note.replaceChildren(...says), "more");
    note.append(more);
  }
  return element("div", "row", raw(rawSnapshot(number)), note, trees(number, false));
}

function lineHeader(entry) {
  const made = element("header");
  const line = entry[LINE];
  made.append(element("strong", "", line ? "line " + line : "after the last line"), actorName(entry[ACTOR]));
  if (data.session && line) made.append(element("code", "", data.session[line]));
  if (entry[CALL] >= 0) made.append(button("why", () => goToCall(entry[CALL])));
  if (entry[CLOCK]) made.append(element("span", "clock", `at ${withCommas(entry[CLOCK])} ms`));
  return made;
}

const LOOKS = ["bad", "slow", "good", "call", "news", "quiet"];

// The card of a session line's entries, which stand one after another.
function entryCard(numbers) {
  const looks = numbers.map(number => data.entries[number - 1][LOOK]);
  const look = LOOKS.find(name => looks.includes(name));
  const made = element("section", "card " + look, lineHeader(data.entries[numbers[0] - 1]));
  for (const number of numbers) {
    const entry = data.entries[number - 1];
    entry[ROWS].forEach(([text, note]) => made.append(row(text, note)));
    if (entry[SNAPSHOT]) made.append(snapshotRow(entry[SNAPSHOT]));
  }
  return made;
}

function snapshotCard(number) {
  const [entry, front, says] = data.snapshots[number - 1];
  const header = element("header", "", element("strong", "", "snapshot " + number), element("span", "", data.fronts[front][1]),
    button("entry " + entry, () => goTo(entry)));
  const note = element("div", "note", ...says.slice(0, TREES_SHOWN + 1).map(sentence));
  note.style.gridColumn = "1 / -1";
  return element("section", "card news", header, element("div", "row", note, trees(number, true)));
}

function placeButtons(entries) {
  return element("div", "places", ...entries.map(entry => button("entry " + entry, () => goTo(entry))));
}

function callCard(place) {
  const call = data.calls[place];
  const looks = call[PICKS].map(pick => pick[1]);
  const look = ["bad", "slow", "good"].find(name => looks.includes(name)) || "call";
  const cluster = call[CLUSTER] < 0 ? "no cluster" : data.clusters[call[CLUSTER]][1];
  const header = element("header", "", element("strong", "", "call " + call[NUMBER]), actorName(call[CALLER]),
    element("span", "", call[ROUTE]), element("strong", "", cluster));
  header.append(...call[PICKS].map(([name, pickLook]) => badge(pickLook, name)), call[ENDED]);
  const why = element("ol", "why", ...call[WHY].map(text => element("li", "", ...sentence(text).childNodes)));
  return element("section", "card " + look, header, why, placeButtons(call[ENTRIES]));
}

// The filter.

function wantedLines(text) {
  const found = /^\s*(\d+)\s*(?:-\s*(\d+)\s*)?$/.exec(text);
  return found && [Number(found[1]), Number(found[2] || found[1])];
}

function wantedClusters(text) {
  const exact = data.clusters.findIndex(names => names.includes(text));
  if (exact >= 0) return new Set([exact]);
  return new Set(data.clusters.flatMap((names, place) => names.some(name => name.includes(text)) ? [place] : []));
}

// What the form asks for; a member is null where anything is.
function readFilter() {
  const field = name => form.elements[name].value.trim();
  const lines = field("line") ? wantedLines(field("line")) : null;
  form.elements.line.classList.toggle("wrong", Boolean(field("line")) && !lines);
  const call = field("call") ? callPlace.get(Number(field("call"))) : null;
  form.elements.call.classList.toggle("wrong", call === undefined);
  return {
    clusters: field("cluster") ? wantedClusters(field("cluster")) : null, lines, call,
    actor: field("actor") ? Number(field("actor")) : null, text: field("text").toLowerCase(),
    quiet: form.elements.quiet.checked,
  };
}

function takesEntry(wanted, number) {
  const entry = data.entries[number - 1];
  if (wanted.actor !== null && entry[ACTOR] !== wanted.actor) return false;
  if (wanted.lines && (entry[LINE] < wanted.lines[0] || entry[LINE] > wanted.lines[1])) return false;
  if (wanted.clusters && !entry[TOUCHES].some(cluster => wanted.clusters.has(cluster))) return false;
  if (wanted.call === undefined || wanted.call !== null && !isOfCall(data.calls[wanted.call], number, entry)) return false;
  if (wanted.quiet && entry[LOOK] === "quiet") return false;
  return !wanted.text || entryTexts(entry).some(text => text.toLowerCase().includes(wanted.text));
}

function isOfCall(call, number, entry) {
  return call[ENTRIES].includes(number) || entry[SNAPSHOT] > 0 && call[USED].includes(entry[SNAPSHOT]);
}

function entryTexts(entry) {
  const texts = entry[ROWS].flat();
  if (entry[SNAPSHOT]) texts.push(...data.snapshots[entry[SNAPSHOT] - 1][SAYS]);
  if (data.session && entry[LINE]) texts.push(data.session[entry[LINE]]);
  return texts;
}

// The cards of the view that the filter takes: each a function that makes it, with its entries and rows.
function cards() {
  const wanted = readFilter();
  const entries = data.entries.flatMap((_, place) => takesEntry(wanted, place + 1) ? [place + 1] : []);
  if (view === "entries") return {cards: entryCards(entries), count: entries.length, of: data.entries.length, what: "entries"};
  if (view === "snapshots") {
    const numbers = entries.flatMap(number => data.entries[number - 1][SNAPSHOT] || []);
    const made = numbers.map(number => {
      return {entries: [data.snapshots[number - 1][BY_ENTRY]], rows: 3, make: () => snapshotCard(number)};
    });
    return {cards: made, count: made.length, of: data.snapshots.length, what: "snapshots"};
  }
  const calls = new Set(entries.map(number => data.entries[number - 1][CALL]));
  const made = data.calls.flatMap((call, place) => calls.has(call[NUMBER])
    ? [{entries: call[ENTRIES], rows: 6, make: () => callCard(place)}] : []);
  return {cards: made, count: made.length, of: data.calls.length, what: "calls"};
}

function entryCards(entries) {
  const made = [];
  let line = -1, group = [];
  for (const number of entries) {
    const entry = data.entries[number - 1];
    if (entry[LINE] !== line || group[group.length - 1] !== number - 1) {
      group = [];
      const own = group;
      made.push({entries: own, rows: 1, make: () => entryCard(own)});
      line = entry[LINE];
    }
    group.push(number);
    made[made.length - 1].rows += entry[ROWS].length + (entry[SNAPSHOT] ? 2 : 0);
  }
  return made;
}

// The list: chunks of cards, filled while they are near the window.

let chunks = [];
let current = [];
const watcher = new IntersectionObserver(seen => seen.forEach(one => {
  if (one.isIntersecting) fill(one.target); else empty(one.target);
}), {rootMargin: "1200px 0px"});

function fill(chunk) {
  if (chunk.filled) return;
  chunk.filled = true;
  chunk.style.height = "";
  chunk.replaceChildren(...chunk.cards.map(card => {
    const made = card.make();
    made.tabIndex = -1;
    made.dataset.entry = card.entries[0];
    return made;
  }));
}

function empty(chunk) {
  if (!chunk.filled || chunk.contains(document.activeElement)) return;
  chunk.style.height = chunk.offsetHeight + "px";
  chunk.filled = false;
  chunk.replaceChildren();
}

function show() {
  const {cards: made, count, of, what} = cards();
  const part = count === of ? "" : `${withCommas(count)} of `;
  document.getElementById("shown").textContent = `${part}${withCommas(of)} ${what}`;
  watcher.disconnect();
  current = made;
  chunks = [];
  for (let start = 0; start < made.length; start += CARDS_PER_CHUNK) {
    const chunk = element("div", "chunk");
    chunk.cards = made.slice(start, start + CARDS_PER_CHUNK);
    chunk.style.height = chunk.cards.reduce((sum, card) => sum + 38 + 34 * card.rows, 0) + "px";
    chunks.push(chunk);
  }
  list.replaceChildren(...chunks);
  if (!made.length) list.append(element("p", "empty", `No ${what} here are taken by the filter.`));
  if (chunks.length) fill(chunks[0]);
  chunks.forEach(chunk => watcher.observe(chunk));
}

function setView(name) {
  view = name;
  document.querySelectorAll("[data-view]").forEach(tab => tab.setAttribute("aria-pressed", String(tab.dataset.view === name)));
  show();
  const controls = form.parentElement;
  if (list.getBoundingClientRect().top < controls.getBoundingClientRect().bottom) {
    window.scrollBy(0, list.getBoundingClientRect().top - controls.getBoundingClientRect().bottom);
  }
}

// Brings a card of the view to the top of the window.
function goToCard(place, keepFocus) {
  if (place < 0) return;
  const chunk = chunks[Math.floor(place / CARDS_PER_CHUNK)];
  fill(chunk);
  const card = chunk.children[place % CARDS_PER_CHUNK];
  const scroll = () => card.scrollIntoView({block: "start"});
  scroll();
  requestAnimationFrame(() => { scroll(); requestAnimationFrame(scroll); });
  if (!keepFocus) card.focus({preventScroll: true});
  showHere(current[place].entries[0]);
}

// Shows the card of an entry, or the next one that the filter takes.
function goTo(number, keepFocus) {
  if (view !== "entries") setView("entries");
  goToCard(current.findIndex(card => card.entries[card.entries.length - 1] >= number), keepFocus);
  showHere(number);
}

// Shows why a call went where it went.
function goToCall(number) {
  setView("calls");
  const call = data.calls[callPlace.get(number)];
  goToCard(current.findIndex(card => card.entries === call[ENTRIES]));
}

function showHere(number) {
  document.getElementById("entry").value = number;
  document.getElementById("slide").value = number;
  const left = 100 * (number - 0.5) / data.entries.length + "%";
  document.querySelectorAll(".here").forEach(line => { line.style.left = left; });
}

// The card at the top of the window, and the one after or before it.
function step(by) {
  const shown = [...list.querySelectorAll(".card")];
  const top = form.parentElement.getBoundingClientRect().bottom;
  const focused = shown.findIndex(card => card === document.activeElement);
  const place = focused >= 0 ? focused : shown.findIndex(card => card.getBoundingClientRect().bottom > top);
  const next = shown[Math.max(0, place + (focused < 0 && by > 0 ? 0 : by))];
  if (!next) return;
  next.focus({preventScroll: true});
  next.scrollIntoView({block: "start"});
  showHere(Number(next.dataset.entry));
}

// The page's parts that wait for the user.

function drawAxis() {
  const axis = document.getElementById("axis"), count = data.entries.length;
  const steps = [0, 1, 2, 3, 4, 5].flatMap(power => [1, 2, 5].map(one => one * 10 ** power));
  const width = steps.find(one => count / one <= 12) || count;
  for (let number = width === 1 ? 1 : width; number <= count; number += width) {
    const label = element("b", number / count > 0.97 ? "last" : "", withCommas(number));
    label.style.left = 100 * (number - 0.5) / count + "%";
    axis.append(label);
  }
}

// Cards that are gone to stand below the controls, where these stay at the window's top.
function keepControlsHeight() {
  const controls = form.parentElement;
  const height = getComputedStyle(controls).position === "sticky" ? controls.offsetHeight : 0;
  document.documentElement.style.setProperty("--controls", height + 10 + "px");
}

function listen() {
  new ResizeObserver(keepControlsHeight).observe(form.parentElement);
  form.addEventListener("input", () => { clearTimeout(listen.timer); listen.timer = setTimeout(show, 120); });
  form.addEventListener("reset", () => setTimeout(show));
  form.addEventListener("submit", event => event.preventDefault());
  document.querySelectorAll("[data-view]").forEach(tab => tab.addEventListener("click", () => setView(tab.dataset.view)));
  document.getElementById("slide").addEventListener("input", event => goTo(Number(event.target.value), true));
  document.getElementById("entry").addEventListener("change", event => goTo(Number(event.target.value), true));
  document.querySelectorAll("#lanes .lane:not(.axis) .track").forEach(track => {
    track.append(element("span", "here"));
    track.addEventListener("click", event => {
      const box = track.getBoundingClientRect();
      const part = (event.clientX - box.left) / box.width;
      goTo(1 + Math.min(data.entries.length - 1, Math.floor(part * data.entries.length)));
    });
  });
  document.addEventListener("keydown", event => {
    if (event.target.closest("input, select, textarea") || event.ctrlKey || event.metaKey || event.altKey) return;
    if (event.key === "j") step(1);
    else if (event.key === "k") step(-1);
    else if (event.key === "/") { event.preventDefault(); form.elements.cluster.focus(); }
  });
}

function begin() {
  const actors = [...new Set(data.entries.map(entry => entry[ACTOR]))].sort((one, other) => one - other);
  form.elements.actor.append(...actors.map(actor => {
    const option = element("option", "", actorName(actor));
    option.value = actor;
    return option;
  }));
  document.getElementById("clusters").append(...data.clusters.slice(0, 2000).map(([, name]) => {
    const option = element("option");
    option.value = name;
    return option;
  }));
  for (const [name, value] of Object.entries(data.wanted)) {
    form.elements[name].value = name === "actor" ? value.replace(/^d$/, "c0").slice(1) : value;
  }
  drawAxis();
  listen();
  keepControlsHeight();
  show();
  showHere(1);
  const found = /^#(?:(entry|call)-(\d+)|(entries|snapshots|calls))$/.exec(location.hash);
  if (!found) return;
  if (found[3]) setView(found[3]);
  else if (found[1] === "entry") goTo(Number(found[2]));
  else if (callPlace.has(Number(found[2]))) goToCall(Number(found[2]));
}

begin();
