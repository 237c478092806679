// Behind page.js in the same script: what a page shows of a place, and what its buttons, keys and clicks do.

// ---- what is shown

// what the step before this place changed: of which hart, which registers and bytes
function lastChange() {
  if (place === first) return { rank: -1, hart: -1, registers: [], bytes: [] };
  const registers = [], bytes = [];
  readStep(place - 1 - first);
  eachEdit((kind, at) => kind === REGISTER ? registers.push(at) : kind === BYTE && bytes.push(at));
  return { rank: read.rank, hart: read.hart, registers, bytes };
}
// an element with this text, marked as fresh, as the present line and so on
function made(tag, text, kind) {
  const element = document.createElement(tag);
  element.textContent = text;
  if (kind) element.className = kind;
  return element;
}
function link(text, deed) {
  const element = made("button", text, "link");
  element.onclick = deed;
  return element;
}
const fill = (name, ...parts) => find(name).replaceChildren(...parts);
const pcOf = (hart) => parseInt(standAt(hart.stand), 16);
const nameOf = (r, h) => "rank " + r + " hart " + h;

const causes = ["jump to a misaligned address", "jump out of the text", "illegal instruction", "breakpoint",
  "misaligned load", "load outside memory", "misaligned store", "store outside memory or into the text"];

// why a hart trapped, as `why` says it: a store failed since the stack is full if x2 is in the text, or below 0
function causeOf(hart, number) {
  const pointer = valueAt(hart.registers[2]);
  const isFull = (pointer.length === 16 && pointer[0] > "7") || parseInt(pointer, 16) + 4 <= textEnd;
  return number === "7" && isFull ? "stack overflow" : causes[number];
}

function toldOf(hart) {
  const [, pc, mode, number, at] = /^([0-9a-f]+)([wxt]?)(\d*)\.?([0-9a-f]*)$/.exec(standAt(hart.stand));
  if (mode === "x") return "ended " + number;
  if (mode === "t") return "trapped " + number + " (" + causeOf(hart, number) + ") at " + named(parseInt(at, 16));
  return (mode === "w" ? "waiting at " : "running at ") + named(parseInt(pc, 16));
}

function showStep() {
  const tell = (step) => {
    if (step < first || step >= last) return "none";
    if (markOf(step)) return titleOf(step);
    const [rank, hart] = harted(step);
    const at = pcBefore(step);
    const line = program[rows.get(at)];
    return step + " " + nameOf(rank, hart) + " at " + named(at) + ": " + (line ? line.text.slice(20) : "no text");
  };
  fill("told-step", made("div", "done: " + tell(place - 1)), made("div", "next: " + tell(place)));
}

function showHarts(fresh) {
  const all = [];
  ranks.forEach((rank, r) => rank.harts.forEach((hart, h) => {
    const moved = fresh.rank === r && fresh.hart === h;
    const chosen = shown.rank === r && shown.hart === h;
    const line = made("button", nameOf(r, h) + " " + toldOf(hart), (chosen ? "chosen" : "") + (moved ? " fresh" : ""));
    line.onclick = () => { shown = { rank: r, hart: h }; show(); };
    all.push(line);
  }));
  fill("harts", ...all);
}

function showRegisters(hart, fresh) {
  const mine = fresh.rank === shown.rank && fresh.hart === shown.hart;
  fill("registers", ...hart.registers.map(valueAt).map((value, number) => {
    const line = made("span", "", mine && fresh.registers.includes(number) ? "fresh" : "");
    line.append(made("b", NAMES[number].padEnd(5)), made("i", ("x" + number).padEnd(4)));
    line.append(made("i", "0".repeat(16 - value.length)), value);
    return line;
  }));
}

function showProgram(pc) {
  const row = rows.get(pc);
  if (row === undefined) return fill("program-lines", made("div", "no text at 0x" + hex(pc, 1)));
  const from = Math.max(0, row - 5);
  fill("program-lines", ...program.slice(from, row + 7)
    .map((line, number) => made("div", line.text, from + number === row ? "present" : line.address < 0 ? "name" : "")));
}

function addressIn(text, size) {
  const symbol = symbols.find((one) => one.name === text.trim());
  const at = symbol ? symbol.address : Number(text);
  return Math.max(0, Math.min(size - 64, Math.trunc(at) || 0));
}

// 64 bytes: as they are, as words of four, low byte first, and as text
function showMemory(memory, fresh) {
  const from = addressIn(find("address").value, memory.length);
  const all = [];
  for (let at = from; at < from + 64; at += 8) {
    const row = [...memory.subarray(at, at + 8)];
    const line = made("div", hex(at, 5) + " ");
    const isFresh = (n) => shown.rank === fresh.rank && fresh.bytes.includes(at + n);
    row.forEach((byte, n) => line.append(" ", made("span", hex(byte, 2), isFresh(n) ? "fresh" : "")));
    const words = [row.slice(0, 4), row.slice(4)].map((four) => four.reverse().map((byte) => hex(byte, 2)).join(""));
    const letters = memory.subarray(at, at + 8);
    line.append("  " + words.join(" ") + "  ", printed(String.fromCharCode(...letters)));
    all.push(line);
  }
  fill("memory", ...all);
}

function showOutputs() {
  const all = ranks.flatMap((rank, r) => rank.put === 0 ? [] : [made("h3", "rank " + r + ", " + rank.put + " bytes"),
    made("pre", printedLines(new TextDecoder("latin1").decode(rank.output.subarray(0, rank.put))))]);
  fill("outputs", ...(all.length ? all : ["nothing"]));
}

// a message or a partition, with links to both its ends
function wayLine(way) {
  const what = way.kind === "m" ? "tag " + way.what[0] + ", " + way.what[1] + " bytes"
    : "partition " + way.what[1] + " of link " + way.what[0] + ", phase " + way.what[2];
  const line = made("div", "rank " + way.from + " to " + way.to + ": " + what + "; ");
  line.append(link("sent at step " + way.sent, () => visit(way.sent)), ", ",
    way.got === undefined ? "got by nobody" : link("got at step " + way.got, () => visit(way.got)));
  return line;
}
function wayLines(way) {
  const value = carried(way);
  return value.length ? [wayLine(way), made("div", valued(value, kindOf("messages")), "value")] : [wayLine(way)];
}

// what was sent before this place, and wasn't got; and what the last step sent or got
function showWays() {
  const there = ways.filter((way) => way.sent < place && (way.got === undefined || way.got >= place));
  fill("ways-now", ...(there.length ? there.flatMap(wayLines) : ["nothing"]));
  const lately = ways.filter((way) => way.got === place - 1);
  find("step-ways-head").hidden = lately.length === 0;
  fill("step-ways", ...lately.flatMap(wayLines));
}

function showEnd() {
  const lines = waits.map(([rank, hart, kind, ...awaited]) => {
    const whom = awaited.length ? "rank " + awaited.join(", ") : "its own rank";
    const stuck = kind === "s";
    return made("div", nameOf(rank, hart) + " waits for " + whom + (stuck ? ": in a deadlock" : ""), stuck ? "stuck" : "");
  });
  const whole = lines.length ? [...lines, made("pre", told.join("\n"))] : ["no hart waits"];
  fill("end-lines", ...(place === last ? whole : ["told at place " + last]));
}

// scrolls a pane until a part of it is in view, in the middle; what is sticky in the pane covers its scroll padding
function reveal(pane, part) {
  const { scrollPaddingTop, scrollPaddingBottom } = getComputedStyle(pane);
  const { top, bottom } = part.getBoundingClientRect(), edge = pane.getBoundingClientRect().top;
  const from = edge + parseFloat(scrollPaddingTop), to = edge + pane.clientHeight - parseFloat(scrollPaddingBottom);
  if (top < from || bottom > to) pane.scrollTop += (top + bottom - from - to) / 2;
}

// the last mark up to this place, and a line across the picture
function showMark() {
  document.querySelectorAll("g.page-at").forEach((g) => g.classList.remove("page-at"));
  const mark = earlier(marks, place);
  const group = markOf(mark);
  const line = find("line");
  line.style.display = group ? "" : "none";
  if (!group) return;
  if (mark === place - 1) group.classList.add("page-at");
  const picture = find("picture"), { top, bottom } = group.getBoundingClientRect();
  line.style.top = (top + bottom) / 2 - picture.getBoundingClientRect().top + picture.scrollTop + 3 + "px";
  reveal(picture, group);
}

// ---- the calls and the source

// where a hart stands and by which calls it came there, the innermost first
function stackOf(hart) {
  const all = [pcOf(hart)];
  for (let one = hart.step < 0 ? -1 : within[hart.step]; one >= 0; one = calls[one].up) all.push(calls[one].back - 4);
  return all;
}

function showCalls(hart) {
  fill("calls", ...stackOf(hart).map((address) => lineAt(address) ? link(named(address), () => showSource(lineAt(address)))
    : made("div", named(address))));
}

// the sources, by their names: those that stand in the page, and those that were opened from the disk
const sources = new Map();
const decoded = (some) => new TextDecoder().decode(some);
let begun;
for (const line of lines("texts")) {
  if (line.startsWith("\\file ")) sources.set(unescaped(line.slice(6)), begun = []);
  else begun.push(decoded(Uint8Array.from(unescaped(line), (letter) => letter.charCodeAt(0))));
}
let file, drawn; // which is in view, and which is drawn

function drawSource(name) {
  if (drawn === name) return;
  drawn = name;
  fill("text", ...sources.get(name).map((text, n) => {
    const at = name + ":" + (n + 1);
    const line = made("div", "", stops.has(at) ? "stop" : "");
    line.append(made("span", "", "at"), made("span", String(n + 1).padStart(4), "number"), " " + text);
    line.onclick = () => {
      if (!stops.delete(at)) {
        if (!points.some((one) => one.line === at)) return say("no step is of line " + at);
        stops.add(at);
      }
      line.classList.toggle("stop", stops.has(at));
      say((stops.has(at) ? "a breakpoint at " : "no breakpoint at ") + at);
    };
    return line;
  }));
}

// the source with this line in view, or with that of the hart in view
function showSource(at) {
  const own = ranks[shown.rank].harts[shown.hart];
  const line = at || stackOf(own).map(lineAt).find((one) => one);
  if (line && sources.has(line[0])) file = line[0];
  document.body.classList.toggle("sourced", sources.size > 0);
  if (sources.size === 0) return;
  if (!sources.has(file)) file = [...sources.keys()][0];
  find("file").replaceChildren(...[...sources.keys()].map((name) => new Option(name, name, name === file, name === file)));
  drawSource(file);
  const all = find("text").children;
  for (const one of find("text").querySelectorAll(".present, .done")) one.classList.remove("present", "done");
  for (const one of find("text").querySelectorAll(".at b")) one.remove();
  const [done, number] = place > first && lineAt(pcBefore(place - 1)) || [];
  if (done === file && all[number - 1]) all[number - 1].classList.add("done");
  ranks.forEach((rank, r) => rank.harts.forEach((hart, h) => {
    const [name, number] = stackOf(hart).map(lineAt).find((one) => one) || [];
    if (name !== file || !all[number - 1] || /[xt]/.test(standAt(hart.stand))) return;
    all[number - 1].firstChild.append(made("b", rank.harts.length > 1 ? r + "." + h : r, "r" + r));
  }));
  const present = line && line[0] === file && all[line[1] - 1];
  if (present) present.classList.add("present");
  const inView = present || find("text").querySelector(".done");
  if (inView) reveal(find("text"), inView);
}

// opens sources from the disk: they come to no other place than this page
async function open() {
  for (const one of find("open").files) sources.set(one.name, decoded(await one.arrayBuffer()).split("\n"));
  drawn = undefined;
  show();
}

let settled; // browsers refuse to change the address often
function show() {
  const owner = ranks[shown.rank];
  const hart = owner.harts[shown.hart];
  const fresh = lastChange();
  find("place").value = place;
  fill("whose", nameOf(shown.rank, shown.hart));
  find("whose-values").textContent = "rank " + shown.rank;
  showStep();
  showHarts(fresh);
  showCalls(hart);
  showValues(fresh);
  showRegisters(hart, fresh);
  showProgram(pcOf(hart));
  showMemory(owner.memory, fresh);
  showOutputs();
  showWays();
  showEnd();
  showMark();
  showSource();
  clearTimeout(settled);
  settled = setTimeout(() => history.replaceState(null, "", "#" + place), 300);
}

// ---- buttons, keys, clicks and the address

let playing;
function pause() {
  clearInterval(playing);
  playing = undefined;
  find("play").textContent = "play";
}
// plays marks, lines or steps until there is none, or a breakpoint is met
function play() {
  if (playing !== undefined) return pause();
  find("play").textContent = "pause";
  playing = setInterval(() => {
    const at = place;
    DEEDS[{ marks: "next-mark", lines: "next-line", steps: "step" }[find("unit").value]]();
    if (place === at || place === last || stops.has(place < last ? lineBefore(place) : "")) pause();
  }, 1000 / +find("speed").value);
}

// large letters and high contrast
function enlarge() {
  kept.rvmcBig = kept.rvmcBig === "yes" ? "no" : "yes";
  document.documentElement.classList.toggle("big", kept.rvmcBig === "yes");
  fit();
  show();
}

const DEEDS = {
  home: () => move(place === first ? first - 1 : first), back: () => move(place - 1), step: () => move(place + 1),
  end: () => move(place === last ? last + 1 : last), "next-mark": nextMark, "last-mark": lastMark,
  "next-line": nextLine, "last-line": lastLine, "next-stop": nextStop, "last-stop": lastStop, "other-end": otherEnd,
  "next-hit": () => search(true), "last-hit": () => search(false), play, enlarge,
};
const KEYS = { ArrowRight: "step", ArrowLeft: "back", Home: "home", End: "end", n: "next-line", p: "last-line", c: "next-stop",
  C: "last-stop", m: "other-end", " ": "play", "+": "enlarge" };
for (const name in DEEDS) find(name).onclick = DEEDS[name];
find("place").onchange = () => go(+find("place").value);
find("address").onchange = show;
find("others").ontoggle = show;
find("watch").onchange = watch;
find("open").onchange = open;
find("file").onchange = () => showSource([find("file").value, 1]);
find("search").addEventListener("keydown", (event) => event.key === "Enter" && search(!event.shiftKey));
for (const mark of marks) markOf(mark).addEventListener("click", () => visit(mark));
addEventListener("keydown", (event) => {
  const { key, target } = event;
  if (key === "Escape") target.blur();
  if (/^(INPUT|SELECT)$/.test(target.tagName) || event.ctrlKey || event.altKey || event.metaKey) return;
  if (key === " " && /^(BUTTON|SUMMARY)$/.test(target.tagName)) return;
  const deed = event.shiftKey && key === "ArrowRight" ? nextMark : event.shiftKey && key === "ArrowLeft" ? lastMark
    : key === "[" || key === "]" ? () => watchedChange(key === "]")
    : key === "/" ? () => find("search").select() : key === "w" ? () => find("watch").select() : DEEDS[KEYS[key]];
  if (!deed) return;
  event.preventDefault();
  deed();
});
const jump = () => go(location.hash === "" ? first : +location.hash.slice(1));
addEventListener("hashchange", jump);

// a click on a message leads to its other end: each arrow has a wider one, unseen, below it
for (const arrow of document.querySelectorAll("#page-picture g>.a")) {
  const [, sent, , got] = /^step (\d+) of rank \d+ to (step (\d+))?/.exec(arrow.parentNode.firstChild.textContent) || [];
  if (sent === undefined) continue;
  const wide = arrow.cloneNode();
  wide.removeAttribute("marker-end");
  wide.setAttribute("class", "page-way");
  arrow.before(wide);
  arrow.parentNode.addEventListener("click", () => crossed({ sent: +sent, got: got && +got }));
}

// the names of the lanes stay in view above the picture
const drawing = document.querySelector("#page-picture>svg");
if (drawing) {
  const names = drawing.cloneNode(false);
  names.setAttribute("height", 44);
  names.append(...[...drawing.querySelectorAll("svg>text[y='24'],svg>text[y='38']")].map((one) => one.cloneNode(true)));
  find("lanes").append(names);
}

// a picture that is wider than its pane leaves out what is written beside its marks
function fit() {
  if (!drawing) return;
  const { classList, scrollLeft, clientWidth } = find("picture");
  classList.remove("narrow");
  const right = drawing.getBoundingClientRect().right - find("picture").getBoundingClientRect().left + scrollLeft;
  classList.toggle("narrow", right > clientWidth + 1 || innerWidth <= 700); // its own style does so up to 700 pixels
}
find("picture").style.setProperty("--digits", String(last).length);
new ResizeObserver(fit).observe(find("picture"));

document.documentElement.classList.toggle("big", kept.rvmcBig === "yes");
find("range").textContent = first === 0 ? "of " + last : "of " + first + " to " + last;
find("place").min = first;
find("place").max = last;
find("names-known").replaceChildren(...symbols.map((symbol) => new Option(symbol.name)));
find("search-known").replaceChildren(...[...new Set(points.map((one) => one.line))].sort().map((line) => new Option(line)),
  ...labels.filter((one) => known.has(one.address)).map((one) => new Option(one.name)));
find("watch-known").replaceChildren(...datas.map((one) => new Option(one.name)));
fill("values", ...mine.map((row) => row.line));
fill("other-values", ...others.map((row) => row.line));
find("message-kind").replaceWith(choice("messages"));
jump();
