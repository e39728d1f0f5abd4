"use strict";
// Steps through a script: what each step does to the queues and the held heads, and how it is told.
const data = JSON.parse(document.getElementById("data").textContent);
const $ = (name) => document.getElementById(name);

// A step as an object. Offers have six fields, visits ten.
function step(at) {
  const row = data.steps[at - 1];
  if (row.length === 6) {
    const [line, sender, number, length, accepted, evicted] = row;
    return { line, group: `line ${line}`, queue: data.queueOf[sender], packet: { name: `${sender}#${number}`, length }, accepted, evicted };
  }
  const [line, device, pull, node, input, fresh, name, length, passed, moment] = row;
  return { line, group: `pull ${device} ${pull}`, device, pull, node, input, fresh, got: name ? { name, length } : null, passed, moment, isVisit: true };
}

// What the queues and heads are after so many steps. One goes on from what is shown, or begins anew.
const state = { at: 0, queues: new Map(), heads: new Map() };

function rewind() {
  state.at = 0;
  state.queues = new Map(data.queues.map((it) => [it.name, []]));
  state.heads = new Map();
}

function advance() {
  state.at += 1;
  const it = step(state.at);
  if (!it.isVisit) {
    const queue = state.queues.get(it.queue);
    if (it.evicted) queue.shift();
    if (it.accepted) queue.push(it.packet);
    return;
  }
  const node = data.devices[it.device][it.node];
  const queue = state.queues.get(node.inputs[it.input]);
  if (queue && it.fresh && it.got) queue.shift();
  const place = `${it.device}-${it.node}-${it.input}`;
  if (it.got && !it.passed) state.heads.set(place, { packet: it.got, where: `${node.name} [${it.input}]` });
  else state.heads.delete(place);
}

function goTo(at) {
  if (at < state.at) rewind();
  while (state.at < at) advance();
  show();
}

// Words.
const sized = (packet) => `${packet.name} of ${packet.length} ${packet.length === 1 ? "byte" : "bytes"}`;

function visitInWords(it) {
  const node = data.devices[it.device][it.node];
  const source = `[${it.input}] ${node.inputs[it.input]}`;
  const begin = `Pull ${it.pull} of ${data.devices[it.device][0].name} at moment ${it.moment}: ${node.name} `;
  if (it.fresh && !it.got) return `${begin}asked ${source}: none.`;
  if (it.fresh) return `${begin}asked ${source}: ${sized(it.got)}, ${it.passed ? "passed" : "held"}.`;
  return `${begin}looked at ${sized(it.got)}, held for ${source}: ${it.passed ? "passed" : "still held"}.`;
}

function offerInWords(it) {
  if (!it.accepted) return `${it.queue} refused ${sized(it.packet)}: it is full.`;
  return `${it.queue} accepted ${sized(it.packet)}${it.evicted ? `, and evicted ${it.evicted}` : ""}.`;
}

function holds(name) {
  const queue = data.queues.find((it) => it.name === name);
  return `${name} holds ${state.queues.get(name).length} of ${queue.capacity}.`;
}

function afterInWords(it) {
  const source = it && (it.isVisit ? data.devices[it.device][it.node].inputs[it.input] : it.queue);
  const heads = [...state.heads.values()].map((head) => `${head.packet.name} at ${head.where}`);
  return `${state.queues.has(source) ? holds(source) + " " : ""}${heads.length ? `Held: ${heads.join(", ")}.` : "No head is held."}`;
}

// What is shown.
const LONGEST = 12;
const LINES_A_LIST = 200;

function showState() {
  for (const queue of data.queues) {
    const held = state.queues.get(queue.name);
    const names = held.slice(0, LONGEST).map((it) => it.name).join(" ");
    const row = $(`queue-${queue.name}`);
    row.cells[1].textContent = `${held.length} of ${queue.capacity}`;
    row.cells[2].textContent = held.length > LONGEST ? `${names} and ${held.length - LONGEST} more` : names;
  }
  const heads = [...state.heads.values()].map((it) => `${sized(it.packet)}, held by ${it.where}`);
  $("heads").replaceChildren(...(heads.length ? heads : ["No head is held."]).map((words) => Object.assign(document.createElement("li"), { textContent: words })));
}

function light(it) {
  for (const lit of document.querySelectorAll("#tree .lit, #tree .at")) lit.classList.remove("lit", "at", "none", "held");
  if (!it) return;
  if (!it.isVisit) return void $(`element-${it.queue}`).classList.add("at");
  const kind = !it.got ? ["none"] : it.passed ? [] : ["held"];
  const edge = $(`edge-${it.device}-${it.node}-${it.input}`);
  edge.classList.add("lit", ...kind);
  $(`element-${data.devices[it.device][it.node].name}`).classList.add("at");
  bringIntoView(edge, $("tree"));
}

// Scrolls a box, where it is smaller than what is in it, so that one part is seen.
function bringIntoView(part, box) {
  const [inside, outside] = [part.getBoundingClientRect(), box.getBoundingClientRect()];
  if (inside.top < outside.top || inside.bottom > outside.bottom) box.scrollTop += (inside.top + inside.bottom - outside.top - outside.bottom) / 2;
  if (inside.left < outside.left || inside.right > outside.right) box.scrollLeft += (inside.left + inside.right - outside.left - outside.right) / 2;
}

function showLine(line) {
  for (const current of document.querySelectorAll("#script [aria-current]")) current.removeAttribute("aria-current");
  if (!line) return void ($("script").scrollTop = 0);
  const shown = $("script").children[Math.floor((line - 1) / LINES_A_LIST)].children[(line - 1) % LINES_A_LIST];
  shown.setAttribute("aria-current", "step");
  bringIntoView(shown, $("script"));
}

function show() {
  const it = state.at ? step(state.at) : null;
  $("count").textContent = `Step ${state.at} of ${data.steps.length}`;
  $("words").textContent = it ? `Line ${it.line}: ${it.isVisit ? visitInWords(it) : offerInWords(it)}` : "Before the first line: all queues are empty. Arrow keys step on and back.";
  $("after").textContent = it ? afterInWords(it) : "";
  for (const name of ["first", "back", "back-pull"]) $(name).setAttribute("aria-disabled", state.at === 0);
  for (const name of ["last", "next", "next-pull"]) $(name).setAttribute("aria-disabled", state.at === data.steps.length);
  showState();
  light(it);
  showLine(it ? it.line : 0);
}

// Where one goes.
const groupAt = (at) => (at > 0 && at <= data.steps.length ? step(at).group : null);

// The last step of the next pull or send, and of the one before.
function endOfNext() {
  let at = Math.min(state.at + 1, data.steps.length);
  while (at < data.steps.length && groupAt(at + 1) === groupAt(at)) at += 1;
  return at;
}

function endBefore() {
  let at = state.at;
  while (at > 0 && groupAt(at) === groupAt(state.at)) at -= 1;
  return at;
}

const moves = {
  first: () => 0,
  "back-pull": endBefore,
  back: () => Math.max(0, state.at - 1),
  next: () => Math.min(data.steps.length, state.at + 1),
  "next-pull": endOfNext,
  last: () => data.steps.length,
};
const keys = { Home: "first", ArrowUp: "back-pull", ArrowLeft: "back", ArrowRight: "next", ArrowDown: "next-pull", End: "last" };

for (const [name, move] of Object.entries(moves)) $(name).addEventListener("click", () => goTo(move()));
document.addEventListener("keydown", (event) => {
  const name = keys[event.key];
  if (!name || event.ctrlKey || event.altKey || event.metaKey || event.shiftKey) return;
  event.preventDefault();
  goTo(moves[name]());
});

// The first step of a line of the script, which a click goes to.
function firstOf(line) {
  const at = data.steps.findIndex((row) => row[0] >= line);
  return at < 0 ? data.steps.length : at + 1;
}

// Some lines of the script as a list: of many lists only those that are seen are laid out.
function listFrom(line) {
  const list = Object.assign(document.createElement("ol"), { start: line + 1 });
  list.append(...data.script.slice(line, line + LINES_A_LIST).map((text) => Object.assign(document.createElement("li"), { textContent: text || " " })));
  list.style.containIntrinsicBlockSize = `auto ${list.children.length * 1.6}em`;
  return list;
}

function begin() {
  $("queues").replaceChildren(...data.queues.map((queue) => {
    const row = Object.assign(document.createElement("tr"), { id: `queue-${queue.name}` });
    row.innerHTML = '<th scope="row"></th><td></td><td></td>';
    row.cells[0].textContent = row.cells[0].title = queue.name;
    return row;
  }));
  for (let line = 0; line < data.script.length; line += LINES_A_LIST) $("script").append(listFrom(line));
  $("script").addEventListener("click", (event) => {
    const shown = event.target.closest("li");
    if (shown) goTo(firstOf(shown.parentNode.start + [...shown.parentNode.children].indexOf(shown)));
  });
  rewind();
  show();
}

begin();
