// What the page does: asks as one types, and shows what is answered.

import { Editor, grammarRanges, unitsOf } from "./editor.js";
import { Picture, quoted } from "./picture.js";

const WAIT = 140; // milliseconds after the last key
const LONGEST_LINK = 30000; // characters
const $ = (id) => document.getElementById(id);

const grammar = new Editor($("grammar"), changed);
const input = new Editor($("input"), changed);
const picture = new Picture($("picture"), mark);
const page = crypto.randomUUID();
const state = { number: 0, timer: 0, units: null, trees: [], at: -1, ended: false, after: "forest", stop: null, answered: null };

/** A span of characters of the input, as the text area counts. */
function span(part) {
  const { units } = state;
  return units ? { begin: units[part.begin] ?? 0, end: units[part.end] ?? input.text.length } : { begin: part.begin, end: part.end };
}

function slice(part) {
  const { begin, end } = span(part);
  return input.text.slice(begin, end);
}

function mark(part) {
  input.mark("hover", part && part.begin < part.end ? span(part) : null);
  if (part) input.reveal("hover");
}

/** Asks the server; null where a newer request came. */
async function ask(kind, also = {}, signal = undefined) {
  state.number += 1;
  const view = Object.fromEntries([...$("options").querySelectorAll("input")].map((box) => [box.name, box.checked]));
  const body = JSON.stringify({ page, number: state.number, kind, grammar: grammar.text, input: input.text, view, ...also });
  const said = await fetch("answer", { method: "POST", headers: { "Content-Type": "application/json" }, body, signal });
  const answer = await said.json();
  if (answer.refused) throw new Error(answer.refused);
  return answer.stale ? null : answer;
}

function changed() {
  grammar.colour(grammarRanges(grammar.text));
  document.querySelector(".said").classList.add("waiting");
  clearTimeout(state.timer);
  state.timer = setTimeout(answer, WAIT);
}

async function answer() {
  clearTimeout(state.timer);
  state.stop?.abort();
  state.stop = new AbortController();
  const { signal } = state.stop;
  try {
    const said = await ask("answer", {}, signal);
    if (said && !signal.aborted) show(said);
  } catch (fault) {
    if (fault.name !== "AbortError") tell("bad", `The server doesn't answer: ${fault.message}`, "");
  }
}

function tell(kind, line, explanation) {
  document.querySelector(".said").className = `said ${kind}`;
  $("said").textContent = line;
  $("explanation").textContent = explanation;
  $("explanation").hidden = !explanation;
}

function show(said) {
  state.answered = said;
  state.units = unitsOf(input.text);
  [state.trees, state.at, state.ended] = [[], -1, false];
  link();
  const found = said.mark;
  const units = found && found.where === "grammar" ? unitsOf(grammar.text) : state.units;
  const range = found && { begin: units ? units[found.begin] : found.begin, end: units ? units[found.end] : found.end };
  grammar.mark("error", found && found.where === "grammar" ? range : null);
  input.mark("error", found && found.where === "input" ? range : null);
  for (const editor of [grammar, input]) editor.reveal("error");
  if (said.status === 0 && said.graph) {
    const trees = `${said.trees} ${said.trees === "1" ? "tree" : "trees"}`;
    tell(said.ambiguous ? "several" : "good", `${trees}${said.ambiguous ? ", ambiguous" : ""}; ${said.nodes.toLocaleString("en")} nodes, ${said.items.toLocaleString("en")} items`, "");
    input.colour(said.colours.map(([begin, end, kind]) => ({ ...span({ begin, end }), kind })));
    picture.show(said.graph, slice);
  } else {
    const line = said.status === null ? `Stopped after ${said.seconds} seconds` : said.explanation?.split("\n")[0] ?? said.note;
    tell("bad", line, said.explanation?.split("\n").slice(1).join("\n") ?? "");
    picture.say("No forest.");
  }
  $("depth-label").hidden = !said.cyclic;
  document.body.dataset.answered = String(said.number);
  fill();
}

// Views

const fills = { forest: () => {}, trees: () => tree(1), core: coreText, facts: factsTable };

function fill() {
  if (state.answered) fills[state.after]();
}

function choose(name, focus = false) {
  state.after = name;
  for (const tab of $("tabs").querySelectorAll("[role=tab]")) {
    const chosen = tab.id === `tab-${name}`;
    tab.setAttribute("aria-selected", String(chosen));
    tab.tabIndex = chosen ? 0 : -1;
    if (chosen && focus) tab.focus();
    $(tab.getAttribute("aria-controls")).hidden = !chosen;
  }
  mark(null);
  fill();
}

/** Goes to the next or the previous tree. */
async function tree(by) {
  const to = Math.max(0, state.at + by);
  if (by > 0 && to >= state.trees.length && !state.ended) {
    const after = state.trees.at(-1)?.cursor;
    const depth = state.answered.cyclic ? Number($("depth").value) : undefined;
    const { answered } = state;
    const said = answered.status === 0 ? await ask("tree", { after, depth }).catch(() => null) : { status: 1, note: "No tree." };
    if (!said || answered !== state.answered) return;
    if (said.status !== 0) { turnTo(null, said.note || "Stopped: it took too long."); return; }
    if (said.end) state.ended = true;
    else state.trees.push(said);
  }
  state.at = Math.min(to, state.trees.length - 1);
  turnTo(state.trees[state.at] ?? null, state.trees.length ? "" : "No tree of that height.");
}

function turnTo(said, note) {
  const last = state.ended && state.at === state.trees.length - 1;
  $("previous").disabled = state.at <= 0;
  $("next").disabled = !said || last;
  $("cursor").textContent = said ? `tree ${state.at + 1}${last ? ", the last one" : ""}, cursor ${said.cursor}` : note;
  const out = document.createDocumentFragment();
  (said?.rows ?? []).forEach((row, k) => out.append(rowLine(row, k, said.rows)));
  if (said?.cut) out.append(`… the first ${said.rows.length} parts`);
  $("tree").replaceChildren(out);
  document.body.dataset.tree = said ? said.cursor : "";
}

function rowLine([depth, label, name, , begin, end, text], k, rows) {
  const line = document.createElement("div");
  const inner = rows[k + 1] && rows[k + 1][0] > depth;
  line.setAttribute("role", "treeitem");
  line.setAttribute("aria-level", depth + 1);
  if (inner) line.setAttribute("aria-expanded", "true");
  line.tabIndex = k ? -1 : 0;
  Object.assign(line.dataset, { depth, begin, end });
  line.style.paddingLeft = `${depth * 1.1}em`;
  for (const [kind, said] of [["turn", inner ? "▾" : ""], ["label", label ? `${label}: ` : ""], ["name", name], ["leaf", text === null ? "" : `${name ? " " : ""}${quoted(text, 90)}`]]) {
    const piece = document.createElement("span");
    piece.className = kind;
    piece.textContent = said;
    line.append(piece);
  }
  return line;
}

/** Folds or unfolds what is below a line. */
function turnLine(line) {
  if (!line.hasAttribute("aria-expanded")) return;
  const open = line.getAttribute("aria-expanded") !== "true";
  line.setAttribute("aria-expanded", String(open));
  line.querySelector(".turn").textContent = open ? "▾" : "▸";
  let closed = open ? Infinity : Number(line.dataset.depth);
  for (let one = line.nextElementSibling; one && Number(one.dataset.depth) > Number(line.dataset.depth); one = one.nextElementSibling) {
    const depth = Number(one.dataset.depth);
    if (depth <= closed) closed = Infinity;
    one.hidden = depth > closed;
    if (!one.hidden && one.getAttribute("aria-expanded") === "false") closed = depth;
  }
}

async function coreText() {
  const said = await ask("core").catch(() => null);
  if (said) $("core-text").textContent = said.status === 0 ? said.text : said.note;
}

async function factsTable() {
  const said = await ask("facts").catch(() => null);
  if (!said) return;
  const facts = ["nullable", "unproductive", "unreachable", "left-recursive", "cyclic"];
  const table = document.createElement("table");
  table.append(tableRow("th", ["", ...facts]));
  for (const [name, ...found] of said.rows) table.append(tableRow("td", [name, ...facts.map((fact) => (found.includes(fact) ? "yes" : "–"))]));
  const line = document.createElement("p");
  line.textContent = said.note;
  $("facts-table").replaceChildren(said.status === 0 ? table : line);
}

function tableRow(kind, words) {
  const row = document.createElement("tr");
  for (const word of words) {
    const cell = document.createElement(kind);
    cell.textContent = word;
    if (word !== "–") cell.className = "is";
    row.append(cell);
  }
  return row;
}

// Links, examples and keys

function link() {
  const hash = `#g=${encodeURIComponent(grammar.text.toWellFormed?.() ?? grammar.text)}&i=${encodeURIComponent(input.text.toWellFormed?.() ?? input.text)}`;
  history.replaceState(null, "", hash.length > LONGEST_LINK ? location.pathname : hash);
}

function fromLink() {
  const found = /^#g=([^&]*)&i=([^&]*)$/.exec(location.hash);
  if (!found) return false;
  try {
    put(decodeURIComponent(found[1]), decodeURIComponent(found[2]));
  } catch {
    return false;
  }
  return true;
}

function put(grammarText, inputText) {
  grammar.text = grammarText;
  input.text = inputText;
  grammar.colour(grammarRanges(grammar.text));
  answer();
}

function keysOfTabs(event) {
  const tabs = [...$("tabs").querySelectorAll("[role=tab]:not([hidden])")];
  const step = { ArrowRight: 1, ArrowLeft: -1 }[event.key];
  const at = tabs.indexOf(document.activeElement);
  if (step && at >= 0) choose(tabs[(at + step + tabs.length) % tabs.length].id.slice(4), true);
}

function keysOfTree(event) {
  const line = event.target.closest("#tree > div");
  if (!line) return;
  const lines = [...$("tree").children].filter((one) => !one.hidden);
  const at = lines.indexOf(line);
  const open = line.getAttribute("aria-expanded");
  const to = { ArrowDown: lines[at + 1], ArrowUp: lines[at - 1], Home: lines[0], End: lines.at(-1) }[event.key];
  const turns = event.key === "Enter" || event.key === " " || (event.key === "ArrowLeft" && open === "true") || (event.key === "ArrowRight" && open === "false");
  if (to) {
    line.tabIndex = -1;
    to.tabIndex = 0;
    to.focus();
  } else if (turns) turnLine(line);
  else return;
  event.preventDefault();
}

async function begin() {
  const start = await (await fetch("start.json")).json();
  $("tab-facts").hidden = !start.facts;
  start.examples.forEach((example, k) => $("examples").append(new Option(example.name, k)));
  $("examples").append(new Option("your own", ""));
  $("examples").addEventListener("change", (event) => {
    const example = start.examples[event.target.value];
    if (example) put(example.grammar, example.input);
  });
  for (const editor of [grammar, input]) editor.area.addEventListener("input", () => { $("examples").value = ""; });
  $("tabs").addEventListener("click", (event) => { if (event.target.role === "tab") choose(event.target.id.slice(4)); });
  $("tabs").addEventListener("keydown", keysOfTabs);
  $("options").addEventListener("change", answer);
  $("unfold").addEventListener("click", () => picture.unfold(true));
  $("fold").addEventListener("click", () => picture.unfold(false));
  $("previous").addEventListener("click", () => tree(-1));
  $("next").addEventListener("click", () => tree(1));
  $("depth").addEventListener("input", () => { [state.trees, state.at, state.ended] = [[], -1, false]; tree(1); });
  $("tree").addEventListener("click", (event) => { const line = event.target.closest("#tree > div"); if (line) turnLine(line); });
  $("tree").addEventListener("keydown", keysOfTree);
  const over = (event) => { const line = event.target.closest("#tree > div"); mark(line && { begin: Number(line.dataset.begin), end: Number(line.dataset.end) }); };
  $("tree").addEventListener("mouseover", over);
  $("tree").addEventListener("focusin", over);
  $("tree").addEventListener("mouseleave", () => mark(null));
  $("tree").addEventListener("focusout", () => mark(null));
  $("link").addEventListener("click", async () => {
    link();
    await navigator.clipboard.writeText(location.href).then(() => { $("link").textContent = "Copied"; }, () => { $("link").textContent = "It is in the address"; });
    setTimeout(() => { $("link").textContent = "Copy link"; }, 1500);
  });
  window.addEventListener("hashchange", () => { if (fromLink()) $("examples").value = ""; });
  if (fromLink()) $("examples").value = "";
  else {
    const first = Math.max(0, start.examples.findIndex((example) => example.name.startsWith("sum.ig")));
    $("examples").value = String(first);
    put(start.examples[first].grammar, start.examples[first].input);
  }
}

begin().catch((fault) => tell("bad", `The server doesn't answer: ${fault.message}`, ""));
