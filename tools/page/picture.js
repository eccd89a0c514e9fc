// A forest as a picture that folds. Where something is used twice it is drawn twice, and the second one is folded.

const NS = "http://www.w3.org/2000/svg";
const CHAR = 7.3, LEVEL = 58, TALL = 34, GAP = 14;
const WIDE = 24, AT_MOST = 1200; // pixels for each box that is seen without being asked; boxes when all are unfolded
const IN_BOX = 26, IN_FOLDED = 18; // characters of a text

/** A text in quotes, on one line, and not too long. */
export function quoted(text, most) {
  const chars = [...text];
  const cut = chars.length > most ? [...chars.slice(0, most - 7), "…", ...chars.slice(-6)].join("") : text;
  return JSON.stringify(cut).replace(/[\u0080-\u009f\u200b-\u200f\u2028-\u202e\u2060-\u206f\ufeff]/g,
    (char) => `\\u${char.charCodeAt(0).toString(16).padStart(4, "0")}`);
}

function make(name, attributes, ...children) {
  const out = document.createElementNS(NS, name);
  for (const [key, value] of Object.entries(attributes)) out.setAttribute(key, value);
  out.append(...children);
  return out;
}

export class Picture {
  /** `onSpan` is told the span of the part under the pointer or the focus, or null. */
  constructor(host, onSpan) {
    this.host = host;
    this.onSpan = onSpan;
    this.turned = new Map(); // by place in the picture: unfolded or not, where one has said so
    this.limit = 0;
    this.all = false; // whether what is used twice is unfolded twice
    this.current = "0";
    const over = (event) => event.target.closest?.("g[data-key]");
    host.addEventListener("mouseover", (event) => this.point(over(event)));
    host.addEventListener("mouseleave", () => this.onSpan(null));
    host.addEventListener("focusin", (event) => this.point(over(event)));
    host.addEventListener("focusout", () => this.onSpan(null));
    host.addEventListener("click", (event) => { const one = over(event); if (one) this.turn(one.dataset.key); });
    host.addEventListener("keydown", (event) => this.key(event));
  }

  /** Draws the parts of a forest; `slice` gives the text of a span. Where the parts are alike, what is folded stays so. */
  show(graph, slice) {
    const shape = graph.parts.map((part) => part.name).join(" ");
    const anew = shape !== this.shape || !this.graph;
    if (anew) { this.turned.clear(); this.all = false; this.limit = Math.max(12, this.host.clientWidth / WIDE); }
    [this.graph, this.slice, this.shape] = [graph, slice, shape];
    this.uses = new Map();
    for (const part of graph.parts) {
      for (const way of part.ways) for (const [, id] of way.children) this.uses.set(id, (this.uses.get(id) ?? 0) + 1);
    }
    this.draw();
    if (anew) this.showTop();
  }

  /** Scrolls to the root. */
  showTop() {
    this.host.scrollTo(this.byKey.get("0").x - this.host.clientWidth / 2, 0);
  }

  say(text) {
    this.graph = null;
    const line = document.createElement("p");
    line.textContent = text;
    this.host.replaceChildren(line);
  }

  unfold(all) {
    if (!this.graph) return;
    this.turned.clear();
    this.all = all;
    this.limit = all ? AT_MOST : 0;
    this.draw();
    this.showTop();
  }

  /** The boxes that are seen, parents first. */
  boxes() {
    const { parts, label } = this.graph;
    const seen = new Set();
    const boxes = [this.box(0, "0", label, null)];
    for (let k = 0; k < boxes.length; k += 1) {
      const one = boxes[k];
      if (!one.below.length) continue;
      const usual = boxes.length < this.limit && (one.way !== null || !one.round && (this.all || !seen.has(one.id)));
      one.open = (this.turned.get(one.key) ?? usual) && boxes.length < AT_MOST * 2;
      if (one.way === null) seen.add(one.id);
      if (one.open) {
        one.children = one.below.map((make, n) => make(`${one.key}.${n}`));
        boxes.push(...one.children);
      }
    }
    return boxes;
  }

  box(id, key, label, parent) {
    const part = this.graph.parts[id];
    const several = part.ways.length > 1;
    let round = false;
    for (let one = parent; one && !round; one = one.parent) round = one.way === null && one.id === id;
    const box = { id, key, label, parent, part, way: null, several, round, open: false, children: [] };
    box.below = several ? part.ways.map((way, n) => (inner) => this.wayBox(box, way, n, inner))
      : (part.ways[0]?.children ?? []).map(([name, child]) => (inner) => this.box(child, inner, name, box));
    box.leaf = !part.ways.length && !part.cut;
    box.shared = !box.leaf && this.uses.get(id) > 1;
    return box;
  }

  wayBox(parent, way, n, key) {
    const box = { id: parent.id, key, label: null, parent, part: parent.part, way: n, tag: way.tag, open: false, children: [] };
    box.below = way.children.map(([name, child]) => (inner) => this.box(child, inner, name, box));
    return box;
  }

  /** The lines of a box: a name, and the text where it is a leaf or folded. */
  lines(box) {
    if (box.way !== null) return box.tag ? [["name", box.tag]] : [];
    const name = (box.label ? `${box.label}: ` : "") + box.part.name + (box.part.values ?? "");
    const out = name ? [["name", name]] : [];
    if (box.leaf || !box.open) out.push(["leaf", quoted(this.slice(box.part), box.leaf ? IN_BOX : IN_FOLDED)]);
    return out.length ? out : [["name", "…"]];
  }

  draw() {
    const boxes = this.boxes();
    for (const box of boxes) {
      box.said = this.lines(box);
      box.width = box.way === null ? Math.max(30, ...box.said.map(([, text]) => [...text].length * CHAR + 16)) : 26 + (box.tag ? [...box.tag].length * CHAR * 2 : 0);
      box.level = box.parent ? box.parent.level + 1 : 0;
    }
    for (const box of [...boxes].reverse()) {
      const sum = box.children.reduce((all, child) => all + child.room + GAP, -GAP);
      box.inner = box.children.length ? sum : 0;
      box.room = Math.max(box.width, box.inner);
    }
    boxes[0].x = GAP + boxes[0].room / 2;
    for (const box of boxes) {
      let left = box.x - box.inner / 2;
      for (const child of box.children) {
        child.x = left + child.room / 2;
        left += child.room + GAP;
      }
    }
    const width = Math.ceil(boxes[0].room + 2 * GAP);
    const height = Math.max(...boxes.map((box) => box.level)) * LEVEL + TALL + 28;
    const svg = make("svg", { width, height, viewBox: `0 0 ${width} ${height}`, role: "tree", "aria-label": "Forest" });
    this.byKey = new Map(boxes.map((box) => [box.key, box]));
    if (!this.byKey.has(this.current)) this.current = "0";
    for (const box of boxes) if (box.parent) svg.append(this.line(box));
    for (const box of boxes) svg.append(this.shape_(box));
    this.host.replaceChildren(svg);
  }

  line(box) {
    const [x, y] = [box.parent.x, box.parent.level * LEVEL + 8 + (box.parent.way === null ? TALL : 28)];
    const bottom = box.level * LEVEL + 8 + (box.way === null ? 0 : 5);
    const kind = box.way !== null ? "" : box.round ? "round" : box.shared ? "shared" : "";
    return make("path", { class: kind, d: `M${x} ${y}C${x} ${y + 14} ${box.x} ${bottom - 14} ${box.x} ${bottom}` });
  }

  shape_(box) {
    const top = box.level * LEVEL + 8;
    const kinds = [box.way === null ? box.part.kind : "way", box.several && "several", box.shared && "shared", box.round && "round"];
    const g = make("g", { class: kinds.filter(Boolean).join(" "), "data-key": box.key, role: "treeitem",
      tabindex: box.key === this.current ? 0 : -1, "aria-level": box.level + 1, "aria-label": this.words(box) });
    if (box.below.length) g.setAttribute("aria-expanded", String(box.open));
    if (box.way !== null) {
      g.append(make("circle", { cx: box.x, cy: top + 16, r: 11 }), this.word(box.x, top + 20, "name", String(box.way + 1)));
      if (box.tag) g.append(this.word(box.x + 16 + [...box.tag].length * CHAR / 2, top + 20, "name", box.tag));
      if (box.below.length && !box.open) g.append(this.word(box.x, top + TALL + 5, "label", "▾"));
      return g;
    }
    g.append(make("rect", { x: box.x - box.width / 2, y: top, width: box.width, height: TALL, rx: 6 }));
    box.said.forEach(([kind, text], n) => g.append(this.word(box.x, top + (box.said.length === 1 ? 21 : 14 + 14 * n), kind, text)));
    if (box.below.length && !box.open) g.append(this.word(box.x, top + TALL + 11, "label", box.several ? `▾${box.below.length}` : "▾"));
    if (box.part.cut) g.append(this.word(box.x, top + TALL + 11, "label", "…"));
    return g;
  }

  word(x, y, kind, text) {
    return make("text", { x, y, class: kind }, text);
  }

  words(box) {
    if (box.way !== null) return `way ${box.way + 1}${box.tag ? `, ${box.tag}` : ""}`;
    const { part } = box;
    return [`${box.label ? `${box.label}: ` : ""}${part.name || "text"}`, quoted(this.slice(part), 40),
      box.several && `ambiguous, ${part.ways.length} ways`, box.shared && "used more than once", box.round && "leads back to itself"]
      .filter(Boolean).join(", ");
  }

  point(g) {
    const box = g && this.byKey?.get(g.dataset.key);
    this.onSpan(box ? box.part : null);
  }

  turn(key) {
    const box = this.byKey.get(key);
    this.current = key;
    if (box.below.length) {
      this.turned.set(key, !box.open);
      this.draw();
    }
    this.focus(key);
  }

  focus(key) {
    this.host.querySelector("g[tabindex='0']")?.setAttribute("tabindex", "-1");
    const g = this.host.querySelector(`g[data-key="${key}"]`);
    this.current = key;
    g.setAttribute("tabindex", "0");
    g.focus({ preventScroll: true });
    g.scrollIntoView({ block: "nearest", inline: "nearest" });
  }

  key(event) {
    const box = this.graph && this.byKey.get(this.current);
    if (!box) return;
    const beside = box.parent ? box.parent.children : [box];
    const at = beside.indexOf(box);
    const level = [...this.byKey.values()].filter((one) => one.level === box.level);
    const place = level.indexOf(box);
    const to = {
      ArrowUp: () => box.parent, ArrowDown: () => box.children[0],
      ArrowLeft: () => beside[at - 1] ?? level[place - 1], ArrowRight: () => beside[at + 1] ?? level[place + 1],
      Home: () => this.byKey.get("0"),
    }[event.key];
    if (event.key === "Enter" || event.key === " ") this.turn(this.current);
    else if (to) { const one = to(); if (one) this.focus(one.key); } else return;
    event.preventDefault();
  }
}
