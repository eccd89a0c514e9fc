// A text area over the same text in colours, with marks.

const WORDS = new Set(("start tabs syntax lexical layout left right nonassoc offside ignore align when let here true false "
  + "and or not div mod int bool span").split(" "));
const TOKEN = /(\/\/[^\n]*)|("(?:[^"\\\n]|\\.)*"?)|(\[(?:[^\]\\\n]|\\.)*\]?|\$[a-z_]+)|(\p{ID_Start}\p{ID_Continue}*)|([0-9]+)|(!>>|!<<|[-=|>:;,(){}?*+\\<!])/gu;
const KINDS = [null, "comment", "string", "class", "name", "number", "sign"];
const MOST_COLOURED = 60000; // characters of a text that is coloured as one types

/** The tokens of a grammar text as ranges with a kind each. */
export function grammarRanges(text) {
  if (text.length > MOST_COLOURED) return [];
  const ranges = [];
  let heads = false;
  for (const found of text.matchAll(TOKEN)) {
    let kind = KINDS[found.findIndex((part, k) => k > 0 && part !== undefined)];
    if (kind === "name") {
      const word = WORDS.has(found[0]);
      kind = word ? "keyword" : heads ? "head" : "name";
      heads = word && (found[0] === "syntax" || found[0] === "lexical" || found[0] === "layout");
    }
    ranges.push({ begin: found.index, end: found.index + found[0].length, kind });
  }
  return ranges;
}

/** Where the characters of a text stand in it, as JavaScript counts; null where both are the same. */
export function unitsOf(text) {
  if (!/[\ud800-\udbff]/.test(text)) return null;
  const units = [];
  let at = 0;
  for (const char of text) {
    units.push(at);
    at += char.length;
  }
  units.push(at);
  return units;
}

export class Editor {
  constructor(section, onInput) {
    this.box = section.querySelector(".editor");
    this.area = section.querySelector("textarea");
    this.code = section.querySelector("code");
    this.caret = section.querySelector(".caret");
    this.ranges = [];
    this.marks = { error: null, hover: null };
    this.last = "";
    this.area.addEventListener("input", () => { this.shift(); onInput(); });
    for (const event of ["keyup", "click", "input", "focus"]) this.area.addEventListener(event, () => this.showCaret());
  }

  get text() { return this.area.value; }

  set text(text) {
    this.area.value = text;
    this.last = this.text;
    this.ranges = [];
    this.marks = { error: null, hover: null };
    this.paint();
  }

  /** Keeps colours where they belong while the text changes in one place. */
  shift() {
    const [old, text] = [this.last, this.text];
    let same = 0;
    while (same < old.length && same < text.length && old[same] === text[same]) same += 1;
    let rest = 0;
    while (rest < Math.min(old.length, text.length) - same && old[old.length - 1 - rest] === text[text.length - 1 - rest]) rest += 1;
    const by = text.length - old.length;
    this.ranges = this.ranges.filter((one) => one.end <= same || one.begin >= old.length - rest)
      .map((one) => (one.end <= same ? one : { ...one, begin: one.begin + by, end: one.end + by }));
    this.marks = { error: null, hover: null };
    this.last = text;
    this.paint();
  }

  /** Sets the colours, or a mark: null, or a range. */
  colour(ranges) { this.ranges = ranges; this.paint(); }

  mark(kind, range) {
    const old = this.marks[kind];
    if (old === range || (old && range && old.begin === range.begin && old.end === range.end)) return;
    this.marks[kind] = range;
    this.paint();
  }

  paint() {
    const text = this.text;
    const out = document.createDocumentFragment();
    const marks = Object.entries(this.marks).filter(([, range]) => range);
    const cuts = [...new Set(marks.flatMap(([, range]) => [range.begin, range.end]))].sort((a, b) => a - b);
    const put = (begin, end, kind) => {
      while (begin < end) {
        const stop = Math.min(end, cuts.find((cut) => cut > begin) ?? end);
        const names = marks.filter(([, range]) => range.begin <= begin && stop <= range.end).map(([name]) => `m-${name}`);
        if (kind) names.push(`t-${kind}`);
        this.piece(out, text.slice(begin, stop), names);
        begin = stop;
        this.point(out, marks, begin);
      }
    };
    this.point(out, marks, 0);
    let at = 0;
    for (const range of this.ranges) {
      if (range.begin < at || range.end > text.length) continue;
      put(at, range.begin, null);
      put(range.begin, range.end, range.kind);
      at = range.end;
    }
    put(at, text.length, null);
    out.append("\n");
    this.code.replaceChildren(out);
  }

  piece(out, text, names) {
    if (!names.length) return out.append(text);
    const span = document.createElement("span");
    span.className = names.join(" ");
    span.textContent = text;
    return out.append(span);
  }

  /** A mark of no characters, which shows where something is missing. */
  point(out, marks, at) {
    for (const [name, range] of marks) {
      if (range.begin === at && range.end === at && name === "error") this.piece(out, "\u200b", ["m-error", "empty"]);
    }
  }

  showCaret() {
    const before = this.text.slice(0, this.area.selectionEnd);
    const line = before.split("\n").length;
    this.caret.textContent = `${line}:${[...before.slice(before.lastIndexOf("\n") + 1)].length + 1}`;
  }

  /** Scrolls to a mark, where the text isn't being edited. */
  reveal(name) {
    const found = this.code.querySelector(`.m-${name}`);
    if (!found || document.activeElement === this.area) return;
    const [box, one] = [this.box.getBoundingClientRect(), found.getBoundingClientRect()];
    if (one.top < box.top || one.bottom > box.bottom) this.box.scrollTop += one.top - box.top - box.height / 3;
  }
}
