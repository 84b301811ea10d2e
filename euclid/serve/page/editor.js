// The text: line numbers, colours, marks under what is wrong, completion.

const PREDICATES = new Set(["on", "inside", "center", "between", "same-side", "meets", "seg", "ang", "area", "right", "not"]);
const HEADS = new Set(("theorem define points lines circles given made show proof end by hence let apply claim superpose qed " +
  "contradiction cases else as onto point line circle side opposite of beyond from outside meet centers avoid").split(" "));
const escaped = (text) => text.replace(/[&<>]/g, (c) => ({ "&": "&amp;", "<": "&lt;", ">": "&gt;" })[c]);

/** What each word of a line is, as the class of its colour. */
function kindOf(words, at) {
  const word = words[at];
  if (at === 1 && ["theorem", "define", "apply"].includes(words[0])) return "title";
  if (at === 1 && words[0] === "by") return "rule";
  if (words[at - 1] === "as" && ["given", "show", "claim", "superpose"].includes(words[0])) return "title";
  if (PREDICATES.has(word)) return "sign";
  return HEADS.has(word) ? "keyword" : "";
}

function coloured(line, marks) {
  if (/^\s*#/.test(line)) return `<span class="comment">${escaped(line)}</span>`;
  const words = line.split(/[ \t]+/).filter((word) => word);
  let at = 0, column = 1, out = "";
  for (const part of line.split(/([ \t]+)/)) {
    if (part && !/^[ \t]/.test(part)) {
      const classes = [kindOf(words, at)];
      if (marks.some((mark) => mark.column <= column && column < mark.end)) classes.push("wrong-words");
      const named = classes.filter((each) => each).join(" ");
      out += named ? `<span class="${named}">${escaped(part)}</span>` : escaped(part);
      at += 1;
    } else out += part;
    column += part.length;
  }
  return out || " ";
}

export class Editor {
  constructor(text, colours, gutter, offers, complete) {
    Object.assign(this, { text, colours, gutter, offers, complete, marks: [], changed: () => {}, moved: () => {}, line: 0, free: false });
    text.addEventListener("input", () => { this.hide(); this.paint(); this.changed(); });
    text.addEventListener("scroll", () => this.follow());
    text.addEventListener("keydown", (event) => this.key(event));
    text.addEventListener("blur", () => setTimeout(() => this.hide(), 150));
    document.addEventListener("selectionchange", () => { if (document.activeElement === text) this.look(); });
  }

  get value() { return this.text.value; }

  set value(value) { this.text.value = value; this.marks = []; this.paint(); this.look(); }

  /** The number of the line of the cursor, from 1. */
  current() { return this.value.slice(0, this.text.selectionStart).split("\n").length; }

  look() {
    const line = this.current();
    if (line !== this.line) { this.line = line; this.moved(line); }
  }

  mark(marks) { this.marks = marks; this.paint(); }

  paint() {
    const lines = this.value.split("\n");
    const at = (number) => this.marks.filter((mark) => mark.line === number + 1);
    this.colours.innerHTML = lines.map((line, number) => coloured(line, at(number))).join("\n") + "\n";
    this.gutter.innerHTML = lines.map((_, number) =>
      at(number).length ? `<span class="wrong">${number + 1}</span>` : number + 1).join("\n") + "\n";
    this.follow();
  }

  follow() {
    this.colours.scrollTop = this.gutter.scrollTop = this.text.scrollTop;
    this.colours.scrollLeft = this.text.scrollLeft;
  }

  /** Puts the cursor at a line and shows it. */
  go(line) {
    const start = this.value.split("\n").slice(0, line - 1).join("\n").length + (line > 1 ? 1 : 0);
    this.text.focus();
    this.text.setSelectionRange(start, start);
    const height = parseFloat(getComputedStyle(this.text).lineHeight);
    this.text.scrollTop = Math.max(0, (line - 4) * height);
    this.look();
  }

  /** Puts lines in before a line, or in its place. */
  insert(line, texts, isInstead) {
    const lines = this.value.split("\n");
    const indent = lines[line - 1].match(/^[ \t]*/)[0];
    lines.splice(line - 1, isInstead ? 1 : 0, ...texts.map((text) => indent + text));
    this.replace(lines.join("\n"));
    this.go(line);
  }

  /** Puts another text in the place of the whole, as typing does, so that it can be undone. */
  replace(value) {
    this.marks = [];
    this.text.focus();
    this.text.select();
    this.put(value);
  }

  // Completion

  key(event) {
    if (!this.offers.hidden && this.choose(event)) { event.preventDefault(); return; }
    if (event.key === "Escape") { this.free = true; return; }
    if (event.key === "Tab" && !event.shiftKey && !this.free && !event.ctrlKey && !event.altKey) {
      event.preventDefault();
      this.offer();
    } else if (event.key === "Enter") {
      event.preventDefault();
      this.put("\n" + this.indent());
    } else if (event.key !== "Tab" && event.key !== "Shift") this.free = false;
  }

  /** The indent of a new line: one block deeper after claim, cases, else, superpose. */
  indent() {
    const line = this.value.slice(0, this.text.selectionStart).split("\n").pop();
    return line.match(/^[ \t]*/)[0] + (/^\s*(claim|cases|else|superpose)\b/.test(line) ? "  " : "");
  }

  choose(event) {
    const items = [...this.offers.children];
    const at = items.findIndex((item) => item.getAttribute("aria-selected") === "true");
    const go = (to) => {
      items[at]?.setAttribute("aria-selected", "false");
      items[(to + items.length) % items.length].setAttribute("aria-selected", "true");
      items[(to + items.length) % items.length].scrollIntoView({ block: "nearest" });
      this.text.setAttribute("aria-activedescendant", items[(to + items.length) % items.length].id);
    };
    if (event.key === "ArrowDown") go(at + 1);
    else if (event.key === "ArrowUp") go(at - 1);
    else if (event.key === "Enter" || event.key === "Tab") this.take(items[at].dataset.insert);
    else if (event.key === "Escape") this.hide();
    else return false;
    return true;
  }

  before() { return this.value.slice(0, this.text.selectionStart).split("\n").pop(); }

  offer() {
    const line = this.before();
    const start = line.match(/\S*$/)[0];
    const found = this.complete(line.slice(0, line.length - start.length), start).slice(0, 40);
    if (!found.length) { this.put("  "); return; }
    if (found.length === 1) { this.take(found[0].insert ?? found[0].label); return; }
    this.offers.innerHTML = found.map((each, at) => `<li role="option" id="offer-${at}" aria-selected="${at === 0}"
      data-insert="${escaped(each.insert ?? each.label).replace(/"/g, "&quot;")}">${escaped(each.label)} <small>${escaped(each.words ?? "")}</small></li>`).join("");
    for (const item of this.offers.children) item.addEventListener("mousedown", (event) => { event.preventDefault(); this.take(item.dataset.insert); });
    const height = parseFloat(getComputedStyle(this.text).lineHeight);
    const below = this.current() * height - this.text.scrollTop + 10;
    this.offers.style.top = `${below}px`;
    this.offers.style.left = `${Math.min(line.length * height * 0.4 - this.text.scrollLeft, this.text.clientWidth * 0.5)}px`;
    this.offers.hidden = false;
  }

  hide() { this.offers.hidden = true; this.text.removeAttribute("aria-activedescendant"); }

  take(insert) {
    const start = this.before().match(/\S*$/)[0].length;
    this.text.setSelectionRange(this.text.selectionStart - start, this.text.selectionStart);
    this.hide();
    this.put(insert + " ");
  }

  /** Types a text, so that it can be undone. */
  put(text) {
    this.text.focus();
    if (!document.execCommand("insertText", false, text)) {
      const { selectionStart: start, selectionEnd: end } = this.text;
      this.text.setRangeText(text, start, end, "end");
      this.paint();
      this.changed();
    }
  }
}
