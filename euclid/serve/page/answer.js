// What is said of a book: the verdict, messages, facts, steps with their grounds.

export function element(tag, attributes = {}, ...children) {
  const made = document.createElement(tag);
  for (const [name, value] of Object.entries(attributes)) {
    if (name === "onclick") made.addEventListener("click", value);
    else made.setAttribute(name, value);
  }
  made.append(...children);
  return made;
}

const code = (text) => element("code", {}, text);

/** A link to a line of the book, or words where the line is not in it. */
function jump(words, line, go) {
  return line > 0 ? element("button", { type: "button", class: "jump", onclick: () => go(line) }, words) : words;
}

export function showVerdict(place, data) {
  place.className = data.messages.length ? "bad" : "good";
  if (data.messages.length) {
    const errors = data.messages.filter((each) => each.kind === "error").length;
    place.textContent = `${errors} ${errors === 1 ? "thing" : "things"} to mend`;
  } else if (data.accepted) place.textContent = data.accepted === 1 ? "Accepted: each step follows" : `${data.accepted} theorems accepted`;
  else { place.className = "waiting"; place.textContent = "Nothing to check yet"; }
}

/** A sentence, in which words between backticks are code. */
function sentence(text) {
  return text.split("`").map((part, at) => (at % 2 ? code(part) : part));
}

/** What is wrong, and apart from it what would mend it. */
function parted(text) {
  const at = text.search(/; (`|\d+ lines?\b|with the (names|arguments)\b|a line\b)/);
  return at < 0 ? [text, ""] : [text.slice(0, at), text.slice(at + 2)];
}

function premiseItem(each, go) {
  if (each.there) return element("li", { class: "there" }, "there ", code(each.literal), " ", element("small", {}, jump(each.from, each.line, go)));
  const more = each.turned ? [" \u2014 there is ", code(each.turned)] : each.false ? [` \u2014 false: its contrary ${each.false}`] : [];
  if (each.follows) return element("li", { class: "there" }, "follows ", code(each.literal));
  return element("li", { class: "missing" }, "missing ", code(each.literal), ...more);
}

export function showMessages(place, messages, go, insert) {
  place.replaceChildren(...messages.map((each) => {
    const box = element("article", { class: `message ${each.kind}` });
    const [what, way] = parted(each.text);
    box.append(element("h3", {}, jump(`Line ${each.line}`, each.line, go), ": ", ...sentence(what)));
    if (each.reason) box.append(element("p", {}, ...sentence(each.reason)));
    if (each.premises?.length) box.append(element("ul", {}, ...each.premises.map((premise) => premiseItem(premise, go))));
    for (const said of each.sentences ?? []) box.append(element("p", {}, ...sentence(said)));
    if (each.values?.length) box.append(counterexample(each.values));
    if (each.ways?.length || way) {
      const ways = (each.ways ?? []).map((one) => {
        const button = element("button", { type: "button", onclick: () => insert(each.line, one) }, one.instead ? "Write this instead" : "Put in before it");
        return element("div", { class: "row way" }, button, element("pre", {}, one.lines.join("\n")));
      });
      const said = way ? [element("p", {}, ...sentence(way))] : [];
      box.append(element("details", {}, element("summary", {}, ways.length < 2 ? "A way" : `${ways.length} ways`), ...said, ...ways));
    }
    return box;
  }));
}

function counterexample(values) {
  const table = element("table", {}, element("caption", {}, "A counterexample: with these numbers all that is known is true, and this is false"));
  for (const each of values) {
    table.append(element("tr", {}, element("th", { scope: "row" }, code(each.term)), element("td", {}, String(each.value)),
      element("td", {}, each.free ? "nothing known speaks of it" : "")));
  }
  return table;
}

export function showFacts(place, facts, go) {
  if (!facts?.facts) { place.replaceChildren(element("p", {}, "Put the cursor on a step.")); return; }
  const objects = facts.objects.map((each) => `${each.name} (${each.sort})`).join(", ");
  const list = element("ul");
  for (const fact of facts.facts) {
    list.append(element("li", {}, code(fact.literal), " ", element("small", {}, jump(fact.from, fact.line, go))));
  }
  place.replaceChildren(element("p", {}, `Before step ${facts.step} of ${facts.title}: ${objects || "no objects"}`), list,
    element("p", {}, "To show: ", code(facts.goal.join(" ; "))));
}

function groundItem(ground, go) {
  const item = element("li");
  const said = { fact: "", transfer: `by ${ground.rule}`, arithmetic: "by arithmetic", clash: "two facts contradict each other" }[ground.kind];
  item.append(ground.literal ? code(ground.literal) : "", " ", element("small", {}, ground.from ? jump(ground.from, ground.line, go) : said));
  const parts = element("ul");
  for (const part of ground.parts) parts.append(groundItem(part, go));
  for (const sum of ground.sums ?? []) {
    parts.append(element("li", {}, code(sum.says), " is the sum of"));
    for (const row of sum.of) parts.append(element("li", {}, code(row.says), " ", element("small", {}, row.from)));
  }
  if (parts.children.length) item.append(parts);
  return item;
}

/** What a step is licensed by, in a few words. */
function byWhat(step) {
  const said = step.grounds.map((each) => ({ transfer: each.rule, arithmetic: "arithmetic", clash: "a contradiction" })[each.kind]).filter((each) => each);
  return said.length ? `by ${[...new Set(said)].join(", ")}` : step.grounds.length ? "from what is known" : "";
}

function stepItem(step, go) {
  const item = element("li", { value: step.step });
  const line = element("span", { class: "math" }, "\u00a0\u00a0".repeat(step.depth) + step.text);
  if (!step.grounds.length) { item.append(jump(line, step.line, go)); return item; }
  const grounds = element("ul", {}, ...step.grounds.map((each) => groundItem(each, go)));
  if (step.words) grounds.prepend(element("li", {}, ...sentence(step.words)));
  item.append(element("details", {}, element("summary", {}, line, " ", element("small", {}, byWhat(step))), grounds));
  return item;
}

/** The steps; lines that were put in at Euclid's length are folded under the step that needs them. */
export function showSteps(place, steps, go) {
  const items = [];
  let put = [];
  for (const step of steps) {
    const item = stepItem(step, go);
    if (step.put) { put.push(item); continue; }
    if (put.length) {
      const words = put.length === 1 ? "a line that the figure shows" : `${put.length} lines that the figure shows`;
      item.append(element("details", { class: "put" }, element("summary", {}, element("small", {}, words)), element("ol", {}, ...put)));
    }
    put = [];
    items.push(item);
  }
  place.replaceChildren(...items, ...put);
}
