// The page: the text is checked after a pause, and what is said of it is shown.

import { Editor } from "./editor.js";
import { element, showFacts, showMessages, showSteps, showVerdict } from "./answer.js";
import { packed, unpacked } from "./share.js";

const PAUSE = 300; // milliseconds of quiet before a check
const at = (id) => document.getElementById(id);
const course = await (await fetch("course.json")).json();
const state = { task: "", library: "", euclid: false, hints: 0, titles: [], text: [], facts: {}, running: null, checked: null, texts: {}, done: new Set() };
const editor = new Editor(at("text"), at("colours"), at("gutter"), at("offers"), complete);
const OWN = "theorem mine\npoints a b\ngiven a != b\nmade points c\nshow seg a c = seg a b\nproof\n\nend\n";

// ---- asking the server

/** The answer to a job; the place in the queue is shown while it waits. */
async function ask(job, signal) {
  const response = await fetch("job", { method: "POST", signal, headers: { "Content-Type": "application/json" }, body: JSON.stringify(job) });
  if (!response.ok) return response.json().catch(() => ({ error: response.statusText }));
  const reader = response.body.pipeThrough(new TextDecoderStream()).getReader();
  let rest = "", answer = { error: "the connection ended" };
  for (;;) {
    const { value, done } = await reader.read();
    if (done) return answer;
    rest += value;
    const lines = rest.split("\n");
    rest = lines.pop();
    for (const line of lines) {
      const data = JSON.parse(line);
      if (data.place) waiting(`Waiting: ${data.place} in the queue`);
      else answer = data;
    }
  }
}

function waiting(words) {
  at("verdict").className = "waiting";
  at("verdict").textContent = words;
}

const job = (kind) => ({ kind, text: editor.value, line: editor.current(), euclid: state.euclid, lesson: state.task, library: state.library });

let timer = 0;
/** What is said of an older text is shown as old until the text is checked again. */
function later() {
  clearTimeout(timer);
  if (editor.value !== state.checked) {
    document.documentElement.classList.add("old");
    waiting("Checking ..");
    keepText();
  }
  timer = setTimeout(check, PAUSE);
}

async function check() {
  state.running?.abort();
  const control = state.running = new AbortController();
  const text = editor.value;
  try {
    const data = await ask(job("check"), control.signal);
    if (control !== state.running || text !== editor.value) return;
    if (data.error) { waiting(data.error); return; }
    state.checked = text;
    document.documentElement.classList.remove("old");
    show(data);
    const drawing = await ask(job("figure"), control.signal);
    if (control === state.running) showFigure(drawing);
  } catch (error) {
    if (error.name !== "AbortError") waiting("The server does not answer");
  }
}

function show(data) {
  const go = (line) => editor.go(line);
  showVerdict(at("verdict"), data);
  showMessages(at("messages"), data.messages, go, (line, way) => editor.insert(line, way.lines, way.instead));
  editor.mark(data.messages.filter((each) => each.kind === "error"));
  state.facts = data.facts;
  showFacts(at("facts"), data.facts, go);
  showSteps(at("steps"), data.steps, go);
  document.documentElement.dataset.checked = String(Number(document.documentElement.dataset.checked ?? 0) + 1);
  if (data.lesson) {
    at("lesson-done").className = data.lesson.done ? "done" : "";
    at("lesson-done").textContent = data.lesson.done ? "Done" : data.lesson.why;
    if (data.lesson.done) { state.done.add(state.task); keepDone(); markDone(); }
  }
}

function showFigure(drawing) {
  const picture = at("picture");
  picture.hidden = !drawing.svg;
  at("figure-words").textContent = drawing.why ?? (drawing.svg ? `${drawing.title}${drawing.step ? `, at step ${drawing.step}` : ""}` : "");
  if (drawing.svg) {
    picture.src = "data:image/svg+xml;charset=utf-8," + encodeURIComponent(drawing.svg);
    picture.alt = drawing.svg.match(/<desc[^>]*>([^<]*)</)?.[1] ?? "the figure";
  }
}

// ---- lessons and libraries

/** The title of a task with its number. */
const titleOf = (task) => `${course.lessons.indexOf(task) + 1}. ${task.title}`;

function fillTasks() {
  const groups = new Map();
  for (const task of course.lessons) {
    if (!groups.has(task.group)) groups.set(task.group, at("task").appendChild(element("optgroup", { label: task.group })));
    groups.get(task.group).append(element("option", { value: task.name }, titleOf(task)));
  }
  for (const name of course.libraries) at("library").append(element("option", { value: name }, name));
  markDone();
}

function keepDone() {
  try { sessionStorage.setItem("done", JSON.stringify([...state.done])); } catch { /* it is only for the eye */ }
}

/** The text of each task stays in this tab, until it is closed. */
function keepText() {
  state.texts[state.task] = editor.value;
  try { sessionStorage.setItem("texts", JSON.stringify(state.texts)); } catch { /* it stays as long as the page */ }
}

function markDone() {
  for (const option of at("task").querySelectorAll("option")) {
    const task = course.lessons.find((each) => each.name === option.value);
    if (task) option.textContent = (state.done.has(task.name) ? "\u2713 " : "") + titleOf(task);
  }
}

function openTask(name, text) {
  const task = course.lessons.find((each) => each.name === name);
  Object.assign(state, { task: task ? name : "", hints: 0, euclid: task ? task.euclid : state.euclid });
  at("task").value = state.task;
  at("lesson").hidden = !task;
  at("library-label").hidden = Boolean(task);
  at("euclid").checked = state.euclid;
  if (task) {
    at("lesson-title").textContent = titleOf(task);
    at("lesson-words").textContent = task.words;
    at("lesson-hints").replaceChildren();
    at("hint").disabled = !task.hints.length;
    at("lesson-done").textContent = "";
  }
  editor.hide();
  editor.value = text ?? state.texts[state.task] ?? task?.start ?? OWN;
  state.checked = null;
  for (const place of ["messages", "facts", "steps"]) at(place).replaceChildren();
  showFigure({});
  loadTitles();
  later();
}

function hint() {
  const task = course.lessons.find((each) => each.name === state.task);
  if (state.hints < task.hints.length) at("lesson-hints").append(element("li", {}, task.hints[state.hints++]));
  at("hint").disabled = state.hints >= task.hints.length;
}

async function loadTitles() {
  state.titles = [];
  const task = course.lessons.find((each) => each.name === state.task);
  at("library-box").hidden = task ? !task.library : !state.library;
  if (!at("library-box").hidden) {
    const data = await ask({ kind: "library", lesson: state.task, library: state.library });
    const last = task?.until ? data.titles?.findIndex((each) => each.title === task.until) : -1;
    state.titles = last >= 0 ? data.titles.slice(0, last + 1) : data.titles ?? [];
    state.text = data.text?.split("\n") ?? [];
  }
  showTitles();
}

function showTitles() {
  const wanted = at("find").value.toLowerCase();
  const fits = (each) => each.title.toLowerCase().includes(wanted) || each.words.toLowerCase().includes(wanted);
  at("titles").replaceChildren(...state.titles.filter(fits).slice(-200).map((each) => {
    const lines = [];
    for (let line = each.line - 1; line < state.text.length && state.text[line].trim() !== "proof" && state.text[line].trim() !== "end"; line += 1) lines.push(state.text[line]);
    return element("details", {}, element("summary", {}, element("strong", {}, each.title), " ", each.words), element("pre", { class: "math" }, lines.join("\n")));
  }));
}

// ---- completion

/** What may come after the words of a line, as far as the word begun goes. */
function complete(before, start) {
  const words = before.trim().split(/[ \t]+/).filter((word) => word);
  let found = [];
  if (!words.length) found = "by hence let apply claim cases qed contradiction else end given made show proof theorem points lines circles".split(" ").map((label) => ({ label }));
  else if (words[0] === "by" && words.length === 1) found = course.rules.map((each) => ({ label: each.name, words: each.words }));
  else if (words[0] === "apply" && words.length === 1) found = [...state.titles].reverse().map((each) => ({ label: each.title, words: each.words }));
  else {
    const rule = words[0] === "by" && !words.includes(":") ? course.rules.find((each) => each.name === words[1]) : null;
    if (rule && words.length - 2 === rule.variables.length) found = [{ label: ":" }];
    const sort = rule?.sorts[words.length - 2];
    for (const each of [...(state.facts?.objects ?? [])].reverse()) if (!sort || each.sort === sort) found.push({ label: each.name, words: each.sort });
    if (/^(hence|cases|claim|given|show|not|;|:)$/.test(words.at(-1))) for (const label of ["on", "inside", "center", "between", "same-side", "meets", "not", "seg", "ang", "area"]) found.push({ label });
  }
  return found.filter((each) => each.label.startsWith(start) && each.label !== start);
}

// ---- sharing, print, theme

async function share() {
  const text = await packed({ text: editor.value, task: state.task, library: state.library, euclid: state.euclid });
  at("save").href = URL.createObjectURL(new Blob([editor.value], { type: "text/plain" }));
  at("link").hidden = at("copy").hidden = text === null;
  at("shared-words").textContent = text === null ? "This text is too long for a link: save it as a file." : "The link has the text in itself.";
  if (text !== null) {
    at("link").value = `${location.origin}${location.pathname}#${text}`;
    history.replaceState(null, "", `#${text}`);
  }
  at("shared").showModal();
  at("link").select();
}

function toggle(button, name, also) {
  at(button).addEventListener("click", () => {
    const on = document.documentElement.classList.toggle(name);
    if (also) document.documentElement.classList.toggle(also, !on);
    at(button).setAttribute("aria-pressed", String(on));
  });
}

editor.changed = later;
editor.moved = later;
at("task").addEventListener("change", () => openTask(at("task").value));
at("library").addEventListener("change", () => { state.library = at("library").value; loadTitles(); later(); });
at("euclid").addEventListener("change", () => { state.euclid = at("euclid").checked; later(); });
at("hint").addEventListener("click", hint);
at("again").addEventListener("click", () => {
  const task = course.lessons.find((each) => each.name === state.task);
  editor.replace(task ? task.start : OWN); // as typing, so that it can be undone
});
at("next").addEventListener("click", () => {
  const place = course.lessons.findIndex((each) => each.name === state.task);
  openTask(course.lessons[place + 1]?.name ?? "");
});
at("find").addEventListener("input", showTitles);
at("share").addEventListener("click", share);
at("copy").addEventListener("click", () => { at("link").select(); navigator.clipboard?.writeText(at("link").value) ?? document.execCommand("copy"); });
at("close").addEventListener("click", () => at("shared").close());
at("help").addEventListener("click", () => {
  at("help-text").hidden = !at("help-text").hidden;
  at("help").setAttribute("aria-expanded", String(!at("help-text").hidden));
});
toggle("large", "large");
toggle("theme", "dark", "light");
try {
  state.done = new Set(JSON.parse(sessionStorage.getItem("done") ?? "[]"));
  state.texts = JSON.parse(sessionStorage.getItem("texts") ?? "{}");
} catch { /* none kept */ }
fillTasks();
const shared = location.hash.length > 1 ? await unpacked(location.hash.slice(1)) : null;
state.library = shared ? String(shared.library ?? "") : course.libraries[0] ?? "";
at("library").value = state.library;
state.euclid = shared?.euclid === true;
openTask(shared ? String(shared.task ?? "") : course.lessons[0]?.name ?? "", shared ? String(shared.text ?? "") : undefined);
if (shared && state.task) { state.euclid = shared.euclid === true; at("euclid").checked = state.euclid; }
