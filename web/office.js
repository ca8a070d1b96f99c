// The page of an office: what is open to a person, a task with all that belongs to it, and the operations that the
// person's roles and its state allow. What it knows of rules it reads from rules.json, of the models from texts.json, of
// words from words.json; who asks the front says at `me`.

const SECONDS = 15, MOST_SECONDS = 120, LISTED = 20, MOST_LISTED = 100;
// Longer than the front waits for the office.
const PATIENCE = 70;
const FORMS = { int: "number", instant: "datetime-local" };
// Behind these replies nobody knows yet whether a command was done.
const UNKNOWN = new Set([500, 502, 503, 504]);
const WHOLE = /^-?[0-9]+$/;

const base = new URL("..", import.meta.url);
const at = (id) => document.getElementById(id);
const load = async (name) => (await fetch(new URL(name, import.meta.url))).json();
const page = {
  person: "", rules: null, texts: null, words: null, language: 0, seen: {}, count: {}, wait: SECONDS, timer: 0, busy: false,
};

// ---- words

function say(key, values = {}) {
  const word = page.words[key]?.[page.language] ?? key;
  return word.replace(/\{(\w+)\}/g, (_, name) => values[name] ?? "");
}
const tongue = () => ["en", "de"][page.language];
const moment = (number) => new Date(number).toLocaleString(tongue());
const listed = (kind, names, type = "disjunction") => new Intl.ListFormat(tongue(), { type })
  .format(names.map((name) => say(`${kind}.${name}`))) || say("noRole");
const stateOf = (name) => say(`state.${name}`);

// A refusal in words.
function why(reply) {
  const { fault, needs, allowed, state, ...rest } = reply;
  return say(`why.${fault}`, {
    ...rest, needs: listed("role", needs ?? []), allowed: listed("state", allowed ?? []), state: stateOf(state),
  });
}

// ---- elements

function make(tag, properties = {}, ...children) {
  const element = document.createElement(tag);
  for (const [name, value] of Object.entries(properties)) {
    if (name.startsWith("on")) element.addEventListener(name.slice(2), value);
    else if (value !== false && value !== undefined) element.setAttribute(name, value === true ? "" : value);
  }
  element.append(...children.filter((child) => child !== null && child !== undefined));
  return element;
}
const titled = (tag, key, ...children) => [make(tag, {}, say(key)), ...children];
const none = () => make("p", { class: "none" }, say("nothing"));
const facts = (pairs) => make("dl", {}, ...pairs.filter(([, value]) => value !== null && value !== "")
  .flatMap(([name, value]) => [make("dt", {}, name), make("dd", {}, value)]));

// What is typed, opened and focused in a part of the page stays when it is drawn anew.
function redraw(part, ...children) {
  const open = [...part.querySelectorAll("details[open]")].map((it) => it.id);
  const typed = [...part.querySelectorAll("[name]")].map((it) => [it.id, it.value]);
  const focused = part.contains(document.activeElement) ? document.activeElement.id : "";
  part.replaceChildren(...children.flat());
  for (const id of open) at(id)?.setAttribute("open", "");
  for (const [id, value] of typed) if (at(id)) at(id).value = value;
  if (focused) at(focused)?.focus();
}

function tell(text) {
  at("message").textContent = text;
}

// ---- requests

async function ask(method, path, given) {
  const body = given && JSON.stringify(given);
  const headers = body ? { "content-type": "application/json" } : {};
  const signal = AbortSignal.timeout(1000 * PATIENCE);
  const reply = await fetch(new URL(path, base), { method, body, headers, cache: "no-store", signal });
  return { status: reply.status, told: await reply.json().catch(() => ({ fault: "Head" })) };
}

// ---- commands: each has a number, and the one that is under way is kept, so that a reload sends the same again

const kept = {
  read: () => JSON.parse(localStorage.getItem(`office ${page.person}`))
    ?? { device: Math.floor(Math.random() * 16), number: 0, pending: null },
  write: (what) => localStorage.setItem(`office ${page.person}`, JSON.stringify(what)),
};
const alone = (act) => (navigator.locks ? navigator.locks.request("office", act) : act());

// Sends what is under way, if something is, until its reply is known.
async function settle() {
  const { pending } = kept.read();
  if (!pending) return null;
  const { device, number } = pending.given;
  const reply = await ask("POST", pending.path, pending.given);
  if (UNKNOWN.has(reply.status)) return { ...reply, pending };
  const last = reply.told.fault?.startsWith("Number") ? reply.told.last : number;
  kept.write({ device, number: Math.max(number, last), pending: null });
  return { ...reply, pending };
}

async function command(operation, path, given) {
  if (page.busy) return null;
  page.busy = true;
  try {
    const reply = await alone(async () => {
      const before = await settle();
      if (before && UNKNOWN.has(before.status)) return before;
      const { device, number } = kept.read();
      // The seconds of the clock keep two browsers of one person apart.
      const next = Math.max(number + 1, Math.floor(Date.now() / 1000));
      kept.write({ device, number: next, pending: { operation, path, given: { ...given, device, number: next } } });
      return settle();
    });
    report(reply);
    return reply;
  } catch {
    tell(say("underway"));
    return null;
  } finally {
    page.busy = false;
    look();
  }
}

function report({ status, told, pending }) {
  const operation = say(`op.${pending.operation}`);
  if (UNKNOWN.has(status)) tell(`${say("refused", { operation, why: why(told) })}. ${say("underway")}`);
  else if (told.fault) tell(say("refused", { operation, why: why(told) }));
  else tell(say("done", { operation, task: told.task, state: stateOf(told.state) }));
}

// ---- rules

function rolesIn(sheet) {
  const me = page.person;
  const of = {
    initiator: sheet.initiator === me,
    stakeholder: sheet.stakeholders.includes(me),
    potentialOwner: sheet.potentialOwners.includes(me),
    actualOwner: sheet.owner === me,
    administrator: sheet.administrators.includes(me),
    operator: page.texts.operators.includes(me),
  };
  return page.rules.roles.filter((role) => of[role]);
}

// Nothing where the person may, and else why not.
function refusal(operation, sheet) {
  const { may, keys } = page.rules.operations[operation];
  const roles = rolesIn(sheet);
  const mine = may.filter((row) => row.roles.some((role) => roles.includes(role)));
  if (!mine.length) {
    const needs = page.rules.roles.filter((role) => may.some((row) => row.roles.includes(role)));
    return say("needs", { needs: listed("role", needs), roles: listed("role", roles, "conjunction") });
  }
  const lacks = Object.entries(keys).find(([key, required]) => required && modelOf(sheet.model)?.[key]?.length === 0);
  if (lacks) return say(`none.${lacks[0]}`);
  const allowed = page.rules.states.filter((state) => mine.some((row) => row.states.includes(state)));
  if (allowed.includes(sheet.state)) return null;
  return say("wrongState", { state: stateOf(sheet.state), allowed: listed("state", allowed) });
}

// ---- forms

const modelOf = (name) => page.texts.models.find((model) => model.name === name);
const choice = (id, name, options) => make("select", { id, name },
  ...options.map(([value, text]) => make("option", { value }, text)));
const labelled = (text, control) => make("label", {}, text, " ", control);

function partField(prefix, part) {
  const id = `${prefix}-${part.name}`, name = `part ${part.name}`;
  const control = part.kind === "bool" ? choice(id, name, [["", "–"], ["true", say("yes")], ["false", say("no")]])
    : make("input", { id, name, type: FORMS[part.kind] ?? "text", maxlength: 512 });
  return labelled(part.optional ? part.name : `${part.name} *`, control);
}

// A control for a key of an operation's body.
function field(prefix, key, sheet) {
  const id = `${prefix}-${key}`, plain = (properties) => make("input", { id, name: key, ...properties });
  const model = modelOf(sheet.model);
  switch (key) {
    case "output": return make("div", {}, ...(model?.output ?? []).map((part) => partField(prefix, part)));
    case "text": return labelled(say("text"),
      make("textarea", { id, name: key, rows: 3, cols: 40, maxlength: 512, required: true }));
    case "priority": return labelled(say("priorityOf"), plain({ type: "number", min: 0, max: 10, required: true }));
    case "role": return labelled(say("role"), choice(id, key, page.rules.lists.map((name) => [name, say(`list.${name}`)])));
    case "sub": return labelled(say("sub"), choice(id, key, (model?.sub ?? []).map((name) => [name, name])));
    case "until": return labelled(say("until"), plain({ type: "datetime-local" }));
    case "person": return labelled(say("person"), plain({ required: true, maxlength: 32, autocapitalize: "off" }));
    default: return labelled(say(key), plain({ autocapitalize: "off" }));
  }
}

function valueOf(kind, text) {
  if (kind === "bool") return text === "true";
  if (kind === "instant") return new Date(text).getTime();
  return kind === "int" && WHOLE.test(text) ? Number(text) : text;
}

function partsOf(form, parts) {
  const typed = parts.map((part) => [part, form.elements[`part ${part.name}`]?.value ?? ""]);
  return Object.fromEntries(typed.filter(([, text]) => text !== "").map(([part, text]) => [part.name, valueOf(part.kind, text)]));
}

// What a form gives for a key, or nothing.
function given(form, key, sheet) {
  const text = form.elements[key]?.value ?? "";
  if (key === "output") {
    const parts = partsOf(form, modelOf(sheet.model)?.output ?? []);
    return Object.keys(parts).length ? parts : undefined;
  }
  if (key === "persons") return text.split(/\s+/).filter(Boolean);
  if (text === "") return undefined;
  return key === "priority" ? Number(text) : key === "until" ? new Date(text).getTime() : text;
}

// ---- a task

function act(operation, sheet, form) {
  const keys = Object.keys(page.rules.operations[operation].keys);
  const body = keys.map((key) => [key, form && given(form, key, sheet)]).filter(([, value]) => value !== undefined);
  return command(operation, `tasks/${sheet.task}/${operation}`, Object.fromEntries(body));
}

function deed(operation, sheet) {
  const keys = Object.keys(page.rules.operations[operation].keys), word = say(`op.${operation}`), id = `deed-${operation}`;
  if (!keys.length) return make("button", { id, type: "button", onclick: () => act(operation, sheet, null) }, word);
  const form = make("form", {
    onsubmit: async (event) => {
      event.preventDefault();
      const reply = await act(operation, sheet, form);
      if (reply && !reply.told.fault) form.reset(), form.parentElement.removeAttribute("open");
    },
  }, ...keys.map((key) => field(id, key, sheet)), make("button", { id: `${id}-go` }, word));
  return make("details", { id }, make("summary", { class: "deed", id: `${id}-head` }, word), form);
}

function deeds(sheet) {
  const all = Object.keys(page.rules.operations).filter((it) => it !== "get").map((it) => [it, refusal(it, sheet)]);
  const may = all.filter(([, no]) => !no), not = all.filter(([, no]) => no);
  return [
    ...titled("h3", "deeds", may.length ? make("div", { class: "deeds" }, ...may.map(([it]) => deed(it, sheet))) : none()),
    make("details", { id: "may-not" }, make("summary", { id: "may-not-head" }, say("not")),
      facts(not.map(([it, no]) => [say(`op.${it}`), no]))),
  ];
}

function shown(part, value) {
  if (typeof value === "boolean") return say(value ? "yes" : "no");
  return part?.kind === "instant" ? moment(value) : String(value);
}
const partsShown = (parts, values) => facts(Object.entries(values)
  .map(([name, value]) => [name, shown(parts?.find((part) => part.name === name), value)]));
const taskLink = (task, text) => make("a", { href: `#${task}`, id: `to-${task}` }, text);

function drawSheet(sheet) {
  const model = modelOf(sheet.model), timed = (key) => [say(key), sheet[key] === null ? null : moment(sheet[key])];
  const people = page.rules.lists.map((key) => [say(`list.${key}`), sheet[key].join(", ")]);
  const has = (object) => Object.keys(object).length > 0;
  redraw(at("task"),
    make("h2", {}, say("row", sheet), " – ", make("span", { id: "state" }, stateOf(sheet.state))),
    facts([[say("owner"), sheet.owner], [say("priorityOf"), String(sheet.priority)],
      timed("created"), timed("waits"), timed("until"),
      [say("lastOwner"), sheet.lastOwner], [say("faultOf"), sheet.fault],
      [say("parent"), sheet.parent && taskLink(sheet.parent, String(sheet.parent))]]),
    deeds(sheet),
    has(sheet.input) ? titled("h3", "parts", partsShown(model?.input, sheet.input)) : [],
    has(sheet.output) ? titled("h3", "results", partsShown(model?.output, sheet.output)) : [],
    sheet.subs.length ? titled("h3", "subs", make("ul", {},
      ...sheet.subs.map((sub) => make("li", {}, taskLink(sub, String(sub)))))) : [],
    sheet.comments.length ? titled("h3", "comments", make("ol", { id: "comments" }, ...sheet.comments.map((it) =>
      make("li", {}, it.text, make("br"), make("small", {}, `${it.person}, ${moment(it.moment)}`))))) : [],
    titled("h3", "people", facts([[say("list.initiator"), sheet.initiator], ...people])),
    make("p", {}, make("a", { href: "#", id: "close" }, say("close"))));
}

// ---- lists

function row(it) {
  const text = `${say("row", it)} – ${stateOf(it.state)}${it.owner && it.owner !== page.person ? ` (${it.owner})` : ""}`;
  const link = make("a", { href: `#${it.task}` }, text, make("br"),
    make("small", {}, `${say("priority", it)}, ${moment(it.created)}`));
  if (location.hash === `#${it.task}`) link.setAttribute("aria-current", "true");
  return make("li", {}, link);
}
const late = (it) => make("li", {}, make("a", { href: `#${it.task}` }, say("late", { ...it, moment: moment(it.moment) })));

// The rest of a list, which is seen with a press.
function moreOf(id, seen, count) {
  const onclick = () => {
    page.count[id] = Math.min(seen + LISTED, MOST_LISTED);
    look();
  };
  return make("button", { id: `more-${id}`, type: "button", disabled: seen >= MOST_LISTED, onclick }, say("more", { count }));
}

function drawList(id, { rows, total }, one) {
  redraw(at(id), make("h2", {}, `${say(id)} (${total})`), rows.length ? make("ul", {}, ...rows.map(one)) : none(),
    total > rows.length ? make("p", {}, moreOf(id, rows.length, total - rows.length)) : []);
}

function drawCreate() {
  const parts = make("div"), models = page.texts.models;
  const model = choice("create-model", "model", models.map(({ name }) => [name, name]));
  const chosen = () => modelOf(model.value);
  const partsOfChosen = () => parts.replaceChildren(...chosen().input.map((part) => partField("create", part)));
  model.addEventListener("change", partsOfChosen);
  const form = make("form", {
    onsubmit: async (event) => {
      event.preventDefault();
      const later = form.elements.activateAt.value;
      const body = { model: model.value, input: partsOf(form, chosen().input) };
      if (later) body.activateAt = new Date(later).getTime();
      const reply = await command("create", "tasks", body);
      if (reply && !reply.told.fault) location.hash = `#${reply.told.task}`;
    },
  }, labelled(say("model"), model), parts,
  labelled(say("activateAt"), make("input", { id: "create-at", name: "activateAt", type: "datetime-local" })),
  make("button", { id: "create-go" }, say("make")));
  const head = make("summary", { id: "create-head" }, say("create"));
  redraw(at("create"), make("details", { id: "create-details" }, head, form));
  partsOfChosen();
}

// ---- looking

// Draws a part where it isn't what was seen.
function drawIfNew(id, told, draw) {
  const text = JSON.stringify([told, page.language, id === "task" ? "" : location.hash]);
  if (page.seen[id] === text) return;
  page.seen[id] = text;
  draw(told);
}

async function lookAtTask() {
  const task = location.hash.slice(1);
  document.body.classList.toggle("has-task", task !== "");
  if (!task) return drawIfNew("task", null, () => at("task").replaceChildren());
  const { told } = await ask("GET", `tasks/${task}`);
  if (task !== location.hash.slice(1)) return undefined;
  return drawIfNew("task", told, () => (told.fault ? redraw(at("task"), make("p", {}, why(told))) : drawSheet(told)));
}

async function lookAtLists() {
  const lists = {
    mine: "lists/actualOwner/live", open: "lists/potentialOwner/Ready", all: "lists/any/live", told: "notifications",
  };
  await Promise.all(Object.entries(lists).map(async ([id, path]) => {
    const { told } = await ask("GET", `${path}/0/${page.count[id] ?? LISTED}`);
    if (told.fault) throw new Error(why(told));
    drawIfNew(id, told, () => drawList(id, told, id === "told" ? late : row));
  }));
}

// Looks now, and again later: less often where the office can't be reached, and not at all while nobody sees it.
async function look() {
  clearTimeout(page.timer);
  try {
    const before = kept.read().pending && await alone(settle);
    if (before) report(before);
    await Promise.all([lookAtTask(), lookAtLists()]);
    page.wait = SECONDS;
    at("looked").textContent = say("looked", { moment: moment(Date.now()), seconds: SECONDS });
  } catch {
    page.wait = Math.min(2 * page.wait, MOST_SECONDS);
    at("looked").textContent = say("unreached");
  }
  clearTimeout(page.timer);
  if (!document.hidden) page.timer = setTimeout(look, 1000 * page.wait);
}

function speak(language) {
  page.language = language;
  document.documentElement.lang = tongue();
  document.title = at("title").textContent = say("title");
  at("me").textContent = say("me", { person: page.person });
  at("language-word").textContent = say("language");
  at("language").value = language;
  drawCreate();
}

async function begin() {
  const [me, rules, texts, words] = await Promise.all(["me", "rules.json", "texts.json", "words.json"].map(load));
  Object.assign(page, { person: me.person, rules, texts, words });
  speak(Number(localStorage.getItem("office language") ?? (navigator.language.startsWith("de") ? 1 : 0)));
  at("language").addEventListener("change", ({ target }) => {
    localStorage.setItem("office language", target.value);
    speak(Number(target.value));
    look();
  });
  window.addEventListener("hashchange", async () => {
    await look();
    if (location.hash.length > 1) at("task").focus();
  });
  document.addEventListener("visibilitychange", () => (document.hidden ? clearTimeout(page.timer) : look()));
  look();
}

begin();
