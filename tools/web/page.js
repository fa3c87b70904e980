// The page over a store: it asks the server, shows what it says as text, and keeps the place in its address.
"use strict";

const ROW = 30; // Pixels.
const WINDOW = 200; // Rows that are asked for at a time.
const KINDS = { f: "file", d: "directory", s: "semantic", m: "mount", o: "document", l: "symlink", t: "found", p: "added", x: "taken out" };
const KEYS = `/  search
g  the graph
e  edit the text, or the query if no text is shown
n  a new file
↑ ↓  go through a list or the tree
→ ←  open and close a directory of the tree
Enter  show what is chosen
Delete  take a link out, or remove a file
b  bring back what was taken out
a  add the chosen file to a directory
Alt ←  back`;

const at = (id) => document.getElementById(id);

let readOnly = false;
let seen = -1; // The count of changes that is shown.
let place = { kind: "directory", path: "/", file: null };
let rows = { total: 0, got: new Map(), asked: new Set(), chosen: 0, words: "", serial: 0 };
let text = { path: null, next: 0, total: 0, loading: false, serial: 0 };
const open = new Set(["/"]); // The directories of the tree whose own are shown.

// Asking.

async function ask(question) {
  const reply = await fetch("ask", {
    method: "POST",
    headers: { "Content-Type": "application/json" },
    body: JSON.stringify(question),
  });
  if (!reply.ok) throw new Error(`the server says ${reply.status}`);
  const answer = await reply.json();
  if (answer.stopped) {
    tell(answer.stopped);
    throw new Error(answer.stopped);
  }
  return answer;
}

function tell(words, well = false) {
  at("told").textContent = words;
  at("told").classList.toggle("well", well);
}

const refusal = (answer) => `${answer.refused}: ${answer.reason}`;

// Gives a command. What became of it is shown, and then all is looked at again.
async function change(command, paths, more = {}) {
  const answer = await ask({ do: "change", command, paths, ...more });
  if (answer.refused) {
    tell(refusal(answer));
    return answer;
  }
  tell("");
  seen = answer.changes;
  await show();
  return answer;
}

// Paths and addresses. In a text of ours a byte that isn't UTF-8 is a lone surrogate.

function spelled(path) {
  return Array.from(path, (sign) => {
    const code = sign.codePointAt(0);
    if (code >= 0xdc80 && code <= 0xdcff) return "%" + (code - 0xdc00).toString(16);
    return sign === "/" ? sign : encodeURIComponent(sign);
  }).join("");
}

function unspelled(address) {
  const bytes = [];
  for (let place = 0; place < address.length; place++) {
    if (address[place] === "%") {
      bytes.push(parseInt(address.slice(place + 1, place + 3), 16) || 0);
      place += 2;
    } else bytes.push(...new TextEncoder().encode(address[place]));
  }
  let path = "";
  for (let start = 0; start < bytes.length; ) {
    let end = start + 1;
    const more = bytes[start] >= 0xf0 ? 3 : bytes[start] >= 0xe0 ? 2 : bytes[start] >= 0xc0 ? 1 : 0;
    end += more;
    try {
      path += new TextDecoder("utf-8", { fatal: true, ignoreBOM: true }).decode(new Uint8Array(bytes.slice(start, end)));
    } catch {
      end = start + 1;
      path += String.fromCharCode(0xdc00 + bytes[start]);
    }
    start = end;
  }
  return path;
}

const nameOf = (path) => (path === "/" ? "/" : path.slice(path.lastIndexOf("/") + 1));
const aboveOf = (path) => path.slice(0, path.lastIndexOf("/")) || "/";
const inside = (path, name) => (path === "/" ? "/" + name : path + "/" + name);

// What a person sees of a name: signs that turn or hide text are spelled out.
const seenAs = (name) =>
  name.replace(/[\u0000-\u001f\u007f-\u009f\u200b-\u200f\u202a-\u202e\u2066-\u2069\ufeff\ud800-\udfff]/gu, (sign) => "\\u" + sign.charCodeAt(0).toString(16).padStart(4, "0"));

function addressOf(there) {
  const parts = [there.kind === "find" ? "find=" + spelled(there.path) : there.kind === "graph" ? "graph" : "at=" + spelled(there.path)];
  if (there.file !== null) parts.push("file=" + spelled(there.file));
  return "#" + parts.join("&");
}

function placeOf(address) {
  const there = { kind: "directory", path: "/", file: null };
  for (const part of address.replace(/^#/, "").split("&")) {
    const [name, value] = [part.split("=", 1)[0], part.slice(part.indexOf("=") + 1)];
    if (name === "graph") there.kind = "graph";
    if (name === "find") Object.assign(there, { kind: "find", path: unspelled(value) });
    if (name === "at") there.path = unspelled(value) || "/";
    if (name === "file") there.file = unspelled(value);
  }
  return there;
}

function go(there) {
  const address = addressOf(there);
  if (address === location.hash) show();
  else location.hash = address;
}

// The tree.

async function drawTree() {
  const list = document.createElement("ul");
  const link = treeLink("/", { letter: "d", name: "/" });
  list.append(link);
  await fillTree(link, "/");
  const active = document.activeElement?.dataset?.path;
  at("tree").replaceChildren(...list.children);
  markTree();
  if (active !== undefined) treeLinks().find((one) => one.dataset.path === active)?.focus();
}

async function fillTree(item, path) {
  if (!open.has(path)) return;
  const inner = document.createElement("ul");
  inner.setAttribute("role", "group");
  for (let from = 0, total = 1; from < total; ) {
    const answer = await ask({ do: "directory", path, from });
    if (answer.refused || !answer.rows.length) break;
    total = answer.total;
    from += answer.rows.length;
    for (const row of answer.rows) {
      const child = treeLink(inside(path, row.name), row);
      inner.append(child);
      if (row.letter !== "m") await fillTree(child, inside(path, row.name));
    }
    if (from >= 2000) break; // Whoever has more looks at them in the middle.
  }
  item.append(inner);
}

function treeLink(path, row) {
  const item = document.createElement("li");
  item.setAttribute("role", "none");
  const link = document.createElement("a");
  link.href = addressOf({ kind: "directory", path, file: null });
  link.dataset.path = path;
  link.dataset.letter = row.letter;
  link.setAttribute("role", "treeitem");
  link.setAttribute("aria-expanded", String(open.has(path)));
  const fold = document.createElement("span");
  fold.className = "fold";
  fold.textContent = open.has(path) ? "▾" : "▸";
  fold.addEventListener("click", (event) => {
    event.preventDefault();
    turn(path, !open.has(path));
  });
  const name = document.createElement("span");
  name.className = row.letter;
  name.textContent = seenAs(row.name) + (row.letter === "m" ? " (mount)" : "");
  link.append(fold, name);
  if (row.letter === "s") {
    const number = document.createElement("span");
    number.className = "number";
    number.textContent = row.links;
    number.title = "links";
    link.append(number);
    takesDrops(link, path);
  }
  item.append(link);
  return item;
}

function takesDrops(link, path) {
  link.addEventListener("dragover", (event) => {
    event.preventDefault();
    link.classList.add("over");
  });
  link.addEventListener("dragleave", () => link.classList.remove("over"));
  link.addEventListener("drop", (event) => {
    event.preventDefault();
    link.classList.remove("over");
    const file = event.dataTransfer.getData("application/x-hac-path");
    if (file) change("sln", [JSON.parse(file), path]);
  });
}

const treeLinks = () => Array.from(at("tree").querySelectorAll("a"));

function markTree() {
  for (const link of treeLinks()) {
    const here = place.kind === "directory" && link.dataset.path === place.path;
    if (here) link.setAttribute("aria-current", "true");
    else link.removeAttribute("aria-current");
  }
}

async function turn(path, opened) {
  if (opened) open.add(path);
  else open.delete(path);
  await drawTree();
}

at("tree").addEventListener("keydown", (event) => {
  const links = treeLinks();
  const here = links.indexOf(document.activeElement);
  if (here < 0) return;
  const path = links[here].dataset.path;
  if (event.key === "ArrowDown") links[Math.min(here + 1, links.length - 1)].focus();
  else if (event.key === "ArrowUp") links[Math.max(here - 1, 0)].focus();
  else if (event.key === "ArrowRight") turn(path, true);
  else if (event.key === "ArrowLeft" && !event.altKey) turn(path, false);
  else return;
  event.preventDefault();
});

// The rows in the middle. They are asked for where they are seen.

function question(from) {
  if (place.kind === "find") return { do: "find", query: place.path, from, count: WINDOW };
  return { do: "rows", path: place.path, from, count: WINDOW };
}

async function drawRows() {
  const serial = ++rows.serial;
  const kept = Math.max(0, Math.floor(at("rows").scrollTop / ROW / WINDOW) * WINDOW);
  const answer = await ask(question(kept));
  if (serial !== rows.serial) return;
  at("query-line").hidden = at("keep").hidden = true;
  at("tools").hidden = readOnly || place.kind !== "directory";
  at("where").textContent = place.kind === "find" ? "Search" : seenAs(place.path);
  rows = { ...rows, total: 0, got: new Map(), asked: new Set([kept]), words: "" };
  if (answer.refused) {
    at("count").textContent = "";
    fault(answer);
  } else {
    takeRows(answer);
    rows.words = place.kind === "find" ? place.path : answer.query ?? "";
    const count = answer.total === 1 ? "1 row" : `${answer.total.toLocaleString("en")} rows`;
    at("count").textContent = place.kind === "find" ? count.replace("row", "file") : count;
    at("keep").hidden = readOnly || place.kind !== "find";
    if (place.kind === "directory" && answer.query !== null) {
      at("query-line").hidden = false;
      at("directory-query").textContent = seenAs(answer.query);
      at("directory-query").dataset.query = answer.query;
      at("edit-query").hidden = readOnly;
    }
    at("give-query").hidden = answer.query !== null || place.path === "/";
  }
  rows.chosen = Math.min(rows.chosen, Math.max(0, rows.total - 1));
  paintRows();
}

// A query that was refused: the place of the first wrong byte is shown below it.
function fault(answer) {
  let words = refusal(answer);
  if (answer.place && place.kind === "find") words = `${place.path}\n${caret(place.path, answer.place)}\n${words}`;
  tell(words);
}

function caret(query, place) {
  const bytes = new TextEncoder().encode(query).slice(0, place - 1);
  return " ".repeat(Array.from(new TextDecoder().decode(bytes)).length) + "^";
}

function takeRows(answer) {
  rows.total = answer.total;
  answer.rows.forEach((row, count) => rows.got.set(answer.from + count, row));
  at("space").style.height = `${rows.total * ROW}px`;
}

function paintRows() {
  const box = at("rows");
  const first = Math.max(0, Math.floor(box.scrollTop / ROW) - 5);
  const last = Math.min(rows.total, Math.ceil((box.scrollTop + box.clientHeight) / ROW) + 5);
  const painted = [];
  for (let number = first; number < last; number++) {
    const row = rows.got.get(number);
    if (row) painted.push(rowOf(row, number));
    else fetchRows(Math.floor(number / WINDOW) * WINDOW);
  }
  box.replaceChildren(at("space"), ...painted);
}

async function fetchRows(from) {
  if (rows.asked.has(from)) return;
  rows.asked.add(from);
  const serial = rows.serial;
  const answer = await ask(question(from));
  if (serial === rows.serial && !answer.refused) {
    takeRows(answer);
    paintRows();
  }
}

function rowOf(row, number) {
  const line = document.createElement("div");
  line.className = `row ${row.letter}`;
  line.id = `row-${number}`;
  line.style.top = `${number * ROW}px`;
  line.setAttribute("role", "option");
  line.setAttribute("aria-selected", String(number === rows.chosen));
  const cell = (name, words) => {
    const part = document.createElement("span");
    part.className = name;
    part.textContent = words;
    line.append(part);
    return part;
  };
  cell("kind", KINDS[row.letter] ?? row.letter);
  cell("name", seenAs(nameOf(row.path))).title = seenAs(row.path);
  const above = cell("above", "");
  const path = document.createElement("bdi");
  path.textContent = seenAs(aboveOf(row.path));
  above.append(path);
  for (const [words, act] of actions(row)) {
    const button = document.createElement("button");
    button.type = "button";
    button.tabIndex = -1;
    button.textContent = words;
    button.addEventListener("click", (event) => {
      event.stopPropagation();
      act();
    });
    line.append(button);
  }
  line.draggable = true;
  line.addEventListener("dragstart", (event) => event.dataTransfer.setData("application/x-hac-path", JSON.stringify(row.path)));
  line.addEventListener("click", () => {
    choose(number);
    enter(row);
  });
  return line;
}

// What can be done with a row, each with its words.
function actions(row) {
  if (readOnly || place.kind !== "directory") return [];
  const here = place.path;
  if (row.letter === "t") return [["Take out", () => change("srm", [row.path, here])]];
  if (row.letter === "p") return [["Take out", () => takeOut(row)], ["Let the query decide", () => change("sforget", [row.path, here])]];
  if (row.letter === "x") return [["Bring back", () => change("sforget", [row.path, here])]];
  if (row.letter === "f" || row.letter === "l") return [["Remove", () => remove(row, "rm")]];
  if (row.letter === "d" || row.letter === "s") return [["Remove", () => remove(row, "rmdir")]];
  return [];
}

async function takeOut(row) {
  const answer = await ask({ do: "change", command: "srm", paths: [row.path, place.path] });
  if (answer.refused?.startsWith("not-file")) return change("sforget", [row.path, place.path]);
  if (answer.refused) return tell(refusal(answer));
  seen = answer.changes;
  await show();
}

async function remove(row, command) {
  const sure = await dialog({ title: `Remove ${seenAs(row.path)}?`, keep: "Remove" });
  if (sure) change(command, [row.path]);
}

function choose(number) {
  rows.chosen = Math.max(0, Math.min(number, rows.total - 1));
  const box = at("rows");
  const top = rows.chosen * ROW;
  if (top < box.scrollTop) box.scrollTop = top;
  if (top + ROW > box.scrollTop + box.clientHeight) box.scrollTop = top + ROW - box.clientHeight;
  box.setAttribute("aria-activedescendant", `row-${rows.chosen}`);
  paintRows();
}

async function enter(row) {
  if (["d", "s", "m"].includes(row.letter)) return go({ kind: "directory", path: row.path, file: null });
  if (row.letter === "p") {
    // A directory may be linked, too.
    const answer = await ask({ do: "directory", path: row.path });
    if (!answer.refused) return go({ kind: "directory", path: row.path, file: null });
  }
  go({ ...place, file: row.path });
}

at("rows").addEventListener("scroll", paintRows);
at("rows").addEventListener("keydown", (event) => {
  const row = rows.got.get(rows.chosen);
  const page = Math.max(1, Math.floor(at("rows").clientHeight / ROW) - 1);
  const moves = { ArrowDown: 1, ArrowUp: -1, PageDown: page, PageUp: -page, Home: -rows.total, End: rows.total };
  if (event.key in moves && !event.altKey) choose(rows.chosen + moves[event.key]);
  else if (event.key === "Enter" && row) enter(row);
  else if (event.key === "Delete" && row) actions(row)[0]?.[1]();
  else if (event.key === "b" && row?.letter === "x") actions(row)[0][1]();
  else if (event.key === "a" && row) addTo(row);
  else return;
  event.preventDefault();
  event.stopPropagation();
});

async function addTo(row) {
  if (readOnly) return;
  const path = await dialog({ title: `Add ${seenAs(row.path)} to a directory`, label: "The semantic directory", line: "/", keep: "Add" });
  if (path !== null) change("sln", [row.path, path]);
}

// The text at the right, part by part.

async function drawText() {
  const serial = ++text.serial;
  if (place.kind === "graph") return drawGraph(serial);
  text.path = place.file;
  at("text-tools").hidden = place.file === null;
  if (place.file === null) return at("text").replaceChildren();
  at("text-path").textContent = seenAs(place.file);
  at("edit-text").hidden = readOnly;
  text = { ...text, next: 0, total: 0, loading: false };
  await moreText(serial, true);
}

async function moreText(serial, first = false) {
  if (text.loading || (!first && text.next >= text.total)) return;
  text.loading = true;
  const answer = await ask({ do: "text", path: text.path, from: text.next, query: rows.words });
  if (serial !== text.serial) return;
  if (first) at("text").replaceChildren();
  if (answer.refused) {
    at("text").textContent = refusal(answer);
    at("edit-text").hidden = true;
  } else {
    for (const [words, isMarked] of answer.pieces) {
      const piece = isMarked ? document.createElement("mark") : document.createTextNode("");
      piece.textContent = words;
      at("text").append(piece);
    }
    Object.assign(text, { next: answer.next, total: answer.total });
  }
  text.loading = false;
}

function nearEnd(box) {
  return box.scrollTop + box.clientHeight > box.scrollHeight - 1500;
}
at("right").addEventListener("scroll", () => nearEnd(at("right")) && moreText(text.serial));
addEventListener("scroll", () => nearEnd(document.documentElement) && text.path && moreText(text.serial));

async function drawGraph(serial) {
  at("text-tools").hidden = true;
  const answer = await ask({ do: "graph" });
  if (serial !== text.serial) return;
  const box = at("text");
  if (answer.svg) {
    // As a picture: nothing in it is run, and its names are what they are.
    const drawn = new DOMParser().parseFromString(answer.svg, "image/svg+xml").documentElement;
    for (const one of drawn.querySelectorAll("script, foreignObject, a")) one.remove();
    box.replaceChildren(document.importNode(drawn, true));
    return;
  }
  const list = document.createElement("ul");
  for (const [one, other, how] of answer.edges ?? []) {
    const line = document.createElement("li");
    line.textContent = `${seenAs(one)} depends on ${seenAs(other)} (${how})`;
    list.append(line);
  }
  box.replaceChildren(list);
}

// Asking a person.

let looked = 0;

// Asks for a line, a text, or a yes. The answer is what was given, or null. `check` says why a line can't be kept, and
// what it would do, while it is edited.
function dialog({ title, label = "", line = null, text: long = null, keep = "Keep", check = null, send = null }) {
  const box = at("dialog");
  at("dialog-title").textContent = title;
  at("dialog-label").textContent = label;
  at("dialog-label").hidden = at("dialog-line").hidden = line === null;
  at("dialog-text").hidden = long === null;
  at("dialog-line").value = line ?? "";
  at("dialog-text").value = long ?? "";
  at("dialog-fault").textContent = "";
  at("dialog-preview").replaceChildren();
  at("dialog-keep").textContent = keep;
  const look = async () => {
    const serial = ++looked;
    if (!check) return;
    const shown = await check(at("dialog-line").value);
    if (serial !== looked) return;
    at("dialog-fault").textContent = shown.fault ?? "";
    at("dialog-preview").replaceChildren(...(shown.lines ?? []));
  };
  at("dialog-line").oninput = look;
  box.showModal();
  look();
  return new Promise((done) => {
    box.querySelector("form").onsubmit = async (event) => {
      event.preventDefault();
      const given = long !== null ? at("dialog-text").value : line !== null ? at("dialog-line").value : true;
      const why = send ? await send(given) : null;
      if (why) {
        at("dialog-fault").textContent = why;
        return;
      }
      box.onclose = null;
      box.close();
      done(given);
    };
    box.onclose = () => done(null);
  });
}
at("dialog-cancel").addEventListener("click", () => at("dialog").close());

// Says what a directory would find by a query, before it is kept.
function preview(path) {
  return async (query) => {
    const answer = await ask({ do: "preview", path, query });
    if (answer.refused) {
      const mark = answer.place ? `${query}\n${caret(query, answer.place)}\n` : "";
      return { fault: mark + refusal(answer) };
    }
    const line = (words, name) => {
      const one = document.createElement("div");
      one.textContent = words;
      if (name) one.className = name;
      return one;
    };
    const lines = [line(`It would find ${answer.total.toLocaleString("en")}: ${answer.addedTotal.toLocaleString("en")} new, ${answer.goneTotal.toLocaleString("en")} gone.`)];
    for (const item of answer.added.slice(0, 100)) lines.push(line("+ " + seenAs(item), "new"));
    for (const item of answer.gone.slice(0, 100)) lines.push(line("− " + seenAs(item), "gone"));
    return { lines };
  };
}

// Sends a command from a dialog, and says why it was refused.
const sender = (command, paths, name) => async (given) => {
  const answer = await ask({ do: "change", command, paths: paths(given), [name]: given });
  if (answer.refused) return refusal(answer);
  seen = answer.changes;
  return null;
};

async function editQuery() {
  const path = place.path;
  const query = at("query-line").hidden ? "" : at("directory-query").dataset.query;
  const sent = await dialog({
    title: `The query of ${seenAs(path)}`, label: "Query", line: query, check: preview(path), send: sender("setq", () => [path], "query"),
  });
  if (sent !== null) await show();
}

async function keepSearch() {
  const query = place.path;
  const path = await dialog({
    title: "A directory of this search", label: "Its path", line: "/",
    send: async (given) => sender("smkdir", () => [given], "query")(query),
  });
  if (path !== null) go({ kind: "directory", path, file: null });
}

async function newEntry(command, title, more) {
  const above = place.path;
  const name = await dialog({
    title, label: "Name", line: "",
    send: async (given) => {
      if (!given || given.includes("/")) return "A name has at least one sign, and no slash.";
      const answer = await ask({ do: "change", command, paths: [inside(above, given)], ...more });
      if (answer.refused) return refusal(answer);
      seen = answer.changes;
      return null;
    },
  });
  if (name === null) return;
  const path = inside(above, name);
  await show();
  go(command === "put" ? { ...place, file: path } : { kind: "directory", path, file: null });
}

async function editText() {
  const path = text.path;
  if (path === null || readOnly) return;
  const answer = await ask({ do: "text", path, whole: true });
  if (answer.refused) return tell(refusal(answer));
  const sent = await dialog({ title: seenAs(path), text: answer.text, send: sender("put", () => [path], "text") });
  if (sent !== null) await show();
}

at("edit-query").addEventListener("click", editQuery);
at("give-query").addEventListener("click", editQuery);
at("keep").addEventListener("click", keepSearch);
at("edit-text").addEventListener("click", editText);
at("new-file").addEventListener("click", () => newEntry("put", "A new file", { text: "" }));
at("new-directory").addEventListener("click", () => newEntry("mkdir", "A new directory", {}));
at("show-graph").addEventListener("click", () => go({ kind: "graph", path: "/", file: null }));
at("show-keys").addEventListener("click", () => dialog({ title: KEYS, keep: "Well" }));
at("search").addEventListener("submit", (event) => {
  event.preventDefault();
  go({ kind: "find", path: at("query").value, file: null });
});

document.addEventListener("keydown", (event) => {
  if (event.target.matches("input, textarea") || at("dialog").open || event.ctrlKey || event.metaKey || event.altKey) return;
  const acts = {
    "/": () => at("query").focus(),
    g: () => at("show-graph").click(),
    "?": () => at("show-keys").click(),
    n: () => !at("tools").hidden && at("new-file").click(),
    e: () => (text.path !== null ? editText() : !readOnly && !at("query-line").hidden && editQuery()),
  };
  if (!(event.key in acts)) return;
  event.preventDefault();
  acts[event.key]();
});

// Showing.

async function show() {
  place = placeOf(location.hash);
  if (place.kind === "find") at("query").value = place.path;
  if (place.kind === "directory") for (let path = place.path; path !== "/"; ) open.add((path = aboveOf(path)));
  document.title = `hac: ${place.kind === "find" ? place.path : seenAs(place.path)}`;
  try {
    if (place.kind !== "graph") await drawRows();
    await drawText();
    await drawTree();
  } catch (error) {
    if (!at("told").textContent) tell(String(error.message ?? error));
  }
}

// Waits for what others change.
async function watch() {
  for (;;) {
    try {
      const reply = await fetch("wait", { method: "POST", headers: { "Content-Type": "application/json" }, body: JSON.stringify({ seen }) });
      const answer = await reply.json();
      const before = seen;
      readOnly = answer.readOnly;
      seen = answer.changes;
      if (before < 0 || answer.changes !== before) if (!at("dialog").open) await show();
    } catch {
      tell("The server doesn't answer: hac-web has ended.");
      await new Promise((done) => setTimeout(done, 2000));
    }
  }
}

addEventListener("hashchange", () => {
  at("rows").scrollTop = 0;
  rows.chosen = 0;
  tell("");
  show();
});
watch();
