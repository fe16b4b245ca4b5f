"use strict";
(function () {
  const data = JSON.parse(document.getElementById("data").textContent);
  const steps = data.steps;
  const LAST = steps.length - 1;
  // a copy of the whole state is kept at every so many steps; the steps between them are changes
  const KEPT = 256;
  // only so many steps around the present one are in the page
  const AROUND = 60;
  // only so many wrong lines of a sheet have a button
  const FEW = 24;
  const copies = [];
  let now = 0, from = 0, to = 0;

  function make(tag, words, kind) {
    const element = document.createElement(tag);
    if (words !== undefined) element.textContent = words;
    if (kind) element.className = kind;
    return element;
  }

  // ---- the state after a step

  function apply(state, step) {
    const changes = steps[step][3];
    ["sessions", "files", "blocks"].forEach((part, at) => {
      for (const [place, value] of changes[at]) state[part][place] = value;
    });
  }

  function copy(state) {
    return { sessions: state.sessions.slice(), files: state.files.slice(), blocks: state.blocks.slice() };
  }

  function stateAt(step) {
    const base = Math.floor(step / KEPT);
    while (copies.length <= base) {
      const at = copies.length * KEPT;
      const state = at === 0 ? { sessions: [], files: [], blocks: [] } : copy(copies[copies.length - 1]);
      for (let next = Math.max(at - KEPT + 1, 0); next <= at; next++) apply(state, next);
      copies.push(state);
    }
    const state = copy(copies[base]);
    for (let next = base * KEPT + 1; next <= step; next++) apply(state, next);
    return state;
  }

  function changedAt(step, part) {
    return new Set(steps[step][3][part].map((change) => change[0]));
  }

  // ---- the pass: a lane for each session

  const lanes = [];
  for (const step of steps) for (const row of step[2]) if (row[0] && !lanes.includes(row[0])) lanes.push(row[0]);
  lanes.sort((a, b) => a - b);

  const ARROWS = { ">": ["→", "the station sends"], "<": ["←", "the server answers"], " ": ["×", "lost with the link"] };
  const BAD = ["closed", "refused", "UL_ERROR_RESP", "UL_NAK_RESP", "DL_ERROR_RESP", "DL_ABORTED_RESP", "lost", "unreadable"];

  function packet(row) {
    const [, way, name, words, hex, details] = row;
    const line = document.createDocumentFragment();
    const arrow = make("span", ARROWS[way][0], "way");
    arrow.title = ARROWS[way][1];
    line.append(arrow, make("span", name, "name"), " " + words);
    const cell = make("div", undefined, BAD.includes(name) ? "packet bad" : "packet");
    if (!hex) {
      cell.append(line);
    } else {
      const box = make("details");
      const head = make("summary");
      head.append(line);
      box.append(head, make("code", hex.replace(/../g, "$& ").trim(), "bytes"));
      cell.append(box);
    }
    // a header is long, so it stands with its bytes; why a file was refused is seen at once
    if (details.length) (name === "DATA" ? cell.firstChild : cell).append(items(details));
    return cell;
  }

  function items(details) {
    const list = make("ul", undefined, "items");
    for (const detail of details) list.append(make("li", detail));
    return list;
  }

  // the clock is written where a line sets it, and in the first row that is in the page
  function clockWords(step) {
    const rows = steps[step][2];
    return step === from || (rows.length && rows[0][2] === "clock") ? String(steps[step][1]) : "";
  }

  // the desk's word on a line of an answer sheet: none, right, or wrong with where it differs, the pupil's fields and the server's
  function isWrong(step) {
    return Boolean(steps[step][4] && steps[step][4].length);
  }

  function markWords(step) {
    return !steps[step][4] ? "" : isWrong(step) ? "✗ wrong" : "✓ right";
  }

  function fieldLine(name, fields) {
    const line = make("p");
    line.append(make("span", name, "who"));
    if (!fields.length) line.append(" nothing");
    for (const field of fields) line.append(" ", make("code", field, "field"));
    return line;
  }

  // below the packets of a wrong line: what the pupil wrote, and what the server answers
  function wrongRow(step, open) {
    const [words, written, answered] = steps[step][4];
    const tr = frontRow(step, false);
    const cell = wholeCell(open, "compared");
    cell.append(fieldLine("the pupil wrote", written), fieldLine("the server answers", answered), make("p", words));
    tr.append(cell);
    return tr;
  }

  // a cell across all lanes; the lifeline of the first one goes on beside it
  function wholeCell(open, kind) {
    const cell = make("td", undefined, (open.has(lanes[0]) ? "lane open " : "lane ") + kind);
    cell.colSpan = Math.max(lanes.length, 1);
    return cell;
  }

  // mark, line and clock of a row
  function frontRow(step, isFirst) {
    const tr = make("tr", undefined, isFirst ? "step first" : "step");
    tr.dataset.step = step;
    if (isWrong(step)) tr.classList.add("wrong");
    tr.append(make("td", isFirst ? markWords(step) : "", "marks"));
    const line = make("td", undefined, "line");
    if (isFirst) {
      const button = make("button", String(steps[step][0]));
      button.title = "show the state after this line";
      button.addEventListener("click", () => go(step));
      line.append(button);
    }
    tr.append(line, make("td", isFirst ? clockWords(step) : "", "clock"));
    return tr;
  }

  function passRow(step, row, isFirst, open) {
    const tr = frontRow(step, isFirst);
    // a question and its answer, or a line that can't be read; the lifelines go on where a line sets the clock
    if (row && !row[0] && row[2] !== "clock") {
      const cell = wholeCell(open, "whole");
      cell.append(make("span", row[2], "name"), " " + row[3]);
      if (row[5].length) cell.append(items(row[5]));
      tr.append(cell);
      return tr;
    }
    for (const lane of lanes) {
      const cell = make("td", undefined, open.has(lane) ? "lane open" : "lane");
      if (row && row[0] === lane) cell.append(packet(row));
      tr.append(cell);
    }
    return tr;
  }

  function openAt(step) {
    const open = new Set();
    stateAt(step).sessions.forEach((session, at) => { if (session[0]) open.add(at + 1); });
    return open;
  }

  function more(words, kind, step) {
    const button = make("button", words, "more");
    button.id = kind;
    button.addEventListener("click", () => { draw(step); mark(); });
    return button;
  }

  function draw(around) {
    from = Math.max(1, around - AROUND);
    to = Math.min(LAST, around + AROUND);
    drawRange();
  }

  function drawRange() {
    const body = document.getElementById("rows");
    body.textContent = "";
    let before = openAt(from - 1);
    for (let step = from; step <= to; step++) {
      const after = openAt(step);
      // the lifeline of a step that begins or ends the link is drawn too
      const open = new Set([...before, ...after]);
      const rows = steps[step][2];
      if (!rows.length) body.append(passRow(step, null, true, open));
      rows.forEach((row, at) => body.append(passRow(step, row, at === 0, open)));
      if (isWrong(step)) body.append(wrongRow(step, open));
      before = after;
    }
    const above = document.getElementById("above"), below = document.getElementById("below");
    above.textContent = below.textContent = "";
    if (from > 1) above.append(more("earlier lines, " + steps[1][0] + " to " + steps[from - 1][0], "earlier", from - 1));
    if (to < LAST) below.append(more("later lines, " + steps[to + 1][0] + " to " + steps[LAST][0], "later", to + 1));
  }

  // ---- the state, in tables

  function table(heads, rows) {
    const result = make("table"), head = make("tr"), top = make("thead"), body = make("tbody");
    for (const words of heads) head.append(make("th", words));
    top.append(head);
    for (const [cells, kind] of rows) {
      const tr = make("tr", undefined, kind);
      for (const words of cells) tr.append(make("td", words));
      body.append(tr);
    }
    result.append(top, body);
    return result;
  }

  function selection(numbers, taken) {
    if (!numbers.length) return "none";
    const words = numbers.map((number, at) => (at < taken ? "✓" : at === taken ? "▸" : "") + number);
    return words.join(", ") + " (" + taken + " of " + numbers.length + " taken)";
  }

  const FACTS = [
    ["Link", (session) => (session[0] ? "open" : "closed")],
    ["Uplink", (session) => session[1]],
    ["Downlink", (session) => session[2]],
    ["Unfinished packet", (session) => session[3]],
    ["Selection", (session) => selection(session[4], session[5])],
  ];

  // a column for each session
  function sessionTable(state, before) {
    const shown = lanes.filter((lane) => lane <= state.sessions.length);
    const rows = FACTS.map(([name, words]) => [[name, ...shown.map((lane) => words(state.sessions[lane - 1]))], ""]);
    const result = table(["Session", ...shown.map(String)], rows);
    result.id = "sessions";
    result.querySelectorAll("tbody tr").forEach((row, fact) => {
      const words = FACTS[fact][1];
      shown.forEach((lane, at) => {
        if (words(state.sessions[lane - 1]) !== words(before.sessions[lane - 1])) row.children[at + 1].classList.add("changed");
      });
    });
    return result;
  }

  function fileRows(state, changed) {
    const rows = [];
    state.files.forEach((file, place) => { if (file) rows.push([file, changed.has(place)]); });
    rows.sort((a, b) => a[0][0] - b[0][0]);
    return rows.map(([[number, title, received, length, time], is]) => {
      const bytes = received === length ? String(length) : received + " of " + length;
      return [[String(number), title || "no title", bytes, time ? String(time) : "none yet", time ? "complete" : "partial"], is ? "changed" : ""];
    });
  }

  function blockMap(state, changed) {
    const map = make("div", undefined, "map");
    map.id = "map";
    map.setAttribute("role", "img");
    const held = state.blocks.filter((number) => number).length;
    map.setAttribute("aria-label", state.blocks.length - held + " blocks free, " + held + " held");
    state.blocks.forEach((number, at) => {
      const cell = make("span", number ? String(number) : "·", (number ? "held" : "") + (changed.has(at) ? " changed" : ""));
      cell.title = "block " + at + (number ? ": file " + number : ": free");
      map.append(cell);
    });
    return map;
  }

  function show() {
    const state = stateAt(now);
    const [files, blocks] = now === 0 ? [new Set(), new Set()] : [changedAt(now, 1), changedAt(now, 2)];
    const panel = document.getElementById("state");
    panel.textContent = "";
    const held = state.blocks.filter((number) => number).length;
    panel.append(make("h2", now === 0 ? "Before the first line" : "After line " + steps[now][0] + ", clock " + steps[now][1]));
    const rows = fileRows(state, files);
    const list = rows.length ? table(["File", "Title", "Bytes", "Upload time", "State"], rows) : make("p", "no files", "none");
    list.id = "files";
    panel.append(sessionTable(state, stateAt(Math.max(now - 1, 0))), make("h2", "Files"), list);
    panel.append(make("h2", "Blocks: " + (state.blocks.length - held) + " free, " + held + " held"), blockMap(state, blocks));
    const legend = "A number is the file that holds the block, · is a free block. In a selection ✓ is taken and ▸ is next. A frame marks what this line changed.";
    panel.append(make("p", legend, "keys"));
  }

  // ---- stepping

  function mark() {
    for (const row of document.querySelectorAll("#rows .now")) row.classList.remove("now");
    const rows = document.querySelectorAll('#rows tr[data-step="' + now + '"]');
    for (const row of rows) row.classList.add("now");
    return rows;
  }

  function inView(rows) {
    const box = document.getElementById("pass");
    const head = 40;
    const top = rows[0].offsetTop, bottom = rows[rows.length - 1].offsetTop + rows[rows.length - 1].offsetHeight;
    if (top - head < box.scrollTop) box.scrollTop = top - head;
    else if (bottom > box.scrollTop + box.clientHeight) box.scrollTop = Math.min(top - head, bottom - box.clientHeight);
  }

  // for who hears the page
  function heardWords(step) {
    const rows = steps[step][2].map((row) => (row[0] ? "session " + row[0] + " " : "") + [row[2], row[3], ...(row[0] ? [] : row[5])].join(" "));
    if (steps[step][4]) rows.push(isWrong(step) ? "wrong: " + steps[step][4][0] : "right");
    return rows.join("; ");
  }

  function go(step) {
    now = Math.min(Math.max(step, 0), LAST);
    const is_shown = now === 0 ? from === 1 : now >= from && now <= to;
    if (!is_shown) draw(now);
    show();
    const rows = mark();
    if (rows.length) inView(rows);
    else document.getElementById("pass").scrollTop = 0;
    document.getElementById("told").textContent = heardWords(now);
    document.getElementById("step").value = now;
    document.body.dataset.step = now;
    for (const id of ["begin", "back"]) document.getElementById(id).disabled = now === 0;
    for (const id of ["next", "end"]) document.getElementById(id).disabled = now === LAST;
  }

  const KEYS = { ArrowRight: () => now + 1, ArrowLeft: () => now - 1, PageDown: () => now + 10, PageUp: () => now - 10, Home: () => 0, End: () => LAST };

  function pressed(event) {
    const act = KEYS[event.key];
    if (!act || event.ctrlKey || event.altKey || event.metaKey || event.target.id === "step") return;
    event.preventDefault();
    go(act());
  }

  function button(id, words, step) {
    const result = make("button", words);
    result.id = id;
    result.addEventListener("click", () => go(step()));
    return result;
  }

  function bar() {
    const result = make("div", undefined, "bar");
    const step = make("input");
    Object.assign(step, { type: "number", id: "step", min: 0, max: LAST, value: 0 });
    step.setAttribute("aria-label", "step");
    step.addEventListener("change", () => go(Number(step.value) || 0));
    result.append(button("begin", "|◀ begin", KEYS.Home), button("back", "◀ back", KEYS.ArrowLeft));
    result.append(button("next", "next ▶", KEYS.ArrowRight), button("end", "end ▶|", KEYS.End));
    result.append(" step ", step, " of " + LAST, make("span", "keys: ← → Home End PageUp PageDown; click a packet for its bytes", "keys"));
    return result;
  }

  // the marks of a sheet, and its wrong lines to go to
  function total() {
    const result = make("p", undefined, "total");
    const wrong = steps.map((step, at) => at).filter(isWrong);
    result.append(make("strong", data.marks), " lines are right.");
    if (wrong.length) result.append(" Wrong: ");
    for (const step of wrong.slice(0, FEW)) {
      const button = make("button", "line " + steps[step][0]);
      button.addEventListener("click", () => go(step));
      result.append(button, " ");
    }
    if (wrong.length > FEW) result.append("and " + (wrong.length - FEW) + " more");
    return result;
  }

  function begin() {
    const header = make("header"), main = make("main"), pass = make("div"), state = make("section");
    header.append(make("h1", (data.marks ? "Answer sheet, marked: " : "What passed between the stations and the server: ") + data.name));
    if (data.marks) header.append(total());
    if (data.note) header.append(make("p", data.note, "note"));
    header.append(bar());
    pass.id = "pass";
    state.id = "state";
    const told = make("p", "", "told");
    told.id = "told";
    told.setAttribute("role", "status");
    const heads = make("tr");
    heads.append(make("th", data.marks ? "Mark" : "", "marks"), make("th", "Line", "line"), make("th", "Clock", "clock"));
    for (const lane of lanes) heads.append(make("th", "Session " + lane, "lane"));
    if (!lanes.length) heads.append(make("th", "", "lane"));
    const list = make("table"), top = make("thead"), body = make("tbody"), above = make("div"), below = make("div");
    body.id = "rows";
    above.id = "above";
    below.id = "below";
    top.append(heads);
    list.append(top, body);
    pass.append(above, list, below);
    main.append(pass, state);
    document.body.append(header, main, told);
    if (data.marks) document.body.classList.add("sheet");
    document.addEventListener("keydown", pressed);
    addEventListener("beforeprint", () => { from = 1; to = LAST; drawRange(); mark(); });
    addEventListener("afterprint", () => { draw(now); mark(); });
    draw(0);
    go(Number(location.hash.slice(1)) || 0);
  }

  begin();
})();
