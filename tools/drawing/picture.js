"use strict";
// Shows a run: what is seen of it is in the document, and no more. The lines of the run are made by tools/draw, which has
// placed everything; here it is only drawn, cut to the window, stepped through, and explained under the pointer.
(() => {
  const PAD = 8, LINE = 18, GUTTER = 46, MARGIN = 300, BUCKET = 1000, FAR = 3000, STUB = 130, HEAD = 48;
  const PLAIN = /^(call|reply|quiet|from|bad)$/;
  const SAMPLE = ["key", "value", "sample_state", "view_state", "instance_state", "disposed_generation_count", "no_writers_generation_count",
    "sample_rank", "generation_rank", "absolute_generation_rank", "source_timestamp", "instance_handle", "publication_handle"];
  const WORDS = { N: "NOT_READ", R: "READ", A: "ALIVE", D: "NOT_ALIVE_DISPOSED", W: "NOT_ALIVE_NO_WRITERS" };
  const VIEWS = { N: "NEW", O: "NOT_NEW" };
  const escaped = (text) => String(text).replace(/[&<>"]/g, (it) => ({ "&": "&amp;", "<": "&lt;", ">": "&gt;", '"': "&quot;" })[it]);
  const element = (id) => document.getElementById(id);

  // The run.

  function read(lines) {
    const run = { forms: [], packets: [], rows: [], arrows: [], bands: [], states: new Map(), ...lines[0] };
    for (const line of lines.slice(1)) {
      if (line.form) run.forms.push(line.form);
      else if (line.packet) run.packets.push(line.packet);
      else if (line.row) addRow(run, line);
      else if (line.arrow) run.arrows.push(line.arrow);
      else if (line.band) run.bands.push(line.band);
    }
    run.arrowIndex = indexOf(run.arrows.map((it) => [it[5], it[7], isFar(it)]), run.height);
    run.bandIndex = indexOf(run.bands.map((it) => [it[2], it[3], false]), run.height);
    return run;
  }

  function addRow(run, line) {
    const [y, height, number, peer, source, reply] = line.row;
    const at = run.rows.length;
    run.rows.push({ y, height, number, peer, source, reply, marks: line.marks, dots: line.dots || [], captions: line.captions || [] });
    for (const [pair, text] of Object.entries(line.states || {})) {
      if (!run.states.has(pair)) run.states.set(pair, []);
      run.states.get(pair).push([at, text]);
    }
  }

  // A packet that is long on its way is drawn where it was sent, and where it came.
  const isFar = (arrow) => arrow[7] - arrow[5] > FAR;

  // For each stretch of the picture what begins, ends or passes there; what has only ends passes nowhere.
  function indexOf(spans, height) {
    const count = Math.floor(height / BUCKET) + 1;
    const buckets = Array.from({ length: count }, () => []);
    const place = (y) => Math.max(0, Math.min(count - 1, Math.floor(y / BUCKET)));
    spans.forEach(([from, to, hasOnlyEnds], number) => {
      const first = place(from), last = place(to);
      for (let at = first; at <= last; at = hasOnlyEnds && at < last ? last : at + 1) buckets[at].push(number);
    });
    return { buckets, place };
  }

  function seen(index, top, bottom) {
    const found = new Set();
    for (let at = index.place(top); at <= index.place(bottom); at++) for (const it of index.buckets[at]) found.add(it);
    return found;
  }

  function firstRow(run, y) {
    let low = 0, high = run.rows.length;
    while (low < high) {
      const middle = (low + high) >> 1;
      if (run.rows[middle].y + run.rows[middle].height < y) low = middle + 1;
      else high = middle;
    }
    return low;
  }

  // What is drawn.

  const text = (style, x, y, words, more = "") => `<text class="${style}" x="${x}" y="${y}"${more}>${escaped(words)}</text>`;
  const noted = (note) => (note ? ` data-note="${escaped(note)}"` : "");

  function drawRow(row, at, cursor) {
    const parts = row.captions.map(([y, words]) => text("caption", GUTTER, y, words));
    parts.push(text("number", GUTTER - 12, row.y + PAD / 2 + 13, row.number, noted(`n:${row.source}\n${row.reply}`)));
    for (const [style, x, y, width, words, note] of row.marks) {
      const more = noted(note ? (/^[nps]:/.test(note) ? note : `n:${note}`) : style === "call" ? `n:${row.source}\n${row.reply}` : "");
      if (!PLAIN.test(style)) parts.push(`<rect class="chip ${style}" x="${x}" y="${y + 1}" width="${width}" height="${LINE - 2}" rx="4"${more}/>`);
      parts.push(text(`mark ${style}`, x + 5, y + 13, words, more));
    }
    for (const [style, x, y] of row.dots) parts.push(`<circle class="dot ${style}" cx="${x}" cy="${y}" r="4"/>`);
    return `<g data-row="${at}"${at > cursor ? ' class="later"' : ""}>${parts.join("")}</g>`;
  }

  const pathOf = (x1, y1, x2, y2) =>
    Math.abs(x1 - x2) < LINE ? `M${x1} ${y1}C${x1 + 70} ${y1} ${x2 + 70} ${y2} ${x2} ${y2}` : `M${x1} ${y1}L${x2} ${y2}`;

  const crossed = (x, y) => `<path class="cross" d="M${x - 5} ${y - 5}L${x + 5} ${y + 5}M${x - 5} ${y + 5}L${x + 5} ${y - 5}"/>`;

  // The paths of an arrow: one, or two stubs; and one that is on its way at the cursor goes as far as the cursor's row.
  function pathsOf(run, arrow, cursor) {
    const [, , sent, came, x1, y1, x2, y2] = arrow, side = x2 >= x1 ? 1 : -1;
    if (isFar(arrow)) return [pathOf(x1, y1, x1 + side * STUB, y1 + 4), pathOf(x2 - side * STUB, y2 - 4, x2, y2)];
    if (sent < 0 || cursor < sent || came <= cursor) return [pathOf(x1, y1, x2, y2)];
    const row = run.rows[cursor], part = Math.min((row.y + row.height - y1) / Math.max(y2 - y1, 1), 1);
    return [pathOf(x1, y1, Math.round(x1 + (x2 - x1) * part), Math.round(y1 + (y2 - y1) * part))];
  }

  function drawArrow(run, number, cursor) {
    const arrow = run.arrows[number], [style, packet, sent, came, x1, y1, x2, y2, label] = arrow, names = style.split(" ");
    const right = x2 >= x1, anchor = right ? "" : ' text-anchor="end"', aside = right ? 8 : -8;
    const isLost = names.includes("lost"), isOnTheWay = sent >= 0 && sent <= cursor && came > cursor, parts = [];
    const isLater = sent > cursor || (sent < 0 && came > cursor), paths = pathsOf(run, arrow, cursor);
    paths.forEach((path, place) => {
      const head = isLost || isOnTheWay || place < paths.length - 1 ? "" : ' marker-end="url(#head)"';
      const later = isOnTheWay && place > 0 ? " later" : "";
      parts.push(`<path class="arrow ${style}${later}" data-arrow="${number}" d="${path}"${head}/>`);
      if (names.includes("repeated")) parts.push(`<path class="inner" d="${path}"/>`);
      parts.push(`<path class="touch" fill="none" stroke="transparent" stroke-width="12" d="${path}"/>`);
    });
    if (isLost) parts.push(crossed(x2, y2), text("cross-text", x2 + (right ? 10 : -10), y2 + 4, "lost", anchor));
    if (label) parts.push(text("label", x1 + aside, y1 - 4, label, anchor));
    if (isFar(arrow)) parts.push(text("label", x2 - aside, y2 - 8, run.packets[packet - 1][5], right ? ' text-anchor="end"' : ""));
    return `<g${noted(`p:${packet}`)}${isLater ? ' class="later"' : ""}>${parts.join("")}</g>`;
  }

  function drawBand(run, number, cursor) {
    const [style, x, y, end, since, until, key, owner, note] = run.bands[number];
    const height = Math.max(end - y, 2), isLater = since > cursor;
    const parts = [`<rect class="band ${style}" data-band="${number}" x="${x + 1}" y="${y}" width="22" height="${height}" rx="3"/>`];
    parts.push(text("key", x + 12, y + 12, key.slice(-3)));
    if (owner && height > 26) parts.push(text("key owner", x + 12, y + 23, owner));
    return `<g${noted(`n:${note}`)}${isLater ? ' class="later"' : ""}>${parts.join("")}</g>`;
  }

  const MARKER = `<defs><marker id="head" viewBox="0 0 8 8" refX="8" refY="4" markerWidth="8" markerHeight="8" orient="auto"
 markerUnits="userSpaceOnUse"><path class="arrowhead" d="M0 0L8 4L0 8z"/></marker></defs>`;

  function drawWindow(run, top, bottom, cursor) {
    const parts = [MARKER];
    for (const lane of run.lanes)
      for (const end of lane.ends) parts.push(`<line class="life" x1="${end.x}" y1="${top}" x2="${end.x}" y2="${bottom}"/>`);
    const row = run.rows[cursor];
    if (row) parts.push(`<rect class="now" x="0" y="${row.y}" width="${run.width}" height="${row.height}"/>`);
    const isIn = (y) => y >= top && y <= bottom;
    for (const it of seen(run.bandIndex, top, bottom)) parts.push(drawBand(run, it, cursor));
    for (const it of seen(run.arrowIndex, top, bottom)) {
      const arrow = run.arrows[it], [, , , , , y1, , y2] = arrow;
      if (isIn(y1) || isIn(y2) || (!isFar(arrow) && y1 < top && y2 > bottom)) parts.push(drawArrow(run, it, cursor));
    }
    for (const [y, words] of run.intro) if (y >= top && y <= bottom) parts.push(text("caption", GUTTER, y, words));
    for (let at = firstRow(run, top); at < run.rows.length && run.rows[at].y - 200 <= bottom; at++) parts.push(drawRow(run.rows[at], at, cursor));
    if (run.fault) parts.push(text("fault", GUTTER, run.height - PAD - 4, run.fault));
    return parts.join("");
  }

  function drawHeads(run) {
    const parts = [`<rect class="ground" width="${run.width}" height="${HEAD}"/>`];
    for (const lane of run.lanes) {
      parts.push(text("lane", (lane.x + lane.to) / 2, 18, `peer ${lane.peer}`, noted(`n:GUID prefix ${lane.prefix}`)));
      for (const end of lane.ends) {
        const isCut = run.hidden.includes(`${lane.peer}.${end.n}`), cut = isCut ? "\nnot all of its instances have a band" : "";
        parts.push(text("end", end.x, 38, `${end.n}${isCut ? "+" : ""}`, noted(`n:${end.n} ${end.o}${cut}`)));
      }
    }
    return `<svg width="${run.width}" height="${HEAD}">${parts.join("")}</svg>`;
  }

  // What stands behind what is pointed at.

  function numberAt(octets, at, length, order) {
    let found = 0n;
    for (let i = 0; i < length; i++) found = (found << 8n) | BigInt(octets[order === "<" ? at + length - 1 - i : at + i]);
    return found;
  }

  const sequenceAt = (octets, at, order) => (numberAt(octets, at, 4, order) << 32n) | numberAt(octets, at + 4, 4, order);

  function membersAt(octets, at, order, base) {
    const bits = Number(numberAt(octets, at, 4, order)), found = [];
    for (let i = 0; i < Math.min(bits, 256); i++)
      if ((numberAt(octets, at + 4 + 4 * (i >> 5), 4, order) >> BigInt(31 - (i & 31))) & 1n) found.push(base + BigInt(i));
    return `${bits} bits${found.length ? `: ${found.join(" ")}` : ""}`;
  }

  function valueOf(octets, at, length, kind, base) {
    const order = kind[1];
    if (kind.length > 2) return kind === "text" ? String.fromCharCode(...octets.slice(at, at + length)) : "";
    if (kind[0] === "u") return String(numberAt(octets, at, length, order));
    if (kind[0] === "i") return String(BigInt.asIntN(8 * length, numberAt(octets, at, length, order)));
    if (kind[0] === "n") return String(sequenceAt(octets, at, order));
    if (kind[0] === "t") return `${numberAt(octets, at, 4, order)} s and ${numberAt(octets, at + 4, 4, order)}/2^32`;
    return membersAt(octets, at, order, base);
  }

  function packetTable(run, number) {
    const [, sender, to, sent, came, label, form, digits] = run.packets[number - 1];
    const octets = (digits.match(/../g) || []).map((it) => parseInt(it, 16));
    const rows = [];
    let at = 0, base = 0n;
    for (const [length, name, kind] of run.forms[form]) {
      if (kind.length === 2 && kind[0] === "n") base = sequenceAt(octets, at, kind[1]);
      const shown = octets.slice(at, at + length).map((it) => it.toString(16).padStart(2, "0")).join(" ");
      const cells = [at, escaped(name), escaped(valueOf(octets, at, length, kind, base)), `<span class="octets">${shown}</span>`];
      rows.push(`<tr${kind === "head" ? ' class="head"' : ""}>${cells.map((it) => `<td>${it}</td>`).join("")}</tr>`);
      at += length;
    }
    const times = came && `came ${came.length === 1 ? "once" : `${came.length} times`}`;
    const how = sent < 0 ? "from outside" : !came ? "and whether it came is not known" : came.length ? times : "never came";
    const whose = `from peer ${sender || "?"} to peer ${to || "?"}, ${how}`;
    return `<b>packet ${number}</b> ${whose}: ${escaped(label)}, ${octets.length} octets<table>${rows.join("")}</table>`;
  }

  function sampleTable(words) {
    const said = words.split(" ").map((it, place) => (place === 3 ? VIEWS[it] : place === 2 || place === 4 ? WORDS[it] : it) || it);
    const rows = SAMPLE.map((name, place) => `<tr><td>${name}</td><td>${escaped(said[place])}</td></tr>`);
    rows.push(`<tr><td>valid_data</td><td>${words.split(" ")[1] !== "!"}</td></tr>`);
    return `<b>SampleInfo</b><table>${rows.join("")}</table>`;
  }

  function explain(run, note) {
    const rest = note.slice(2);
    if (note[0] === "p") return packetTable(run, Number(rest));
    if (note[0] === "s") return sampleTable(rest);
    return rest.split("\n").map((it) => escaped(it.length > 2000 ? `${it.slice(0, 2000)}..` : it)).join("<br>");
  }

  // The page.

  const FRAME = `<div id="bar"><button id="back" title="back">&#9664;</button><button id="next" title="next">&#9654;</button>
<input id="slider" type="range" min="-1" step="1" aria-label="event"><output id="where"></output></div>
<div id="states"></div><div id="view"><div id="heads"></div><div id="space"><svg id="drawing"></svg></div></div><div id="hover"></div>`;

  let run, cursor, drawn;

  function stateTexts() {
    const found = [];
    for (const [pair, list] of run.states) {
      let low = 0, high = list.length;
      while (low < high) {
        const middle = (low + high) >> 1;
        if (list[middle][0] <= cursor) low = middle + 1;
        else high = middle;
      }
      if (low) found.push(`<span>${escaped(`${pair}: ${list[low - 1][1]}`)}</span>`);
    }
    return found.join("") || "nothing has come";
  }

  function draw(isForced) {
    const view = element("view"), offset = element("space").offsetTop;
    const top = view.scrollTop - offset, bottom = top + view.clientHeight;
    if (!isForced && drawn && top >= drawn[0] + MARGIN / 3 && bottom <= drawn[1] - MARGIN / 3) return;
    const from = Math.max(0, top - MARGIN), to = Math.min(run.height, bottom + MARGIN), svg = element("drawing");
    drawn = [from === 0 ? -MARGIN : from, to === run.height ? to + MARGIN : to];
    svg.setAttribute("width", run.width);
    svg.setAttribute("height", Math.max(to - from, 0));
    svg.setAttribute("viewBox", `0 ${from} ${run.width} ${Math.max(to - from, 1)}`);
    svg.style.top = `${from + offset}px`;
    svg.innerHTML = drawWindow(run, from, to, cursor);
  }

  function go(to, isFollowed) {
    cursor = Math.max(-1, Math.min(run.rows.length - 1, to));
    element("slider").value = cursor;
    const row = run.rows[cursor];
    if (isFollowed && row) {
      const view = element("view"), y = row.y + element("space").offsetTop;
      if (y < view.scrollTop + HEAD + 40 || y + row.height > view.scrollTop + view.clientHeight - 40) view.scrollTop = y - view.clientHeight / 2;
    }
    draw(true);
    element("where").textContent = row ? `event ${cursor + 1} of ${run.rows.length}, line ${row.number}` : `of ${run.rows.length} events`;
    element("states").innerHTML = stateTexts();
  }

  function point(event) {
    const hover = element("hover"), from = event.target.closest("[data-note]");
    if (hover.dataset.pinned) return;
    hover.style.display = from ? "block" : "none";
    if (!from) return;
    hover.innerHTML = explain(run, from.dataset.note);
    const { clientX, clientY } = event, { offsetWidth, offsetHeight } = hover;
    hover.style.left = `${Math.max(4, Math.min(clientX + 16, window.innerWidth - offsetWidth - 8))}px`;
    hover.style.top = `${Math.max(4, Math.min(clientY + 16, window.innerHeight - offsetHeight - 8))}px`;
  }

  function listen() {
    const hover = element("hover"), view = element("view");
    element("slider").oninput = (it) => go(Number(it.target.value), true);
    element("back").onclick = () => go(cursor - 1, true);
    element("next").onclick = () => go(cursor + 1, true);
    view.onscroll = () => requestAnimationFrame(() => draw(false));
    view.onmousemove = point;
    view.onclick = (event) => {
      delete hover.dataset.pinned;
      point(event);
      if (hover.style.display === "block") hover.dataset.pinned = "yes";
    };
    window.onresize = () => draw(true);
    const steps = { ArrowLeft: -1, ArrowUp: -1, ArrowRight: 1, ArrowDown: 1 };
    window.onkeydown = (event) => {
      if (/^(INPUT|TEXTAREA)$/.test(event.target.tagName)) return;
      if (event.key === "Escape") delete hover.dataset.pinned, (hover.style.display = "none");
      if (!(event.key in steps)) return;
      event.preventDefault();
      go(cursor + steps[event.key], true);
    };
    window.onhashchange = () => go(Number(location.hash.slice(1)) - 1, true);
  }

  // Shows the lines of a run; at the end, or at the event that the address names behind its #, counted from 1.
  function show(lines) {
    run = read(lines);
    drawn = undefined;
    if (!element("view")) {
      element("picture").innerHTML = FRAME;
      listen();
    }
    element("heads").innerHTML = drawHeads(run);
    element("space").style.height = `${run.height}px`;
    element("space").style.width = `${run.width}px`;
    element("slider").max = run.rows.length - 1;
    const named = Number(location.hash.slice(1));
    go(named > 0 ? named - 1 : run.rows.length - 1, named > 0);
  }

  const linesOf = (words) => words.trim().split("\n").map((it) => JSON.parse(it));
  window.showRun = (words) => show(linesOf(words));
  if (element("run")) window.showRun(element("run").textContent);
})();
