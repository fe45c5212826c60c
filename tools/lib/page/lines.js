"use strict";
// What happens line by line: timelines, each script alone, and the scenario with its replies; one cursor for all.
(() => {
  const { state, hooks, page, none, el, svg, note, amount, refuses, fold } = Page;
  const FEW = 500;
  let go = () => {}, values = [];

  // --- the cursor

  const light = (line) => {
    for (const it of page.querySelectorAll(".lines .at")) it.classList.remove("at");
    for (const it of page.querySelectorAll(`.lines [data-line="${line}"]`)) it.classList.add("at");
  };
  const place = (line) => (600 * (line - 1)) / (Math.max(state.data.count, 2) - 1);
  const show = (line) => {
    state.at = line;
    for (const it of page.querySelectorAll(".timeline .cursor")) {
      it.setAttribute("x1", place(line));
      it.setAttribute("x2", place(line));
    }
    const printed = state.printed.get(line), now = document.getElementById("now");
    if (now) now.textContent = printed ? `${line}: ${printed[1]}` + (printed.length > 2 ? `   (${printed[2]}: ${printed[3]})` : "") : `${line}: left out of this page`;
    for (const it of values) it(line);
    light(line);
    if (hooks.select) hooks.select(line);
  };
  // The next line that was answered, or the one before.
  const step = (by) => {
    const { called } = state;
    if (!called.length) return null;
    let i = called.findIndex((it) => it >= (state.at || 0));
    if (i < 0) i = called.length - 1;
    else if (state.at !== null || by < 0) i += by;
    return called[Math.min(Math.max(i, 0), called.length - 1)];
  };
  const keys = (moves, reach) => (event) => {
    const { called } = state, by = moves[event.key];
    if (by && called.length) reach(step(by));
    else if (event.key === "Home" && called.length) reach(called[0]);
    else if (event.key === "End" && called.length) reach(called[called.length - 1]);
    else if (event.key === "Enter" && state.at) go(state.at);
    else return;
    event.preventDefault();
  };

  // --- timelines

  const chart = (series, n, shown) => {
    const { count } = state.data;
    const high = Math.max(1, d3.max(series.points, (it) => Math.max(it[n], it[n + 1])));
    const y = d3.scaleLinear().domain([0, high]).range([34, 3]);
    const last = series.points[series.points.length - 1];
    // (an account that is closed has no figures; its curve ends at that line)
    const is_open = (it) => it[1] !== null;
    const points = [...series.points, [count, ...last.slice(1)]].flatMap((it, i, all) => (is_open(it) ? [it] : [[it[0], ...all[Math.max(i - 1, 0)].slice(1)], it]));
    const area = d3.area().defined(is_open).curve(d3.curveStepAfter).x((it) => place(it[0])).y0(34).y1((it) => y(it[n]));
    const line = d3.line().defined(is_open).curve(d3.curveStepAfter).x((it) => place(it[0])).y((it) => y(it[n + 1]));
    const it = svg("svg", { viewBox: "0 0 600 40", preserveAspectRatio: "none" }, svg("title", {}, `${series.name}: at most ${shown(high)}`),
      svg("path", { class: "area", d: area(points) }), svg("path", { class: "limit", d: line(points) }));
    if (series.refused.length) it.append(svg("path", { class: "refused", d: series.refused.map((at) => `M${place(at)} 33V40`).join("") }));
    it.append(svg("line", { class: "cursor", x1: -9, x2: -9, y1: 0, y2: 40 }));
    // (what was used after the cursor's line, and its limit)
    const value = el("span", { class: "value" });
    values.push((at) => {
      const now = series.points[d3.bisector((one) => one[0]).right(series.points, at) - 1];
      value.textContent = now && is_open(now) ? `${shown(now[n])} of ${shown(now[n + 1])}` : "";
    });
    return el("div", { class: "chart" }, it, el("span", { class: "high" }, shown(high)), value);
  };
  const axis = () => {
    const { count } = state.data, ends = () => el("div", { class: "ends" }, el("span", {}, "line 1"), el("span", {}, `line ${count}`));
    return el("div", { class: "timeline axis", "aria-hidden": "true" }, el("b", {}), ends(), ends());
  };
  const charts = () => {
    const box = el("div", { tabindex: 0, role: "application", "aria-label": "timelines; arrow keys move the cursor, Enter goes to the line", id: "charts" });
    values = [];
    for (const series of state.data.timelines) {
      const most = (n) => d3.max(series.points, (it) => Math.max(it[n], it[n + 1]));
      const refused = series.refusals ? `, ${series.refusals} refused` : "";
      box.append(el("div", { class: series.session ? "timeline session" : "timeline" },
        el("b", {}, series.name, el("div", { class: "words" }, `to ${amount(most(1))}, ${most(3)} caps${refused}`)), chart(series, 1, amount), chart(series, 3, String)));
    }
    box.append(axis());
    const line = (event) => {
      const it = event.target.closest(".chart");
      if (!it) return null;
      const at = it.getBoundingClientRect();
      return 1 + Math.round(((event.clientX - at.left) / at.width) * (state.data.count - 1));
    };
    box.addEventListener("mousemove", (event) => { const it = line(event); if (it) show(it); });
    box.addEventListener("click", (event) => { const it = line(event); if (it) go(it); });
    box.addEventListener("keydown", keys({ ArrowRight: 1, ArrowLeft: -1 }, show));
    return box;
  };
  Page.add("timelines", "Timelines", (part) => {
    const { data } = state;
    if (!data.timelines.length) return part.append(none("timelines", "No account was called."));
    part.append(note(`RAM on the left, capabilities on the right, over the scenario's ${data.count} lines: the area is what is in use, dashed is the limit, a red tick at the foot is a refusal. The number on the left is the top of the scale, the one on the right is what the cursor's line leaves.`));
    if (data.left.points) part.append(note("Long timelines are thinned: of each stretch the first point, the last, the least and the greatest are kept, and of refusals some."));
    if (data.left.timelines) part.append(note(`Left out: the timelines of ${data.left.timelines} sessions.`));
    return part.append(el("div", { class: "now text", id: "now", role: "status" }, "Arrow keys or the mouse move the cursor; Enter or a click goes to the line."), charts());
  });

  // --- each alone

  const ticks = (it) => {
    const refused = new Set(it.refused), differ = new Set(it.differ.map((one) => one[0]));
    const row = (top, lines) => lines.map((line) => `M${place(line)} ${top + (refused.has(line) ? 6 : 0)}V${top + 10}`).join("");
    const granted = it.lines.filter((line) => !refused.has(line));
    const both = (lines, name) => svg("path", { class: name, d: row(1, lines) + row(14, lines) });
    return svg("svg", { class: "alone", viewBox: "0 0 600 25", preserveAspectRatio: "none", "aria-hidden": "true" },
      svg("line", { class: "between", x1: 0, x2: 600, y1: 12.5, y2: 12.5 }), both(granted, "tick"), both(it.refused, "tick refusal"),
      ...it.lines.filter((line) => differ.has(line)).map((line) => svg("rect", { class: "differs", x: place(line) - 2, y: 0, width: 4, height: 25 })));
  };
  const between = (before, line) => {
    const others = state.called.filter((it) => it > before && it < line);
    const row = el("tr", { class: "fold" });
    const open = () => row.replaceWith(...others.map((it) => {
      const [, text, , reply, logs] = state.printed.get(it);
      return el("tr", { class: "fold" }, el("td", {}, String(it)), el("td", {}, text), el("td", {}, [...logs, reply].join("\n")), el("td", {}, "(not run)"));
    }));
    const said = `⋯ ${others.length === 1 ? "a line" : `${others.length} lines`} of others` + (state.data.left.lines ? " that are shown" : "");
    row.append(el("td", {}), el("td", { colspan: 3 }, others.length ? el("button", { class: "more", type: "button", click: open }, said) : ""));
    return others.length ? [row] : [];
  };
  const table = (it) => {
    const differ = new Map(it.differ), mine = state.called.filter((line) => state.printed.get(line)[2] === it.name);
    const rows = el("table", {}, el("tr", {}, ...["line", "call", "whole", "alone"].map((head) => el("th", {}, head))));
    let before = 0;
    for (const line of mine.slice(0, FEW)) {
      const [, text, , reply, logs] = state.printed.get(line);
      const printed = [...logs, reply].join("\n");
      rows.append(...between(before, line), el("tr", {}, el("td", {}, String(line)), el("td", {}, text), el("td", {}, printed),
        el("td", { class: differ.has(line) ? "bad" : "" }, differ.has(line) ? differ.get(line) : printed)));
      before = line;
    }
    if (mine.length > FEW) rows.append(el("tr", { class: "fold" }, el("td", {}), el("td", { colspan: 3 }, `⋯ the first ${FEW} of ${mine.length} are shown`)));
    return el("div", { class: "wide" }, rows);
  };
  Page.add("alone", "Alone", (part) => {
    const { alone } = state.data;
    if (alone === null) return part.append(note(state.data.boots ? "Each script alone is being run .." : "Nobody was called."));
    if (!alone.scripts.length) return part.append(none("alone", "Nobody was called."));
    part.append(note("The replies to each script in the whole run, above, and in a run of its own lines alone, below: a tall tick is a reply, a short red one a refusal. By proof they are the same."));
    if (alone.thinned) part.append(note("Strips of many lines are thinned: some of the ticks are drawn, evenly."));
    for (const it of alone.scripts) {
      const head = [el("b", { class: it.differ.length ? "bad" : "" }, it.differ.length ? "≠ " : "= "), it.printed, ticks(it)];
      part.append(fold(`alone ${it.name}`, {}, head, () => table(it)));
    }
    return true;
  });

  // --- the scenario

  const complaints = () => {
    const found = new Map();
    for (const [line, column, what] of state.data.complaints) found.set(line, [...(found.get(line) || []), [column, what]]);
    return found;
  };
  const answers = ([line, , , reply, logs], wrong) => {
    const printed = (logs || []).map((it) => ["log", `│ ${it}`, line]);
    if (reply !== undefined) printed.push([refuses(reply) ? "refusal" : "reply", `${refuses(reply) ? "✗" : "→"} ${reply}`, line]);
    for (const [column, what] of wrong || []) printed.push(["wrong", `! ${column}: ${what}`, line]);
    return printed;
  };
  // The rows under lines, for who has the lines already.
  const under = () => {
    const wrong = complaints();
    return state.data.lines.flatMap((it) => answers(it, wrong.get(it[0])));
  };
  const rows = () => {
    const wrong = complaints(), found = [];
    let before = 0;
    for (const it of state.data.lines) {
      if (it[0] > before + 1) found.push(["left", `⋯ ${it[0] - before - 1} lines left out`, null]);
      found.push([/^\s*(#|$)/.test(it[1]) ? "comment" : "call", it[1], it[0]], ...answers(it, wrong.get(it[0])));
      before = it[0];
    }
    for (const [line, printed] of wrong) if (!state.printed.has(line)) found.push(...answers([line], printed));
    return found;
  };
  const drawn = ([kind, text, line]) => {
    const row = el("div", { class: `row ${kind}`, "data-line": line });
    if (kind === "call" || kind === "comment") row.append(el("span", { class: "number" }, String(line)));
    row.append(text);
    if (kind === "call") row.addEventListener("click", () => show(line));
    return row;
  };
  const left = () => {
    const { data } = state;
    const printed = [];
    if (data.left.lines) printed.push(note(`Thinned: ${data.lines.length} of ${data.count} lines are shown, and ${data.left.lines} left out. Kept are the first 300 and the last 300, the first 400 that aren't answered as they expect, of refused lines some, and of all lines some, evenly; of each at most 120 signs.`));
    if (data.left.complaints) printed.push(note(`Left out: ${data.left.complaints} complaints.`));
    return printed;
  };
  Page.add("scenario", "Scenario", (part) => {
    const said = [...state.data.faults.slice(0, 50).map((it) => el("p", { class: "bad" }, it)), ...left()];
    part.append(...said);
    go = (line) => show(line);
    if (hooks.select) return said.length > 0;
    const box = el("div", { class: "lines", id: "lines", tabindex: 0, role: "region", "aria-label": "the scenario with its replies; arrow keys move the cursor" });
    const all = rows();
    for (let i = 0; i < all.length; i += 200) {
      const some = all.slice(i, i + 200);
      box.append(el("div", { class: "some", style: `contain-intrinsic-size: auto ${some.length * 21}px` }, ...some.map(drawn)));
    }
    const reach = (line) => {
      show(line);
      const row = box.querySelector(`[data-line="${nearest(line)}"]`);
      if (row) box.scrollTop += row.getBoundingClientRect().top - box.getBoundingClientRect().top - 120;
    };
    go = (line) => {
      reach(line);
      box.scrollIntoView({ block: "nearest" });
    };
    box.addEventListener("keydown", keys({ ArrowDown: 1, ArrowUp: -1 }, reach));
    return part.append(box);
  });
  // The line itself, or the last before it that is shown.
  const nearest = (line) => {
    let found = line;
    for (const [number] of state.data.lines) {
      if (number > line) break;
      found = number;
    }
    return found;
  };
  Object.assign(Page, { under });
})();
