"use strict";
// The desk: a start list, a policy and a scenario in editors. An edit has the server run the program again, and its output is drawn:
// first the replies, and then which budgets suffice, each component alone, and what changed since A.
(() => {
  const { state, el, hooks, note } = Page;
  const token = new URLSearchParams(location.search).get("token");
  const start = JSON.parse(document.getElementById("data").textContent);
  const desk = document.getElementById("desk");
  const said = el("span", { id: "state", role: "status" });
  const button = (id, text, click) => el("button", { id, type: "button", click }, text);
  const menu = el("select", { id: "examples", "aria-label": "examples" }, el("option", { value: "" }, "examples"),
    ...start.examples.map((name) => el("option", { value: name }, name)));
  const since = el("section", { id: "since", "aria-live": "polite" });
  const choice = el("div", { id: "choice", role: "alert" });
  desk.append(el("div", { id: "bar", role: "toolbar", "aria-label": "examples, versions and files" }, menu, button("pin", "pin as A", () => pin()), button("save", "save", () => save()), said), choice);

  // --- the editors

  CodeMirror.defineMode("scenario", () => ({
    token(stream) {
      if (stream.sol() && stream.match(/\s*#.*/)) return "comment";
      if (stream.sol() && stream.match(/\S+/)) return "keyword";
      if (stream.match(/"([^"\\]|\\.)*"/)) return "string";
      if (stream.match(/=>.*/)) return "meta";
      stream.next();
      return null;
    },
  }));
  CodeMirror.defineMode("policy", () => ({
    token(stream) {
      if (stream.match(/"[^"]*"/)) return "string";
      if (stream.match(/#.*/)) return "comment";
      if (stream.sol() && stream.match(/\s*(deny|allow|only)\b/)) return "keyword";
      stream.next();
      return null;
    },
  }));
  const editor = (part, value, mode, name) => {
    const it = CodeMirror(part, { value, mode, lineNumbers: true, lineWrapping: true, extraKeys: { Tab: false, "Shift-Tab": false } });
    it.getInputField().setAttribute("aria-label", name);
    return it;
  };
  const section = (id, title) => {
    const part = el("section", { id }, el("h2", {}, title));
    desk.append(part);
    return part;
  };
  const list = editor(section("of-list", "Start list"), start.list, { name: "javascript", json: true }, "start list");
  const inner = el("div", {});
  const folded = el("details", { id: "of-policy" }, el("summary", {}, "Policy"), inner);
  desk.append(folded);
  const policy = editor(inner, start.policy, "policy", "policy");
  folded.addEventListener("toggle", () => policy.refresh());
  const scenario = editor(section("of-scenario", "Scenario"), start.scenario, "scenario", "scenario");
  const texts = () => ({ list: list.getValue(), policy: policy.getValue(), scenario: scenario.getValue() });

  const ask = async (what, body) => {
    const answer = await fetch(`/${what}`, { method: "POST", headers: { "Content-Type": "application/json", "X-Token": token }, body: JSON.stringify(body) });
    const value = await answer.json();
    if (!answer.ok) throw Object.assign(new Error(value.why), { value });
    return value;
  };
  const report = (text, bad) => {
    said.textContent = text;
    said.className = bad ? "bad" : "";
  };

  // --- what is in the editors: marks, and texts under lines

  const shown = new Map([[list, []], [policy, []], [scenario, []]]);
  const clear = (one) => {
    for (const it of shown.get(one)) it.clear();
    shown.set(one, []);
  };
  const under = (one, line, kind, text) => {
    const at = Math.min(Math.max(line, 1), one.lineCount()) - 1;
    shown.get(one).push(one.addLineWidget(at, el("div", { class: `printed ${kind}` }, text)));
  };
  const lit = (one, from, to, className) => shown.get(one).push(one.markText(from, to, { className }));
  let ruled = [], here = null, edit = null, now = null, pinned = null, round = 0;
  hooks.mark = (ranges) => {
    for (const it of ruled) it.clear();
    ruled = ranges.map(([begin, end]) => list.markText(list.posFromIndex(begin), list.posFromIndex(end), { className: "ruled" }));
    if (ranges.length) list.scrollIntoView(list.posFromIndex(ranges[0][0]), 40);
  };
  hooks.select = (line) => {
    if (here) scenario.removeLineClass(here, "background", "here");
    here = scenario.addLineClass(Math.min(line, scenario.lineCount()) - 1, "background", "here");
    scenario.scrollIntoView({ line: Math.min(line, scenario.lineCount()) - 1, ch: 0 }, 60);
  };
  hooks.route = async (from, service, label) => {
    try {
      return await ask("rest", { edit, what: "route", from, service, label });
    } catch (fault) {
      report(fault.message, true);
      return null;
    }
  };
  // The place in a line of a byte, counted from 1 on.
  const column = (text, byte) => {
    let at = 1, i = 0;
    for (const sign of text) {
      if (at >= byte) break;
      at += new TextEncoder().encode(sign).length;
      i += sign.length;
    }
    return i;
  };
  const write_list = () => list.operation(() => {
    clear(list);
    for (const it of now.findings) {
      const kind = now.boots ? "finding" : "wrong";
      if (!it.range) { under(list, 1, kind, it.printed); continue; }
      const from = list.posFromIndex(it.range[0]), to = list.posFromIndex(it.range[1]);
      lit(list, from, to, now.boots ? "found" : "faulty");
      under(list, to.line + 1, kind, `${now.boots ? "⚠" : "✗"} ${it.printed}`);
      if (!now.boots) list.scrollIntoView(from, 60);
    }
  });
  const write_policy = () => policy.operation(() => {
    clear(policy);
    if (now.policy && now.policy.fault) under(policy, 1, "wrong", `✗ ${now.policy.fault}`);
    for (const [i, it] of (now.policy ? now.policy.lines : []).entries()) {
      if (it.printed) under(policy, i + 1, "wrong", `✗ ${it.printed}`);
      if (it.remark) under(policy, i + 1, it.void ? "finding" : "note", it.void ? `⚠ ${it.remark}` : it.remark);
    }
  });
  // What is printed under lines of the scenario, by the lines themselves: where it is as before, it stays.
  let standing = new Map();
  const write_under = (rows) => {
    const wanted = new Map(), before = standing;
    for (const [kind, text, line] of rows) {
      const at = scenario.getLineHandle(Math.min(Math.max(line, 1), scenario.lineCount()) - 1);
      wanted.set(at, [...(wanted.get(at) || []), [kind, text]]);
    }
    standing = new Map();
    for (const [at, printed] of wanted) {
      const key = JSON.stringify(printed), old = before.get(at);
      if (old && old.key === key) {
        standing.set(at, old);
        before.delete(at);
      }
    }
    for (const { widgets } of before.values()) for (const it of widgets) it.clear();
    for (const [at, printed] of wanted) {
      if (standing.has(at)) continue;
      const widgets = printed.map(([kind, text]) => scenario.addLineWidget(at, el("div", { class: `printed ${kind}` }, text)));
      standing.set(at, { key: JSON.stringify(printed), widgets });
    }
  };
  const write_scenario = () => scenario.operation(() => {
    clear(scenario);
    write_under(Page.under().slice(0, 1500));
    for (const [line, byte] of now.complaints.slice(0, 500)) {
      const text = scenario.getLine(line - 1);
      if (text === undefined) continue;
      const from = column(text, byte), word = text.slice(from).match(/^\s*\S*/)[0];
      lit(scenario, { line: line - 1, ch: from }, { line: line - 1, ch: from + Math.max(word.length, 1) }, "faulty");
    }
  });

  // --- what changed since A

  const lines_of = (text) => text.replace(/\n$/, "").split("\n");
  const item = (text) => el("li", { class: { "+": "came", "-": "went" }[text[0]] || "" }, text);
  // What the scenario has otherwise than A's, and of the lines that both have at their beginning or end which are answered otherwise.
  const edits = () => {
    const a = lines_of(pinned.texts.scenario), b = lines_of(pinned.now.scenario);
    let front = 0, back = 0;
    while (front < a.length && front < b.length && a[front] === b[front]) front++;
    while (back < a.length - front && back < b.length - front && a[a.length - 1 - back] === b[b.length - 1 - back]) back++;
    const went = a.slice(front, a.length - back).map((it, i) => `- ${front + i + 1}: ${it}`);
    const came = b.slice(front, b.length - back).map((it, i) => `+ ${front + i + 1}: ${it}`);
    const reply = (printed, line) => { const it = printed.get(line); return it && it.length > 2 ? [...it[4], it[3]].join(" / ") : "(nothing)"; };
    const otherwise = [];
    for (let i = 0; i < b.length; i++) {
      if (i >= front && i < b.length - back) continue;
      const then = reply(pinned.printed, i < front ? i + 1 : i + 1 - b.length + a.length), today = reply(state.printed, i + 1);
      if (then !== today) otherwise.push(`~ ${i + 1}: ${b[i]} => ${today} (was: ${then})`);
    }
    return [...went, ...came, ...otherwise];
  };
  const listed = (title, items) => [el("h3", {}, title), items.length ? el("ul", {}, ...items.slice(0, 200).map(item)) : note("nothing"),
    ...(items.length > 200 ? [note(`the first 200 of ${items.length} are shown`)] : [])];
  const compare = async () => {
    if (!pinned) return;
    pinned.now = texts();
    const { list: before } = pinned.texts, parts = [];
    if (!now.boots) parts.push(note("The machine doesn't boot, so nothing is compared."));
    else if (!before.trim()) parts.push(note("A is the built-in machine, which has no text: write a start list and pin it."));
    else {
      const changes = await ask("rest", { edit, what: "diff", before });
      parts.push(...(changes.why ? [note(changes.why)] : listed("By the start list, on this scenario (nethrywel diff)", changes.printed)));
    }
    if (now.boots && pinned.texts.scenario !== pinned.now.scenario) parts.push(...listed("By the scenario, and with it", edits()));
    since.replaceChildren(el("h2", {}, "Since A"), ...parts);
  };
  const pin = async () => {
    if (!now || !now.boots) return report("only what boots is pinned", true);
    pinned = { texts: sent, printed: new Map(state.printed) };
    try {
      await compare();
    } catch (fault) {
      if (fault.message !== "a later edit") report(fault.message, true);
    }
    return undefined;
  };

  // --- an edit and its answers

  let sent = texts();
  const answer = (printed, took) => {
    const old = now;
    now = printed;
    edit = printed.edit;
    if (old && old.least && printed.boots) printed.least = { ...old.least, stale: true };
    if (old && old.alone && printed.boots) printed.alone = old.alone;
    hooks.mark([]);
    here = null;
    // (the editors before the page, whose new parts would be laid out for each of them)
    Page.take(printed);
    write_list();
    write_policy();
    write_scenario();
    Page.draw(printed);
    Page.page.prepend(since);
    report(`answered in ${took} ms`);
    document.body.dataset.round = String(++round);
  };
  const whole = () => { document.body.dataset.whole = String(round); };
  // What is shown after the replies: each part in turn, as long as no later edit came.
  const rest = async (began) => {
    const mine = edit;
    await compare();
    if (!now.boots) return whole();
    for (const [what, part, command] of [["alone", "alone", "run --only"], ["least", "budgets", "least"]]) {
      const printed = await ask("rest", { edit: mine, what }).catch((fault) => {
        if (fault.message === "a later edit") throw fault;
        return { accounts: [], scripts: [], missing: [`nethrywel ${command}: ${fault.message}`] };
      });
      if (mine !== edit) return undefined;
      now[what] = printed;
      now.missing[part] = printed.missing;
      Page.redraw(part);
      Page.redraw("verdict");
    }
    const took = Math.round(performance.now() - began);
    report(`${said.textContent}, with all budgets in ${took} ms`);
    return whole();
  };
  const run = async () => {
    const began = performance.now();
    report("runs ..");
    try {
      sent = texts();
      answer(await ask("run", sent), Math.round(performance.now() - began));
      await rest(began);
    } catch (fault) {
      if (fault.message === "a later edit") return;
      report(fault.message, true);
      document.body.dataset.round = String(++round);
      whole();
    }
  };

  // --- files: each is saved over what was read of it, or by the user's own choice

  const edited_files = Object.entries({ list, policy, scenario }).filter(([name]) => name in start.files).map((it) => it[1]);
  let sums = start.sums, saved = edited_files.map((it) => it.changeGeneration(true));
  const is_saved = () => edited_files.every((it, i) => it.isClean(saved[i]));
  const tell_saved = () => { document.getElementById("save").textContent = is_saved() ? "save" : "save •"; };
  const keep = (now, generations) => {
    sums = now;
    saved = generations;
    choice.replaceChildren();
    tell_saved();
  };
  const choose = (why, now) => choice.replaceChildren(el("p", { class: "bad" }, why),
    button("reload", "reload, without these edits", () => reload()), button("over", "save over it", () => save(now)));
  const save = async (over) => {
    const generations = edited_files.map((it) => it.changeGeneration(true));
    try {
      const saved = await ask("save", { ...texts(), sums: over || sums });
      keep(saved.sums, generations);
      report(saved.printed);
    } catch (fault) {
      report(fault.message, true);
      if (fault.value && fault.value.sums) choose(fault.message, fault.value.sums);
    }
  };
  const reload = async () => {
    try {
      const read = await ask("read", {});
      fill({ ...texts(), ...read.texts });
      keep(read.sums, edited_files.map((it) => it.changeGeneration(true)));
    } catch (fault) {
      report(fault.message, true);
    }
  };
  window.addEventListener("beforeunload", (event) => { if (!is_saved()) event.preventDefault(); });
  let waits = null;
  const edited = () => {
    tell_saved();
    clearTimeout(waits);
    waits = setTimeout(run, 20);
  };
  for (const it of [list, policy, scenario]) it.on("change", edited);
  const fill = (given) => {
    list.setValue(given.list);
    policy.setValue(given.policy);
    scenario.setValue(given.scenario);
    folded.open = given.policy !== "";
  };
  menu.addEventListener("change", async () => {
    if (!menu.value) return;
    try {
      fill(await ask("example", { name: menu.value }));
    } catch (fault) {
      report(fault.message, true);
    }
  });
  folded.open = start.policy !== "";
  const paths = Object.values(start.files);
  document.getElementById("save").disabled = !paths.length;
  document.getElementById("save").title = paths.length ? `to ${paths.join(" and ")}` : "no file was given";
  // (for trials)
  window.desk = { list, policy, scenario };
  run();
})();
