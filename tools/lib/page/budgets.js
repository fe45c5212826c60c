"use strict";
// Budgets: of each account what it uses, donated, has left and in reserve; and every budget that suffices, with the minimum.
(() => {
  const { state, none, el, svg, note, amount, fold } = Page;
  const WIDE = 300;
  const KINDS = [
    { key: "ram", what: "RAM", shown: amount, from: 0 },
    { key: "caps", what: "capabilities", shown: String, from: 2 },
  ];

  const bar = (parts, peak, most, printed) => {
    const it = svg("svg", { class: "bar", viewBox: `0 0 ${WIDE} 14`, preserveAspectRatio: "none", role: "img" }, svg("title", {}, printed));
    let x = 0;
    for (const [name, value] of parts) {
      const width = (WIDE * value) / most;
      if (value > 0) it.append(svg("rect", { class: name, x, y: 1, width, height: 12 }));
      x += width;
    }
    const at = (WIDE * peak) / most;
    it.append(svg("line", { class: "peak", x1: at, x2: at, y1: 0, y2: 14 }));
    return it;
  };

  // The stretches of a strip, from and below in one kind: of RAM those of the rows, of capabilities what suffices with some RAM and
  // with each that suffices.
  const stretches = (rows, kind) => {
    if (!kind.from || !rows.length) return rows.map(([from, below]) => ["suffices", from, below]);
    const needs = rows.map((it) => it[2]);
    const least = Math.min(...needs), all = Math.max(...needs);
    return [...(least < all ? [["some", least, all]] : []), ["suffices", all, null]];
  };
  const strip = (rows, kind, most) => {
    const it = svg("svg", { class: "strip", viewBox: `0 0 ${WIDE} 8`, preserveAspectRatio: "none", "aria-hidden": "true" },
      svg("rect", { class: "short", width: WIDE, height: 8 }));
    let before = 0;
    for (const [name, from, below] of stretches(rows, kind)) {
      const x = (WIDE * from) / most, end = (WIDE * Math.min(below === null ? most : below, most)) / most;
      it.append(svg("rect", { class: name, x, y: 0, width: Math.max(end - x, 1.5), height: 8 }));
      // (a gap is seen, however narrow)
      if (from > before && x - (WIDE * before) / most < 1.5) it.append(svg("rect", { class: "short", x: x - 1.5, y: 0, width: 1.5, height: 8 }));
      before = below === null ? most : below;
    }
    return it;
  };
  const marks = (least, given, most) => {
    const sign = (value, text, name) => el("span", { class: `sign ${name}`, style: `left:${((100 * value) / most).toFixed(2)}%` }, text);
    const box = el("div", { class: "signs", "aria-hidden": "true" });
    if (given !== null) box.append(sign(given, "△", "start"));
    if (least !== null) box.append(sign(least, "▲", "least"));
    return box;
  };

  // One account in one kind: its bar, where it has an account at the end, its strip, where it is printed, and words.
  const side = (row, kind, i) => {
    const { account, needs } = row;
    const rows = needs ? needs.rows : [];
    const given = needs && needs.given ? needs.given[i] : null;
    const least = rows.length ? (i ? Math.min(...rows.map((it) => it[2])) : rows[0][0]) : null;
    const [used, limit, peak] = account ? account[kind.key] : [0, 0, 0];
    const donated = account && !account.session ? (state.data.given[account.name] || [0, 0])[i] : 0;
    const kept = account && account.reserve ? account.reserve[i] : 0;
    const ends = rows.flatMap((it) => (i ? [it[2]] : [it[0], it[1] || 0]));
    const most = Math.max(used + donated + limit - used + kept, peak, 1.15 * Math.max(0, ...ends, given || 0), 1);
    const box = el("div", {});
    let said = [];
    if (account) {
      const words = [`${kind.shown(used)} used, most ${kind.shown(peak)}`, ...(donated ? [`${kind.shown(donated)} donated`] : []),
        `${kind.shown(limit - used)} slack`, ...(account.reserve ? [`${kind.shown(kept)} in reserve`] : [])].join(", ");
      const parts = [["used", used], ["given", donated], ["free", limit - used], ["kept", kept]];
      box.append(bar(parts, peak, most, `${row.name}, ${kind.what}: ${words}`));
      said = [el("div", { class: "words" }, `${words} (${kind.what})`)];
    }
    if (needs) box.append(strip(rows, kind, most), marks(least, given, most));
    box.append(...said);
    return box;
  };
  const words = (needs) => el("div", { class: "words suffices" }, needs.rows.length ? "✓ suffices: " : "✗ ", needs.printed[0],
    ...needs.printed.slice(1).map((it) => el("div", {}, it)));

  // The rows: each account of the list with what it needs, the sessions that were closed before it, and those that are open after it.
  const rows = () => {
    const needs = state.data.least ? state.data.least.accounts.slice() : [];
    const open = new Map(state.data.accounts.map((it) => [`${it.name}/${it.session || ""}`, it]));
    const last = new Map(needs.map((it) => [`${it.name}/${it.session || ""}`, it]));
    const found = state.data.accounts.map((account) => ({
      account, name: account.session ? `${account.name}/${account.session}` : account.name, needs: last.get(`${account.name}/${account.session || ""}`) || null }));
    for (const it of needs) {
      const key = `${it.name}/${it.session || ""}`;
      if (open.has(key) && last.get(key) === it) continue;
      const own = found.findIndex((row) => row.name === it.name);
      let at = own + 1;
      while (at < found.length && found[at].needs && found[at].needs.name === it.name && found[at].needs.session && found[at].needs.line < it.line) at++;
      found.splice(own < 0 ? found.length : at, 0, { account: null, name: `${it.name}/${it.session}`, needs: it });
    }
    return found.slice(0, 400);
  };
  const drawn = (row) => {
    const session = row.account ? row.account.session : row.needs.session;
    const under = [row.needs && row.needs.line ? `opened in line ${row.needs.line}` : "", row.account ? (session ? `at ${row.account.server}` : "") : "closed at the end"];
    const name = el("b", {}, row.name, ...under.filter((it) => it).map((it) => el("div", { class: "words" }, it)));
    return el("div", { class: session ? "account session" : "account" }, name, ...KINDS.map((kind, i) => side(row, kind, i)),
      ...(row.needs ? [words(row.needs)] : []));
  };

  const legend = () => {
    const sample = (group, name, text) => el("span", {}, svg("svg", { class: group, viewBox: "0 0 26 12" },
      svg("rect", { class: name, width: 26, height: 12 })), text);
    return el("div", { class: "legend" }, sample("bar", "used", "used at the end"), sample("bar", "given", "donated to sessions that are open"),
      sample("bar", "free", "slack"), sample("bar", "kept", "reserve"), el("span", {}, "▏ most ever used"),
      sample("strip", "suffices", "suffices"), sample("strip", "some", "suffices with some RAM only"), sample("strip", "short", "some call is short of quota"),
      el("span", {}, "▲ the minimum"), el("span", {}, "△ given"));
  };
  Page.add("budgets", "Budgets", (part) => {
    const { data } = state;
    if (!data.accounts.length) return part.append(none("budgets", "There are no accounts."));
    const printed = data.least === null || data.least.stale ? `Which budgets suffice is being computed ..${data.least ? " The strips are those of the text before." : ""}` : !data.least.accounts.length ? "Which budgets suffice isn't known."
      : `The strip below a bar is on the bar's scale: plain green if a budget suffices, hatched red if some call is short of quota. More RAM can be insufficient.${data.least.left ? ` The budgets of ${data.least.left} sessions are left out.` : ""}`;
    if (data.least && data.least.stale) part.className = "stale";
    part.append(legend(), note(printed));
    for (const row of rows()) part.append(drawn(row));
    if (data.least && data.least.text && data.least.text.length) {
      part.append(fold("least", {}, ["As nethrywel least prints them, with the lines that are refused"], () => el("pre", { class: "text wide" }, data.least.text.join("\n"))));
    }
    if (data.left.accounts) part.append(note(`Left out: ${data.left.accounts} sessions that are open at the end, the last of the account list.`));
    return true;
  });
})();
