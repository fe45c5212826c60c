"use strict";
// Who reaches whom, the start list with the rules that decide marked, its findings, and the policy.
(() => {
  const { state, hooks, el, note, fold } = Page;

  // --- the start list

  let ranges = [];
  const listing = () => {
    const box = el("div", { class: "listing text", id: "list", tabindex: 0, role: "region", "aria-label": "the start list" });
    let from = 0;
    state.data.list.replace(/\n$/, "").split("\n").forEach((line, i) => {
      const row = el("span", { class: "row", "data-line": i + 1 });
      let done = 0;
      for (const [begin, end] of ranges) {
        const first = Math.max(begin - from, done), last = Math.min(end - from, line.length);
        if (first < last) {
          row.append(line.slice(done, first), el("mark", {}, line.slice(first, last)));
          done = last;
        }
      }
      row.append(line.slice(done) || (done ? "" : " "));
      box.append(row);
      from += line.length + 1;
    });
    return box;
  };
  const mark = (found) => {
    ranges = found.slice().sort((a, b) => a[0] - b[0]);
    if (hooks.mark) return hooks.mark(ranges);
    const box = listing();
    document.getElementById("list").replaceWith(box);
    const first = box.querySelector("mark");
    if (first) box.scrollTop = first.offsetTop - box.offsetTop - 60;
  };
  const show = (found) => el("button", { class: "act show", type: "button", click: () => mark(found) }, "show");

  // --- the matrix

  const press = (button, printed, route) => {
    for (const it of Page.page.querySelectorAll(".cell[aria-pressed='true']")) it.setAttribute("aria-pressed", "false");
    button.setAttribute("aria-pressed", "true");
    document.getElementById("decided").replaceChildren(el("p", {}, printed),
      el("ol", { class: "text" }, ...route.printed.map((it) => el("li", {}, it))));
    mark(route.rules);
  };
  const cell = (text, printed, route) => {
    const button = el("button", { class: "cell", type: "button", "aria-pressed": "false" }, text);
    button.addEventListener("click", async () => {
      const found = await route();
      if (found) press(button, printed, found);
    });
    return button;
  };
  const SHOWN = { always: () => "● always", none: () => "– never", some: (label) => `◐ "${label}"` };
  const LABELS = {
    always: () => "with every label. The route of a request without a label:",
    none: () => "with no label. The route of a request without a label:",
    some: (label) => `with the label "${label}", and not with every label. The route of this request:`,
  };
  const route = async (it) => {
    const label = it.reach === "some" ? it.label : "";
    return hooks.route ? hooks.route(it.from, it.service, label) : state.data.routes[`${it.from}\n${it.service}\n${label}`];
  };
  const matrix = () => {
    const { reach } = state.data;
    const to = [...new Set(reach.map((it) => `${it.to} ${it.service}`))];
    const from = [...new Set(reach.map((it) => it.from))];
    const found = new Map(reach.map((it) => [`${it.from} ${it.to} ${it.service}`, it]));
    const row = (name) => el("tr", {}, el("th", { class: "name", scope: "row" }, name), ...to.map((head) => {
      const it = found.get(`${name} ${head}`);
      const verb = it.reach === "none" ? "never reaches" : "reaches";
      const printed = `${it.from} ${verb} ${it.to} (${it.service}) ${LABELS[it.reach](it.label)}`;
      return el("td", { class: it.reach }, cell(SHOWN[it.reach](it.label), printed, () => route(it)));
    }));
    return el("div", { class: "wide" }, el("table", { id: "matrix" },
      el("tr", {}, el("th", {}, "from \\ to"), ...to.map((it) => el("th", { scope: "col" }, it))), ...from.map(row)));
  };
  const ways = () => el("div", { class: "wide" }, el("table", {}, ...state.data.ways.map((it) =>
    el("tr", {}, el("th", { class: "name", scope: "row" }, it.name), el("td", {}, ...it.ways.map((way) => el("div", {},
      cell(`${way.service} → ${way.to} by ${way.by}`, `${it.name}: ${way.service} leads to ${way.to}`, async () => ({ printed: [`by ${way.by}`], rules: way.rules })))))))));

  // --- findings and the policy

  const findings = () => state.data.findings.map((it) => {
    const printed = el("p", { class: state.data.boots ? "finding" : "bad" }, !state.data.boots ? "✗ fault: " : it.advice ? "advice: " : "⚠ finding: ", it.printed, " ");
    if (it.range) printed.append(show([it.range]));
    return printed;
  });
  const demand = (it) => {
    const sign = it.printed ? "✗ " : it.void ? "⚠ " : it.kept ? "✓ " : "  ";
    const row = el("div", { class: it.printed ? "demand broken" : it.kept ? "demand kept" : "demand" }, el("span", {}, sign), it.text || " ");
    if (it.printed) row.append(el("div", { class: "bad" }, `${it.printed} `, ...(it.rules.length ? [show(it.rules)] : [])));
    if (it.remark) row.append(el("div", { class: it.void ? "finding" : "note" }, it.remark));
    return row;
  };
  const policy = () => {
    const { policy } = state.data;
    if (!policy) return [];
    const broken = policy.lines.filter((it) => it.printed).length;
    const verdict = policy.fault ? policy.fault : !policy.read ? "the policy has a fault" : broken ? (broken === 1 ? "a line of the policy is broken" : `${broken} lines of the policy are broken`) : "the policy is kept";
    return [el("h3", {}, "Policy"), el("p", { class: broken || !policy.read ? "bad" : "good", id: "policy-kept" }, broken || !policy.read ? `✗ ${verdict}` : `✓ ${verdict}`),
      el("div", { class: "text policy" }, ...policy.lines.map(demand))];
  };

  Page.add("reach", "Who reaches whom", (part) => {
    const { data } = state;
    ranges = [];
    if (data.list === null) return part.append(note("The built-in machine: a log server log, a file server files, and the scripts alice and bob, which reach both with every label."));
    const left = el("div", {}, ...findings());
    if (data.reach) {
      left.append(matrix(), el("div", { id: "decided", role: "status" }, note("A click on a cell marks the rules that decide.")));
      if (data.ways.length) left.append(fold("ways", {}, ["All routes of session requests, by the rules in turn"], ways));
    }
    left.append(...policy());
    return part.append(hooks.mark ? left : el("div", { class: "sides" }, left, listing()));
  });
})();
