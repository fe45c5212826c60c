"use strict";
// Draws what the program prints of a start list and a scenario. All text of files is put in as text, never as elements of the page.
// This file has what all parts of the page use; each part adds itself to Page.parts.
const Page = (() => {
  const SVG = "http://www.w3.org/2000/svg";
  const page = document.getElementById("page");
  // What is drawn, at which line the cursor is, and which folds are open.
  const state = { data: null, at: null, printed: new Map(), called: [], open: new Set() };
  // What a desk does in the place of this page's own listing and lines.
  const hooks = { mark: null, select: null, route: null };
  const parts = [];

  // el NAME ATTRIBUTES CHILD..: an element; texts stay texts.
  const fill = (it, attributes, children) => {
    for (const [name, value] of Object.entries(attributes || {})) {
      if (name === "click") it.addEventListener("click", value);
      else if (value !== null && value !== undefined) it.setAttribute(name, value);
    }
    it.append(...children);
    return it;
  };
  const el = (name, attributes, ...children) => fill(document.createElement(name), attributes, children);
  const svg = (name, attributes, ...children) => fill(document.createElementNS(SVG, name), attributes, children);
  const note = (text) => el("p", { class: "note" }, text);
  const amount = (bytes) => (bytes && bytes % 1024 === 0 ? `${bytes / 1024}K` : `${bytes}`);
  const refuses = (reply) => /^(ERR |[A-Z][a-z])/.test(reply);
  const fold = (name, attributes, summary, make) => {
    const box = el("details", attributes, el("summary", {}, ...summary));
    const opened = () => {
      if (box.open) state.open.add(name); else state.open.delete(name);
      if (box.open && box.children.length === 1) box.append(make());
    };
    box.addEventListener("toggle", opened);
    if (state.open.has(name)) { box.open = true; opened(); }
    return box;
  };

  // Patterns, so that a bar can be read without colours.
  const patterns = () => {
    const hatch = (id, d) => svg("pattern", { id, width: 6, height: 6, patternUnits: "userSpaceOnUse" }, svg("rect", { width: 6, height: 6 }), svg("path", { d }));
    return svg("svg", { class: "patterns", width: 0, height: 0, "aria-hidden": "true" }, svg("defs", {},
      hatch("given", "M0 6L6 0"), hatch("kept", "M0 3H6"), hatch("short", "M0 0L6 6M0 6L6 0"), hatch("some", "M1 3H3")));
  };

  // take DATA: what is printed becomes what is drawn.
  const take = (data) => {
    state.data = data;
    state.at = null;
    state.printed = new Map(data.lines.map((it) => [it[0], it]));
    state.called = data.lines.filter((it) => it.length > 2).map((it) => it[0]);
  };
  const draw = (data) => {
    take(data);
    page.replaceChildren(patterns(), ...parts.flatMap((it) => it()));
  };
  // redraw ID: a part whose data came later is drawn again.
  const redraw = (id) => {
    const old = document.getElementById(id);
    for (const it of parts) if (it.id === id) old.replaceWith(...it());
  };
  // Why a part isn't whole: the commands that came to no end.
  const missing = (id) => state.data.missing[id] || [];
  // A note that a part is empty, unless that isn't known.
  const none = (id, text) => (missing(id).length ? "" : note(text));
  // add ID TITLE MAKE: a part of the page, which MAKE fills; it is left out where MAKE returns false and nothing is missing.
  const add = (id, title, make) => parts.push(Object.assign(() => {
    const why = missing(id).map((it) => el("p", { class: "bad" }, `✗ left out: ${it}`));
    const part = el("section", { id }, el("h2", {}, title), ...why);
    return make(part) === false && !why.length ? [] : [part];
  }, { id, title }));

  document.addEventListener("DOMContentLoaded", () => {
    if (document.body.className === "report") draw(JSON.parse(document.getElementById("data").textContent));
  });
  return { state, hooks, page, parts, add, missing, none, take, draw, redraw, el, svg, note, amount, refuses, fold };
})();
