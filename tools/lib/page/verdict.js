"use strict";
// The verdict first: whether the machine boots, lines are answered as expected, the policy is kept and budgets suffice; then the contents.
(() => {
  const { state, hooks, parts, missing, el } = Page;
  const SIGNS = { good: "✓", bad: "✗", finding: "⚠", note: "…" };
  // (a desk has the scenario in an editor)
  const at = (id) => (id === "scenario" && hooks.select ? "#of-scenario" : `#${id}`);
  const line = (kind, text, part) => el("li", { class: kind }, `${SIGNS[kind]} `, el("a", { href: at(part) }, text));
  const many = (count, one, more) => (count === 1 ? one : `${count} ${more}`);

  const of_lines = ({ wrong, status }) => [!wrong && status ? line("bad", "the scenario isn't run", "scenario") : wrong
    ? line("bad", many(wrong, "a line isn't answered as it expects, or is no call", "lines aren't answered as they expect, or are no calls"), "scenario")
    : line("good", "each line is a call, and answered as it expects", "scenario")];
  const of_policy = ({ policy }) => {
    if (!policy) return [];
    const broken = policy.lines.filter((it) => it.printed).length;
    if (policy.fault || !policy.read) return [line("bad", policy.fault || "the policy has a fault", "reach")];
    const empty = policy.lines.filter((it) => it.void).length;
    const said = empty ? [line("finding", many(empty, "a line of the policy speaks of nothing", "lines of the policy speak of nothing"), "reach")] : [];
    return [...said, broken ? line("bad", many(broken, "a line of the policy is broken", "lines of the policy are broken"), "reach") : line("good", "the policy is kept", "reach")];
  };
  const of_findings = ({ findings }) => {
    const found = findings.filter((it) => !it.advice).length;
    return found ? [line("finding", many(found, "a finding in the start list", "findings in the start list"), "reach")] : [];
  };
  const of_alone = ({ alone }) => {
    if (alone === null || !alone.scripts.length) return [];
    const differ = alone.scripts.filter((it) => it.differ.length).map((it) => it.name);
    return [differ.length ? line("bad", `replies depend on others: ${differ.join(", ")}`, "alone")
      : line("good", `${many(alone.scripts.length, "the script has", "scripts have")} the same replies alone as in the whole run`, "alone")];
  };

  const of_budgets = ({ least }) => {
    if (least === null || least.stale) return [line("note", "which budgets suffice is being computed", "budgets")];
    if (!least.accounts.length) return [line("note", "which budgets suffice isn't known", "budgets")];
    const short = least.accounts.filter((it) => it.short);
    if (!short.length) return [line("good", "each budget and each donation suffices", "budgets")];
    const name = (it) => (it.session ? `${it.name}/${it.session} (line ${it.line})` : it.name);
    const why = (it) => it.printed.find((one) => one.startsWith("given ")) || it.printed[0];
    return short.slice(0, 12).map((it) => line("bad", `${name(it)}: ${why(it)}`, "budgets"))
      .concat(short.length > 12 ? [line("bad", `${short.length - 12} more budgets fall short`, "budgets")] : []);
  };

  Page.add("verdict", "Verdict", (part) => {
    const { data } = state;
    // (nothing is stated of a part that isn't whole, except what it lacks)
    const said = new Set();
    const lacks = (id) => missing(id).filter((it) => !said.has(it) && said.add(it)).map((it) => line("bad", `left out: ${it}`, id));
    const whole = (id, of) => (missing(id).length ? lacks(id) : of(data));
    const printed = data.boots ? [...whole("scenario", of_lines), ...of_policy(data), ...whole("reach", of_findings), ...whole("alone", of_alone), ...whole("budgets", of_budgets)]
      : [line("bad", "the machine doesn't boot, so no line was answered", "reach")];
    part.append(el("ul", { class: "verdict" }, ...printed),
      el("nav", { "aria-label": "contents" }, ...parts.filter((it) => it.id !== "verdict").map((it) => el("a", { href: at(it.id) }, it.title))));
  });
})();
