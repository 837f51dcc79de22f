"use strict";

/** Why a call is decided as it is: the rules in their order, up to the first that fits, with what the call misses first of each before. `reported` is the rule that the report names. */
function explanation({ call, explained: { rule, words, reason, before } }, reported) {
  const others = before.filter(([, , isOther]) => isOther);
  const near = before.filter(([, , isOther]) => !isOther);
  const line = ([name, misses]) => make("li", {}, make("code", {}, name), make("span", {}, ` misses ${misses}`));
  return make("section", { class: "why", tabindex: "-1", "aria-label": "Why this rule decides" },
    make("h3", {}, "Why this rule"),
    make("p", {}, make("code", { class: "asked" }, call)),
    rule === reported ? null : make("p", { class: "tag odd" }, `The report has rule ${reported}: it is of another policy than the one above.`),
    near.length ? make("p", {}, "These rules were tried first, and don't fit:") : null,
    near.length ? make("ol", { class: "rules" }, ...near.map(line)) : null,
    make("p", { class: "decides" }, make("code", {}, rule), ` ${near.length ? "is the next one, and " : ""}decides: `, make("strong", {}, words), reason ? ` (${reason})` : null, "."),
    others.length ? make("details", {}, make("summary", {}, `${counted(others.length, "rule")} before it ${others.length === 1 ? "is" : "are"} for other calls`), make("ol", { class: "rules" }, ...others.map(line))) : null);
}
