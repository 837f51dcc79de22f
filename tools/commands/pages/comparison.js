"use strict";

const MARKS = { wider: "▲", narrower: "▼", other: "◆" };
const WAYS = { wider: "wider: the new policy grants more", narrower: "narrower: the new policy grants less", other: "other: neither grants more" };

/** The calls that two policies decide otherwise, as a table. */
class Comparison {
  constructor(root, { changes, counted, whole, classes, counts }) {
    const left = classes + counts - changes.length - counted.length;
    this.section = make("section", { class: "comparison", tabindex: "-1", "aria-label": "Comparison of two policies" },
      make("p", {}, `${countedKinds(classes)} decided differently${whole ? "" : ", as far as calls were looked at"}. The other policy is the old one, and the one above the new one.`),
      changes.length ? this.table(changes) : null,
      counted.length ? make("p", {}, "Of these calls one policy counts two together, by one rule with times, and the other counts them apart:") : null,
      counted.length ? this.counts(counted) : null,
      left > 0 ? make("p", {}, `${left.toLocaleString("en")} more aren't printed.`) : null);
    root.replaceChildren(this.section);
  }

  table(changes) {
    return this.rows(["", "call", "old", "new"], changes.map(({ way, call, old, new: now }) => [
      make("td", { class: "first" }, make("span", { class: `way ${way}`, title: WAYS[way] }, `${MARKS[way]} ${way}`)), make("td", { class: "call" }, make("code", {}, call)), this.side(old), this.side(now)]));
  }

  counts(counted) {
    return this.rows(["one call", "another one", "old", "new"], counted.map(({ calls, old, new: now }) => [
      ...calls.map((call) => make("td", { class: "call" }, make("code", {}, call))), make("td", {}, old), make("td", {}, now)]));
  }

  side({ rule, answer }) {
    return make("td", {}, make("strong", {}, answer), make("br", {}), make("code", { class: "rule" }, rule));
  }

  rows(heads, rows) {
    // (on a narrow page each cell stands on a line of its own, behind its head)
    for (const cells of rows) cells.forEach((cell, at) => heads[at] && cell.setAttribute("data-head", heads[at]));
    return make("div", { class: "wide" }, make("table", {}, make("thead", {}, make("tr", {}, ...heads.map((head) => make("th", { scope: "col" }, head)))), make("tbody", {}, ...rows.map((cells) => make("tr", {}, ...cells)))));
  }

  focus() {
    this.section.focus({ preventScroll: true });
  }

  leave() {}
}

function countedKinds(count) {
  return `${count.toLocaleString("en")} ${count === 1 ? "kind of calls is" : "kinds of calls are"}`;
}
