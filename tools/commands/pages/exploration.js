"use strict";

// so many outcomes are shown at first, and more each time that more are asked for; and so many turns of a schedule
const OUTCOMES_AT_ONCE = 40;
const MOST_TURNS = 250;
// of a drawn schedule
const TURN = { column: 74, row: 24, head: 26, bar: 44, height: 18 };

/** What an exploration came to: each outcome with its calls and a picture of its schedule. `play` is called with an outcome's schedule, where it can be played. */
class Exploration {
  constructor(root, view, { play = null, words = "" } = {}) {
    Object.assign(this, { view, play, address: false });
    this.list = make("div", { class: "outcomes" });
    this.root = make("section", { class: "view exploration", tabindex: "0", "aria-label": "Outcomes of an exploration" }, this.summary(words), this.list);
    root.replaceChildren(this.root);
    this.more = make("button", { type: "button", class: "more-outcomes", onclick: () => this.showMore() });
    this.shown = 0;
    this.showMore();
  }

  summary(words) {
    const { histories, outcomes, longest, workers } = this.view;
    const known = [`${counted(outcomes.length, "outcome")} of ${counted(histories, "order")} of steps`, workers === null ? "" : counted(workers + 1, "worker"), `at most ${counted(longest, "event")} each`];
    return make("header", { class: "explored" }, make("p", {}, make("b", {}, known.filter(Boolean).join(", ")), "."), make("p", { class: `whole ${this.view.whole}` }, make("code", {}, `whole=${this.view.whole}`), ` ${wholeText(this.view)}`), words ? make("p", {}, words) : null);
  }

  showMore() {
    const { outcomes } = this.view;
    const next = outcomes.slice(this.shown, this.shown + OUTCOMES_AT_ONCE);
    this.more.remove();
    this.list.append(...next.map((outcome) => this.outcome(outcome)));
    this.shown += next.length;
    if (this.shown < outcomes.length) {
      this.more.textContent = `Show more: ${outcomes.length - this.shown} are left`;
      this.list.append(this.more);
    }
  }

  outcome(outcome) {
    const share = make("span", { class: "share", "aria-hidden": "true" }, make("i", {}));
    share.firstChild.style.width = `${Math.max(1, percent(outcome.histories, this.view.histories))}%`;
    const schedule = outcome.schedule;
    return make("article", { class: "outcome", id: `outcome-${outcome.number}` },
      make("header", {}, make("h2", {}, `Outcome ${outcome.number}`), make("span", { class: "orders" }, `${grouped(outcome.histories)} of ${counted(this.view.histories, "order")}`), share,
        schedule && this.play ? make("button", { type: "button", class: "small", onclick: () => this.play(schedule, outcome.number) }, "Play this order") : null),
      make("div", { class: "parts" }, make("div", { class: "came" }, ...callsOf(outcome)), schedule ? scheduleFigure(schedule) : make("p", { class: "none" }, "The schedule is too long for a script.")));
  }

  focus() {
    this.root.focus({ preventScroll: true, focusVisible: false });
  }

  leave() {}
}

/** A count with its digits in groups. How many orders there are is a text, since it may have any number of digits. */
function grouped(count) {
  return BigInt(count).toLocaleString("en");
}

function counted(count, what) {
  return `${grouped(count)} ${what}${BigInt(count) === 1n ? "" : "s"}`;
}

function percent(count, all) {
  return Number((10_000n * BigInt(count)) / BigInt(all)) / 100;
}

function wholeText({ whole, delays }) {
  const within = delays === null ? "the bound" : delays === "1" ? "1 delay" : `${delays} delays`;
  return { yes: "These are all orders. What isn't here never happens, but for what an exploration doesn't cover.", bound: `These are all orders within ${within}. With more of them something else may happen.`,
    no: "Orders were left. What is here does happen; nothing is said of the others." }[whole];
}

// ---- the calls of an outcome

function callsOf(outcome) {
  if (outcome.calls.length === 0) return [make("p", { class: "none" }, "No call was made.")];
  const heads = ["task", "call", "came to", "decided by", "answer"];
  return [make("table", {}, make("thead", {}, make("tr", {}, ...heads.map((head) => make("th", { scope: "col" }, head)))), make("tbody", {}, ...outcome.calls.flatMap(callRows)))];
}

function callRows(call) {
  const decided = call.rule === "-" ? call.verdict : `${call.verdict}: ${call.rule}`;
  const row = make("tr", { class: "call-row" }, make("td", {}, make("span", { class: "actor task" }, call.task)), make("td", { class: "called" }, `${call.number}. ${call.name}`), make("td", { class: call.bad && "bad" }, cameTo(call)),
    make("td", { class: `verdict ${call.verdict}` }, call.verdict === "-" ? (call.filters === "notify" ? "never received" : filteredBy(call.filters)) : decided), make("td", { class: `reply ${call.reply}` }, { sent: "sent", lost: "lost", none: "none" }[call.reply] ?? ""));
  return [row, ...call.did.map((did) => make("tr", { class: "did-row" }, make("td", {}), make("td", { colspan: "4", class: did.bad && "bad" }, `a worker ${did.words}`, did.afterwards ? make("span", { class: "tag odd" }, did.afterwards) : null)))];
}

function cameTo({ outcome }) {
  return { restarted: "made again, after a signal", ended: "its task was killed", open: "never returned", pid: "returned its PID" }[outcome] || (/^E/.test(outcome) ? `failed with ${outcome}` : `returned ${outcome}`);
}

function filteredBy(filters) {
  return { allow: "filters: allowed", log: "filters: allowed, logged", nosys: "filters: ENOSYS", kill: "filters: killed" }[filters] ?? `filters: ${filters}`;
}

// ---- the picture of a schedule

/** The lines with which a script plays a schedule. */
function scheduleLines(schedule) {
  return ["schedule", ...schedule.map(([actor, steps]) => `${actor[0]} ${actor.slice(1)} ${steps}`), "end"];
}

/** The names of the actors of a schedule: tasks number by number, and then workers. */
function actorsOf(schedule) {
  const key = (name) => [name[0] === "t" ? 0 : 1, ...name.slice(1).split(".").map(Number)];
  const before = (one, two) => {
    const at = one.findIndex((number, place) => number !== two[place]);
    return at < 0 ? one.length - two.length : two[at] === undefined ? 1 : one[at] - two[at];
  };
  return [...new Set(schedule.map(([actor]) => actor))].sort((one, two) => before(key(one), key(two)));
}

function actorName(actor) {
  return actor[0] === "t" ? `task ${actor.slice(1)}` : `worker ${actor.slice(1)}`;
}

/** Columns of actors, in which time runs downwards: a bar for each turn, with the number of its steps. */
function scheduleFigure(schedule) {
  const actors = actorsOf(schedule);
  const drawn = schedule.slice(0, MOST_TURNS);
  const x = (actor) => (actors.indexOf(actor) + 0.5) * TURN.column;
  const y = (at) => TURN.head + (at + 0.5) * TURN.row;
  const [width, height] = [actors.length * TURN.column, TURN.head + drawn.length * TURN.row + 4];
  const kind = (actor) => (actor[0] === "t" ? "task" : "worker");
  const told = schedule.slice(0, 12).map(([actor, steps]) => `${actorName(actor)} takes ${counted(steps, "step")}`).join(", then ");
  const svg = make("svg", { width, height, viewBox: `0 0 ${width} ${height}`, role: "img", "aria-label": `The schedule: ${told}${schedule.length > 12 ? ", and so on" : ""}` },
    ...actors.map((actor) => make("line", { class: `lane ${kind(actor)}`, x1: x(actor), x2: x(actor), y1: TURN.head, y2: height })),
    ...actors.map((actor) => make("text", { class: `name ${kind(actor)}`, x: x(actor), y: 16, "text-anchor": "middle" }, actorName(actor))),
    ...drawn.slice(1).map(([actor], at) => make("line", { class: "passes", x1: x(drawn[at][0]), y1: y(at) + TURN.height / 2, x2: x(actor), y2: y(at + 1) - TURN.height / 2 })),
    ...drawn.flatMap(([actor, steps], at) => [
      make("rect", { class: `turn ${kind(actor)}`, x: x(actor) - TURN.bar / 2, y: y(at) - TURN.height / 2, width: TURN.bar, height: TURN.height, rx: 5 }, make("title", {}, `${actorName(actor)}: ${counted(steps, "step")}`)),
      make("text", { class: `steps-taken ${kind(actor)}`, x: x(actor), y: y(at) + 4.5, "text-anchor": "middle" }, String(steps)),
    ]));
  const rest = schedule.length > drawn.length ? make("p", { class: "none" }, `and ${counted(schedule.length - drawn.length, "turn")} more`) : null;
  return make("figure", { class: "schedule" }, make("div", { class: "drawn" }, svg), rest, make("details", {}, make("summary", {}, "As lines of a script"), make("pre", {}, scheduleLines(schedule).join("\n"))));
}
