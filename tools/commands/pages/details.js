"use strict";

const MEANINGS = {
  grant: "The rule grants the call: the worker acted in the container's stead.",
  deny: "The rule denies the call: the worker did nothing and answered its error.",
  pass: "The rule passes the call: the kernel runs it, without the broker's rights.",
  inject: "The rule puts one of the broker's descriptors into the caller.",
  spent: "The rule grants the call, but had been used as often as it may.",
  fault: "The arguments couldn't be read from the caller's memory.",
  gone: "The caller or its call was gone before its arguments were found valid a second time. Nothing was done for it.",
  open: "The session or the history ended before anything was decided.",
  sent: "The waiting call took the answer.",
  lost: "The answer found nobody: the call no longer waited.",
  none: "There was no answer.",
  restarted: "A signal interrupted the call, and the task made it again.",
  ended: "Its task ended while it was in the call.",
};

// verdicts that a rule has given
const DECIDED = ["grant", "deny", "pass", "inject", "spent"];

const LEGEND = [
  ["call", false, "task", "A task makes a call. The bar below it lasts until the call returns; it is filled once a worker has received it."],
  ["resume", false, "task", "The call returns."],
  ["recv", false, "worker", "A worker receives the notification. The bar below it is its session."],
  ["check", false, "worker", "It asks whether the notification is still valid."],
  ["read", false, "worker", "It reads an argument from the caller's memory."],
  ["act", false, "worker", "It does what the policy grants: the effect."],
  ["addfd-put", false, "worker", "It puts a descriptor into the caller."],
  ["send", false, "worker", "It answers the call."],
  ["kill", false, "task", "A signal is sent, or arrives."],
  ["exit", false, "task", "A task ends. The dotted line shows that its PID is still held."],
  ["check", true, "worker", "Hollow with a cross: this failed."],
];

/** What stands in the panel beside the picture: the trail of a call, an event, or how to read the picture. */
class Details {
  constructor(root, model, choose, only, explain) {
    Object.assign(this, { root, model, choose, only, explain });
    // why the sessions were decided so, as far as that was asked for
    this.explanations = new Map();
  }

  /** What was explained is of a policy that has changed. */
  forget() {
    this.explanations.clear();
    this.show(this.place);
  }

  show(place) {
    this.place = place;
    const call = place >= 0 ? this.model.scene.call[place] : -1;
    const top = call >= 0 && call === this.shown ? this.root.scrollTop : 0;
    this.root.replaceChildren(...(place < 0 ? this.legend() : call < 0 ? this.event(place) : this.trail(this.model.calls[call], place)));
    this.root.scrollTop = top;
    if (call >= 0 && call === this.shown) this.bring(this.root.querySelector("[aria-current]"));
    this.shown = call;
  }

  /** Scrolls to the step, where it is out of sight. */
  bring(step) {
    const top = step ? step.getBoundingClientRect().top - this.root.getBoundingClientRect().top : 0;
    if (top < 0 || top > this.root.clientHeight - 40) this.root.scrollTop += top - this.root.clientHeight / 2;
  }

  actor(number) {
    const lane = this.model.lanes[number];
    return make("span", { class: `actor ${lane.kind}` }, laneName(lane));
  }

  facts(rows) {
    return make("dl", { class: "facts" }, ...rows.flatMap(([name, ...value]) => [make("dt", {}, name), make("dd", {}, ...value)]));
  }

  /** Whether a word says that there is no outcome so far, of a history that goes on. */
  goesOn(word) {
    return word === "open" && this.model.scene.goes_on === true;
  }

  meaning(word) {
    return this.goesOn(word) ? "The next steps bring it." : MEANINGS[word];
  }

  button(text, action) {
    return make("button", { type: "button", class: "small", onclick: action }, text);
  }

  /** What is broken at an event, and why. */
  broken(place) {
    const { broken } = this.model.scene;
    if (!broken || broken.place !== place) return [];
    const reason = ([at, text]) => make("li", {}, at === null ? text : make("button", { type: "button", class: "small", onclick: () => this.choose(at) }, `Event ${at}`), at === null ? null : ` ${text}`);
    return [make("div", { class: "broken-clause" }, make("h2", {}, `Broken: ${broken.class}, `, make("code", {}, broken.clause)), make("p", {}, `${broken.means}.`), make("ul", {}, ...broken.reasons.map(reason)))];
  }

  trail(call, place) {
    const { model } = this;
    const lane = model.lanes[call.lane];
    const sessions = call.sessions.map((number) => model.sessions[number]);
    return [
      ...this.broken(place),
      make("h2", {}, make("code", {}, call.name), ` by ${laneName(lane)}`),
      this.facts([
        ["Process", call.pid],
        ["Result", make("strong", {}, this.goesOn(call.outcome) ? "isn't over" : outcomeOf(call.outcome)), this.meaning(call.outcome) && make("p", {}, this.meaning(call.outcome))],
        ["The filters", filterText(call.verdict)],
      ]),
      ...sessions.flatMap((session) => this.session(session, sessions.length)),
      make("div", { class: "buttons" },
        this.button("Only this call", () => this.only({ kind: "call", value: call.number })),
        this.button(`Only ${laneName(lane)}`, () => this.only({ kind: "lane", value: call.lane })),
        ...[...new Set(sessions.map((session) => session.rule))].filter((rule) => rule !== "-").map((rule) => this.button(`Only rule ${rule}`, () => this.only({ kind: "rule", value: rule })))),
      make("h3", {}, "Step by step"),
      this.steps(call.trail, place),
      call.args.length > 0 && make("h3", {}, "Arguments"),
      call.args.length > 0 && make("table", {}, ...call.args.map(([name, raw, shown]) => make("tr", {}, make("th", { scope: "row" }, name), make("td", {}, make("code", {}, shown)), make("td", { class: "raw" }, shown === raw ? "" : raw)))),
    ].filter(Boolean);
  }

  session(session, count) {
    const title = count > 1 ? [make("h3", {}, `Notification ${session.id}`)] : [];
    return [...title, this.facts([
      ["Notification", `${session.id}, served by `, this.actor(session.lane)],
      ["Rule", session.rule === "-" ? "none" : make("button", { type: "button", title: `Only rule ${session.rule}`, onclick: () => this.only({ kind: "rule", value: session.rule }) }, make("code", {}, session.rule))],
      ["Verdict", make("strong", { class: `verdict ${session.verdict}` }, this.goesOn(session.verdict) ? "undecided so far" : session.verdict), make("p", {}, this.meaning(session.verdict))],
      ["Answer", session.answer === "-" ? "none" : make("code", {}, session.answer), session.answer === "-" && session.reply === "none" ? null : make("p", { class: `reply ${session.reply}` }, this.meaning(session.reply))],
      ...(session.copy.length ? [["The copy", ...session.copy.map(([, at, length, text]) => make("p", { class: "copy" }, make("code", {}, cut(text, 4096)), make("small", {}, ` ${length} bytes at ${at}`)))]] : []),
    ]), ...this.why(session)];
  }

  /** Why the rule decides that did: where it was asked for, else the button that asks. */
  why(session) {
    if (this.explain === null || !DECIDED.includes(session.verdict)) return [];
    const known = this.explanations.get(session.number);
    if (known) return [known];
    const button = this.button("Explain", async () => {
      button.disabled = true;
      const found = await this.explain(session, this.linesOf(session));
      button.disabled = false;
      if (found === null) return;
      this.explanations.set(session.number, found);
      button.parentElement.replaceWith(found);
      found.focus({ preventScroll: true });
    });
    button.title = "Which rule decides, and what the call misses of each rule before it";
    return [make("div", { class: "buttons" }, button)];
  }

  /** The lines of the journal with the call of a session, and with the session. */
  linesOf({ call, lane, place, end }) {
    const { scene, calls, lines } = this.model;
    const events = calls[call].events.filter((at) => scene.lane[at] === lane && at >= place && at <= end);
    return [calls[call].place, ...events].map((at) => lines[at + 1]);
  }

  steps(places, chosen) {
    const { scene } = this.model;
    const shown = around(places, chosen, 200);
    const more = places.length > shown.length ? [make("li", { class: "more" }, `${places.length - shown.length} more steps aren't listed here.`)] : [];
    return make("ol", { class: "steps" }, ...shown.map((place) => make("li", {},
      make("button", { type: "button", "aria-current": place === chosen && "true", onclick: () => this.choose(place) },
        make("span", { class: "place" }, place), this.actor(scene.lane[place]), make("span", { class: "what" }, scene.words[place])))), ...more);
  }

  event(place) {
    const { model } = this;
    const lane = model.lanes[model.scene.lane[place]];
    return [
      ...this.broken(place),
      make("h2", {}, `Event ${place}`),
      make("p", {}, this.actor(lane.number), " ", model.scene.words[place]),
      ...(model.tags.get(place) || []).map((tag) => make("p", { class: `tag ${tag.kind}` }, tag.text)),
      make("h3", {}, "The report's line"),
      make("pre", {}, cut(model.lines[place + 1], 4096)),
      make("div", { class: "buttons" }, this.button(`Only ${laneName(lane)}`, () => this.only({ kind: "lane", value: lane.number }))),
    ];
  }

  legend() {
    const { summary } = this.model.scene;
    const plural = (count, word) => `${count.toLocaleString("en")} ${word}${count === 1 ? "" : "s"}`;
    return [
      make("h2", {}, "How to read this"),
      make("p", {}, "Tasks of a container make system calls that they have no rights for. The kernel's listener hands such a call to a worker of the broker as a notification. The worker reads the arguments, asks its policy, acts, and answers."),
      make("p", {}, "Each column is one of these actors. Time runs downwards: each row is one event, with its number on the left and its words on the right. Choose an event, and this panel tells the whole trail of its call."),
      make("p", { class: "sum" }, `This report: ${plural(summary.events, "event")}, ${plural(summary.calls, "call")}, ${plural(summary.notified, "notification")}; ${summary.answered.toLocaleString("en")} answered.`),
      make("h3", {}, "Marks"),
      make("ul", { class: "legend" },
        ...LEGEND.map(([step, bad, actor, text]) => make("li", {}, markAlone(step, bad, actor), make("span", {}, text))),
        make("li", {}, bracketAlone(true), make("span", {}, "The bracket joins the two checks. What is read between them is the copy that the policy judges: the call waited all the time.")),
        make("li", {}, bracketAlone(false), make("span", {}, "A broken bracket: the second check failed or never came, and the copy counts for nothing.")),
        make("li", {}, arrowAlone({ kind: "send", lost: true }), make("span", {}, "An answer that finds nobody. The call it was for is over.")),
        make("li", {}, arrowAlone({ kind: "other" }), make("span", {}, "The PID belongs to another task by now."))),
      make("h3", {}, "Keys"),
      make("table", { class: "keys" }, ...KEYS.map(([keys, text]) => make("tr", {}, make("th", { scope: "row" }, ...keys.flatMap((key) => [make("kbd", {}, key), " "])), make("td", {}, text)))),
    ];
  }
}

const KEYS = [
  [["↑", "↓"], "the event before, the next one"],
  [["←", "→"], "the event before of the same call, the next one"],
  [["N", "P"], "the next call, the call before"],
  [["Home", "End"], "the first event, the last one"],
  [["O"], "only the lane of the chosen event"],
  [["/"], "search; then Enter for the next place"],
  [["+", "−", "0"], "greater, smaller, all rows at once"],
  [["Esc"], "nothing chosen, everything shown"],
];

function laneName(lane) {
  return lane.kind === "task" ? `task ${lane.name.slice(1)}` : lane.kind === "worker" ? `worker ${lane.name.slice(1)}` : "listener";
}

function outcomeOf(outcome) {
  return { restarted: "made again", ended: "never returned", open: "came to nothing" }[outcome] || (/^E/.test(outcome) ? `failed with ${outcome}` : `returned ${outcome}`);
}

function filterText(verdict) {
  const [word, value] = verdict.split(/ id=|=/);
  return {
    notify: `notify the broker: notification ${value}`, allow: "let it run", log: "let it run, and log it", errno: `answer error ${value}`, nosys: "answer ENOSYS", kill: "kill the task",
  }[word];
}

function cut(text, most) {
  return text.length <= most ? text : `${text.slice(0, most)} … (${(text.length - most).toLocaleString("en")} more characters)`;
}

/** At most so many of the places, those next to the chosen one. */
function around(places, chosen, most) {
  const first = Math.max(0, Math.min(places.indexOf(chosen) - most / 2, places.length - most));
  return places.slice(first, first + most);
}

function bracketAlone(good) {
  return make("svg", { viewBox: "0 0 20 20", width: 20, height: 20, "aria-hidden": "true" }, bracketOf(8, 3, 17, 6, good, 4));
}

function arrowAlone(arrow) {
  return make("svg", { viewBox: "0 0 20 20", width: 20, height: 20, "aria-hidden": "true" }, arrowOf(arrow, -2, arrow.kind === "other" ? 13 : 26, 10, 5));
}

/** The bracket left of a session, from its first check to the second. */
function bracketOf(x, top, bottom, reach, good, size) {
  const path = make("path", { d: `M${x + reach} ${top}H${x}V${bottom}H${x + reach}`, class: "shape-line" });
  const cross = good ? null : make("path", { d: CROSS, class: "cross", transform: `translate(${x} ${bottom}) scale(${size})` });
  return make("g", { class: `bracket ${good ? "good" : "broken"}` }, path, cross);
}
