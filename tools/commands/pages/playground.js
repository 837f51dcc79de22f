"use strict";

// a link keeps no longer texts than these, packed and unpacked
const LONGEST_LINK = 60_000;
const LONGEST_CASE = 10_000_000;
const USUAL_DELAYS = "all";
// so long nobody types before the policy is looked at, in milliseconds
const PAUSE = 600;
// (a longer text isn't sent at each pause)
const LONGEST_LINTED = 500_000;
const SLOW = "several hundred times slower than the proved program";

const by = (id) => document.getElementById(id);

class Playground {
  constructor(about) {
    this.about = about;
    // what is shown below, the output that it is of, the report that can be checked, and the exploration of which an order was played
    this.shown = this.output = this.report = this.exploration = null;
    // the texts whose notes are shown
    this.linted = { policy: null, script: null };
    const editor = (name, title) => new Editor(by(name), title, () => { this.linted[name] = null; this.changed(); });
    this.editors = { policy: editor("policy", "Policy"), script: editor("script", "Script") };
    this.tellProgram(about);
    by("delays").append(...about.delays.map((bound) => make("option", { value: bound, selected: bound === USUAL_DELAYS }, bound)));
    by("seconds").max = about.seconds.most;
    by("seconds").value = about.seconds.usual;
    by("example").append(make("option", { value: "" }, "choose one"), ...Object.keys(about.examples).map((name) => make("option", { value: name }, name)));
    this.stepping = new Stepping(this, by("stepping"));
    for (const button of document.querySelectorAll("[data-form]")) {
      (button.closest(".joined") ?? button).hidden = !about.forms.includes(button.dataset.form);
      button.addEventListener("click", () => ({ explore: () => this.explore(), step: () => this.step(), compare: () => this.askForOther() }[button.dataset.form] ?? (() => this.ask(button.dataset.form)))());
    }
    by("example").addEventListener("change", () => by("example").value && this.example(by("example").value));
    by("link").addEventListener("click", () => this.copyLink());
    by("open").addEventListener("click", () => by("opened").showModal());
    by("opened").addEventListener("close", () => by("opened").returnValue === "open" && this.open(by("pasted").value));
    by("compared").addEventListener("close", () => by("compared").returnValue === "compare" && this.compare(by("other").value));
    by("other-file").addEventListener("change", async () => by("other-file").files[0] && (by("other").value = await by("other-file").files[0].text()));
    by("save-report").addEventListener("click", () => save(`${this.report === null ? "output" : "report"}.txt`, "text/plain", this.output));
    by("save-picture").addEventListener("click", () => this.savePicture());
    document.addEventListener("keydown", (event) => {
      if (event.key === "Enter" && (event.ctrlKey || event.metaKey) && !document.querySelector("dialog[open]")) this.ask("play");
    });
    window.addEventListener("hashchange", () => location.hash !== this.hash && this.fromAddress());
    followScheme(document.querySelector(".scheme"));
  }

  async begin() {
    if (await this.fromAddress()) return;
    const broken = location.hash.startsWith("#case=");
    this.example("reused-pid" in this.about.examples ? "reused-pid" : Object.keys(this.about.examples)[0]);
    if (broken) this.tellBroken();
  }

  example(name) {
    const [policy, script] = this.about.examples[name];
    this.editors.policy.set(policy);
    this.editors.script.set(script);
    by("example").value = name;
    this.taken();
    this.stepping.end();
    this.tell("");
    this.keep();
  }

  /** Other texts stand there: the policy is the one that changes are compared with. */
  taken() {
    by("other").value = this.editors.policy.text;
    by("other-file").value = "";
    this.linted = { policy: null, script: null };
    this.lint();
  }

  /** The texts have changed: what is shown below is that of others. */
  changed() {
    by("example").value = "";
    by("result").classList.add("old");
    this.stepping.end();
    this.picture?.details.forget();
    this.tell("");
    clearTimeout(this.waiting);
    this.waiting = setTimeout(() => this.keep(), 400);
    clearTimeout(this.linting);
    this.linting = setTimeout(() => this.lint(), PAUSE);
  }

  // ---- the address

  async keep() {
    const packed = await pack(JSON.stringify([this.editors.policy.text, this.editors.script.text]));
    this.hash = packed.length > LONGEST_LINK ? "" : `#case=${packed}`;
    history.replaceState(null, "", this.hash || location.pathname);
    by("link").disabled = this.hash === "";
    by("link").title = this.hash ? "" : "The case is too long for a link";
  }

  async fromAddress() {
    const found = /^#case=([\w-]+)$/.exec(location.hash);
    if (!found) return false;
    try {
      const texts = JSON.parse(await unpack(found[1]));
      if (!Array.isArray(texts) || texts.length !== 2 || !texts.every((text) => typeof text === "string")) throw new Error("no case");
      this.editors.policy.set(texts[0]);
      this.editors.script.set(texts[1]);
      this.taken();
      this.stepping.end();
      by("example").value = Object.keys(this.about.examples).find((name) => this.about.examples[name].every((text, at) => text === texts[at])) ?? "";
      by("result").classList.add("old");
      this.tell("");
      this.hash = location.hash;
      return true;
    } catch {
      this.tellBroken();
      return false;
    }
  }

  tellBroken() {
    this.tell("refused", make("p", {}, "The address has no case that can be read. Perhaps a part of it was cut."));
  }

  async copyLink() {
    clearTimeout(this.waiting);
    await this.keep();
    try {
      await navigator.clipboard.writeText(location.href);
      this.tell("", make("p", {}, "The link is copied. It opens where the page is served on the same port."));
    } catch {
      this.tell("", make("p", {}, "The browser doesn't let the page copy. The address above is the link."));
    }
  }

  tellProgram({ program, slow }) {
    this.slow = slow;
    by("program").textContent = `on ${program}${slow ? `, ${SLOW}` : ""}`;
    by("program").title = by("program").textContent;
  }

  // ---- what the program says

  /** Sends something to the server, and gives what it answers, or null where it refuses. */
  async send(path, body) {
    this.busy(true);
    try {
      const answer = await post(path, body);
      const told = await answer.json();
      if (told.program) this.tellProgram(told);
      if (answer.ok) return told;
      this.tellRefusal(told);
    } catch {
      this.tellSilence();
    } finally {
      this.busy(false);
    }
    return null;
  }

  tellRefusal(told) {
    this.tell("refused", make("p", {}, `The server refuses this: ${told.error}.`));
  }

  tellSilence() {
    this.tell("refused", make("p", {}, "The server doesn't answer. Is the playground still running?"));
  }

  /** While something runs, nothing else can be asked for. */
  busy(is) {
    document.body.classList.toggle("busy", is);
    for (const button of document.querySelectorAll("[data-form]")) button.disabled = is || (button.dataset.form === "audit-check" && this.report === null);
  }

  async ask(form, how = { play: "Played", run: "Run" }[form]) {
    const texts = { policy: this.editors.policy.text, script: this.editors.script.text };
    const more = { run: () => ({ workers: number("workers", 0, 16), cpus: number("cpus", 0, 16) }), "audit-check": () => ({ report: this.report }) }[form];
    if (form === "audit-check" && this.report === null) return;
    this.unmark();
    this.stepping.end();
    if (form === "audit-check") by("result").classList.remove("old");
    this.tell("", make("p", {}, "…"));
    const told = await this.send(form, { ...texts, ...(more ? more() : {}) });
    if (!told) return;
    if (told.status !== 0) this.refused(told, form);
    else if (form === "audit-check") this.checked(told.output);
    else this.show(told.view, `${told.view.scene.lines.join("\n")}\n`, how);
  }

  /** The picture of the report that is shown, or null where something else is. */
  get picture() {
    return this.shown instanceof Picture ? this.shown : null;
  }

  /** Shows a view of an output below. */
  put(view, output, options = {}) {
    this.shown?.leave();
    this.output = output;
    this.report = view.scene ? reportOf(output) : null;
    by("result").classList.remove("old");
    this.shown = show(by("result"), view, options);
    for (const name of ["save-report", "save-picture"]) by(name).disabled = false;
    document.querySelector('[data-form="audit-check"]').disabled = this.report === null;
  }

  show(view, output, how) {
    this.put(view, output, this.explaining);
    const told = view.kind === "exploration" ? counted(view.outcomes.length, "outcome") : view.kind === "pod" ? counted(view.scenes.length, "container") : summaryText(view.scene.summary);
    const back = this.exploration === null ? null : make("button", { type: "button", class: "small", onclick: () => this.backToOutcomes() }, "Back to the outcomes");
    this.tell("good", make("p", {}, `${how}: ${told}.`), make("button", { type: "button", class: "small", onclick: () => this.look() }, view.kind === "exploration" ? "See the outcomes" : "See the picture"), back);
  }

  // ---- policies

  /** Notes at the lines of both texts what is likely a mistake. */
  lint() {
    clearTimeout(this.linting);
    this.lintText("policy", "lint");
    this.lintText("script", "lint-script");
  }

  /** The same of one text. It is no matter if nothing is told. */
  async lintText(name, form) {
    const { text } = this.editors[name];
    if (!this.about.forms.includes(form) || text === this.linted[name] || text.length > LONGEST_LINTED) return;
    this.linted[name] = text;
    try {
      const answer = await post(form, { [name]: text });
      const { findings = [] } = answer.ok ? await answer.json() : {};
      if (text === this.editors[name].text) this.editors[name].note(findings);
    } catch {
      this.linted[name] = null;
    }
  }

  askForOther() {
    by("compared").returnValue = "";
    by("compared").showModal();
  }

  /** Shows the calls that the policy decides otherwise than another one. */
  async compare(old) {
    this.unmark();
    this.stepping.end();
    this.exploration = null;
    this.tell("", make("p", {}, "…"));
    const told = await this.send("compare", { old, new: this.editors.policy.text });
    if (!told) return;
    if (!told.comparison) return this.refused(told, "compare");
    const { outcome, classes, counts } = told.comparison;
    if (outcome === "equal") return this.tell("good", make("p", {}, "Equal: both policies decide each call alike."));
    if (outcome === "undecided") return this.tell("", make("p", {}, "Not decided: there are too many kinds of calls, and those that were looked at are decided alike."));
    this.shown?.leave();
    [this.output, this.report] = [told.output, null];
    by("result").classList.remove("old");
    this.shown = new Comparison(by("result"), told.comparison);
    by("save-report").disabled = false;
    by("save-picture").disabled = document.querySelector('[data-form="audit-check"]').disabled = true;
    return this.tell("good", make("p", {}, `Compared: ${countedKinds(classes)} decided differently${counts ? `, and ${counted(counts, "pair")} of calls counted differently` : ""}.`), make("button", { type: "button", class: "small", onclick: () => this.look() }, "See the calls"));
  }

  // ---- why a rule decides, and steps one by one

  /** What a picture is given so that its decisions can be explained. */
  get explaining() {
    return this.about.forms.includes("explain") ? { explain: (session, lines) => this.explain(session, lines) } : {};
  }

  /** The explanation of a session's decision, whose lines of the journal are given; null where there is none. */
  async explain(session, lines) {
    const told = await this.send("explain", { policy: this.editors.policy.text, trail: `${lines.join("\n")}\n` });
    if (!told) return null;
    if (told.status === 0) return explanation(told, session.rule);
    this.refused(told, "explain");
    return null;
  }

  step() {
    this.unmark();
    this.tell("");
    this.exploration = null;
    return this.stepping.begin();
  }

  /** Shows the report of the steps so far, at its last event. */
  showSteps(view) {
    this.put(view, `${view.scene.lines.join("\n")}\n`, this.explaining);
    this.tell("");
    this.picture.choose(view.scene.lane.length - 1);
  }

  takeScript(text) {
    this.editors.script.set(text);
    by("example").value = "";
    this.keep();
  }

  look() {
    by("result").scrollIntoView({ block: "end" });
    this.shown.focus();
  }

  // ---- explorations

  async explore() {
    this.unmark();
    this.stepping.end();
    this.exploration = null;
    const asked = { policy: this.editors.policy.text, script: this.editors.script.text, workers: number("explorers", 1, 16) - 1, delays: by("delays").value, seconds: number("seconds", 1, this.about.seconds.most) };
    const exploring = new Exploring(asked.delays);
    this.tell("", exploring.words, exploring.button, this.slow ? make("p", { class: "soft" }, `This is ${this.about.program}, ${SLOW}.`) : null);
    this.busy(true);
    try {
      const answer = await post("explore", asked, exploring.signal);
      if (!answer.ok) return this.tellRefusal(await answer.json());
      await exploring.follow(answer.body);
    } catch {
      if (!exploring.stopped) return this.tellSilence();
    } finally {
      this.busy(false);
    }
    return this.explored(exploring, asked);
  }

  /** Shows what an exploration came to that has ended, was stopped, or took too long. */
  explored({ last, known, stopped }, { delays, seconds }) {
    if (last.program) this.tellProgram(last);
    if (last.over === "ended" && last.status !== 0) return this.refused(last, "explore");
    const took = `${last.seconds ?? 0} s`;
    const why = stopped ? `Stopped after ${took}` : last.over === "limit" ? `Ended at the limit of ${seconds} s` : last.over === "ended" ? `Explored in ${took}` : "The server broke off";
    const whole = last.over === "ended" && !stopped;
    if (known === null) return this.tell("refused", make("p", {}, `${why}, and no smaller bound had ended by then. Take fewer delays, or more seconds.`));
    const words = whole ? "" : `${why}. Bound ${last.bound} has ended, which is the first part of ${delays === "all" ? "all orders" : `bound ${delays}`}.`;
    this.exploration = { ...known, words };
    this.showOutcomes();
    return this.tell(whole ? "good" : "", make("p", {}, `${why}: ${counted(known.view.outcomes.length, "outcome")} of ${counted(known.view.histories, "order")}, `, make("code", {}, `whole=${known.view.whole}`), ". ", whole ? "" : words.slice(why.length + 2)), make("button", { type: "button", class: "small", onclick: () => this.look() }, "See the outcomes"));
  }

  showOutcomes() {
    const { view, output, words } = this.exploration;
    this.put(view, output, { words, play: (schedule, number) => this.playOrder(schedule, number) });
  }

  backToOutcomes() {
    this.showOutcomes();
    this.tell("");
    this.look();
  }

  /** Puts the schedule of an outcome into the script, and plays it. */
  async playOrder(schedule, number) {
    this.takeScript(withSchedule(this.editors.script.text, schedule));
    await this.ask("play", `Outcome ${number} played`);
  }

  refused(told, form) {
    const [where, line, from, to] = told.marked || [null, 0];
    const editor = this.editors[where];
    editor?.mark(line, told.line, from, to);
    const of_other = form === "compare" && told.line.startsWith("policy: ");
    const parts = [of_other ? make("p", {}, "The other policy is refused.") : null, make("p", {}, make("code", {}, told.line))];
    if (editor) parts.push(make("button", { type: "button", class: "small", onclick: () => editor.go() }, `Go to line ${line} of the ${where}`));
    if (where === "report" && form === "audit-check" && this.picture) {
      parts.unshift(make("p", {}, `No legal history of this policy and script has this report. Line ${line} is the first that shows it.`));
      this.picture.text.markFault(line - 1);
      this.picture.tab("text");
      parts.push(make("button", { type: "button", class: "small", onclick: () => { this.look(); this.picture.parts.text.focus({ preventScroll: true }); } }, `See line ${line}`));
    }
    this.tell("refused", ...parts);
  }

  checked(output) {
    const [first, ...trail] = output.trimEnd().split("\n");
    const finished = first.endsWith("finished=yes");
    this.tell("good", make("p", {}, `Yes: this is the report of a legal history of this policy and script. ${finished ? "It was finished: every task had ended, and no call was waiting." : "It wasn't finished: a task or a worker had steps left."}`), trail.length ? make("pre", {}, trail.join("\n")) : null);
    by("result").classList.remove("old");
  }

  unmark() {
    for (const editor of Object.values(this.editors)) editor.mark(0);
    this.picture?.text.markFault(-1);
  }

  tell(kind, ...parts) {
    by("answer").className = kind;
    by("answer").replaceChildren(...(parts[0] === undefined ? [] : parts.filter(Boolean)));
  }

  async open(text) {
    const told = await this.send("picture", { report: text.endsWith("\n") || text === "" ? text : `${text}\n` });
    if (!told) return;
    this.exploration = null;
    this.stepping.end();
    if (told.status !== 0) this.tell("refused", make("p", {}, told.line));
    else this.show(told.view, text.endsWith("\n") ? text : `${text}\n`, "Opened");
  }

  async savePicture() {
    const told = await this.send("page", { report: this.output });
    if (told?.page) save("picture.html", "text/html", told.page);
  }
}

function number(id, least, most) {
  return Math.max(least, Math.min(most, Math.trunc(Number(by(id).value)) || least));
}

function post(path, body, signal) {
  return fetch(path, { method: "POST", headers: { "Content-Type": "application/json" }, body: JSON.stringify(body), signal });
}

function summaryText({ events, notified, answered }) {
  return `${counted(events, "event")}, ${counted(notified, "notification")}, ${answered} answered`;
}

/** The report of an output, without the ledgers of a handover. */
function reportOf(output) {
  const at = output.indexOf("\nhandovers ");
  return at < 0 ? output : output.slice(0, at + 1);
}

/** A script with another schedule in place of its own. */
function withSchedule(script, schedule) {
  const kept = [];
  let inside = false;
  for (const line of script.split("\n")) {
    const word = line.trim().split(/\s+/)[0];
    if (word === "schedule") inside = true;
    if (!inside) kept.push(line);
    if (inside && word === "end") inside = false;
  }
  while (kept.length > 0 && kept.at(-1).trim() === "") kept.pop();
  return [...kept, "", ...scheduleLines(schedule), ""].join("\n");
}

/** An exploration that goes on: it tells how far it is, can be stopped, and keeps what is known so far. */
class Exploring {
  constructor(delays) {
    this.what = delays === "all" ? "all orders" : `bound ${delays}`;
    this.known = null;
    this.last = {};
    this.stopped = false;
    this.abort = new AbortController();
    this.words = make("p", { "aria-live": "off" }, `Exploring ${this.what} …`);
    this.button = make("button", { type: "button", class: "small stop", onclick: () => this.stop() }, "Stop");
  }

  get signal() {
    return this.abort.signal;
  }

  stop() {
    this.stopped = true;
    this.abort.abort();
  }

  /** Takes the messages, a line of JSON each, until there are no more. */
  async follow(body) {
    const reader = body.pipeThrough(new TextDecoderStream()).getReader();
    let text = "";
    for (let piece = await reader.read(); !piece.done; piece = await reader.read()) {
      const lines = (text + piece.value).split("\n");
      text = lines.pop();
      lines.forEach((line) => this.take(JSON.parse(line)));
    }
  }

  take(message) {
    const { known, ...rest } = message;
    this.known = known ?? this.known;
    this.last = { ...this.last, ...rest };
    const { seconds, bound, histories, outcomes } = this.last;
    const far = bound === null || bound === undefined ? "no smaller bound has ended yet" : `bound ${bound} has ended: ${counted(histories, "order")}, ${counted(outcomes, "outcome")}`;
    this.words.textContent = `Exploring ${this.what}: ${seconds} s; ${far}`;
  }
}

function save(name, type, text) {
  const address = URL.createObjectURL(new Blob([text], { type }));
  make("a", { href: address, download: name }).click();
  setTimeout(() => URL.revokeObjectURL(address), 1000);
}

/** A text, compressed, in characters that an address may have. */
async function pack(text) {
  const stream = new Blob([text]).stream().pipeThrough(new CompressionStream("deflate-raw"));
  const bytes = new Uint8Array(await new Response(stream).arrayBuffer());
  let packed = "";
  for (let at = 0; at < bytes.length; at += 8192) packed += String.fromCharCode(...bytes.subarray(at, at + 8192));
  return btoa(packed).replaceAll("+", "-").replaceAll("/", "_").replaceAll("=", "");
}

/** The text that was packed; one that is too long, or isn't whole, is refused. */
async function unpack(packed) {
  const bytes = Uint8Array.from(atob(packed.replaceAll("-", "+").replaceAll("_", "/")), (letter) => letter.charCodeAt(0));
  const reader = new Blob([bytes]).stream().pipeThrough(new DecompressionStream("deflate-raw")).getReader();
  const found = [];
  let length = 0;
  for (let piece = await reader.read(); !piece.done; piece = await reader.read()) {
    length += piece.value.length;
    if (length > LONGEST_CASE) throw new Error("too long");
    found.push(piece.value);
  }
  return new TextDecoder("utf-8", { fatal: true }).decode(await new Blob(found).arrayBuffer());
}

let playground = null;
fetch("about").then((answer) => answer.json()).then((about) => {
  playground = new Playground(about);
  return playground.begin();
}).catch(() => by("answer").append(make("p", {}, "The server doesn't answer. Is the playground still running?")));
