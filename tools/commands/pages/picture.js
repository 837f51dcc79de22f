"use strict";

const NOTES = {
  broken: "a clause is broken",
  other: "another task is opened", reused: "PID reused", gone: "caller or call gone", lost: "answer lost", restarted: "call made again",
  overwritten: "text overwritten", fault: "arguments unreadable", deny: "call denied", spent: "grant spent", open: "call comes to nothing", replaced: "worker replaced",
};
const LEAST_WITH_WORDS = 14;
const NARROW = 640;
const FLOWING = 560;
// what is left free below the last row
const BELOW = 24;

/** A picture of a scene, with its trail and the report's text, in a copy of the template. */
class Picture {
  constructor(root, scene, { address = false, explain = null } = {}) {
    this.model = new Model(scene);
    this.address = address;
    this.chosen = -1;
    this.hits = [];
    root.replaceChildren(document.getElementById("picture-parts").content.cloneNode(true));
    this.root = root.firstElementChild;
    const part = (name) => this.root.querySelector(`.${name}`);
    this.parts = Object.fromEntries(["picture", "heads", "head-lanes", "canvas", "numbers", "graph", "words", "hover", "band", "peek", "text", "find", "found", "only", "notes", "trail", "said"].map((name) => [name, part(name)]));
    this.details = new Details(this.parts.trail, this.model, (place) => this.choose(place), (filter) => this.only(filter), explain);
    this.text = new TextLines(this.parts.text, this.model, (place) => this.choose(place, { from: "text" }));
    this.listen();
    this.fillOnly();
    this.fillNotes();
    this.rowHeight = 0;
    this.measure();
    this.rowHeight = this.usual;
    this.measure();
    const asked = this.placeOfAddress();
    this.choose(asked < 0 && scene.broken ? scene.broken.place : asked, { quiet: true });
  }

  // ---- sizes

  get narrow() {
    return this.parts.picture.clientWidth < NARROW;
  }

  measure() {
    const { picture, canvas, numbers, graph, words, heads } = this.parts;
    const { model } = this;
    const width = picture.clientWidth;
    const digits = String(model.count).length;
    this.numbersWidth = Math.max(30, digits * 8 + 14);
    const least = this.narrow ? 24 : 72;
    const room = width - this.numbersWidth;
    const columns = Math.max(1, model.columns.size);
    const [wanted, leastWords] = this.narrow ? [room * 0.6, 150] : [640, Math.min(340, room * 0.5)];
    this.spacing = Math.max(least, Math.min(110, (room - wanted - 8) / columns));
    this.graphWidth = columns * this.spacing + 8;
    this.wordsWidth = Math.max(leastWords, room - this.graphWidth);
    // where there is little room for words, they take more lines than one
    this.usual = this.narrow ? (this.wordsWidth < 190 ? 80 : 64) : this.wordsWidth < FLOWING ? 38 : 28;
    this.height = Math.max(1, model.rows.length) * this.rowHeight + BELOW;
    canvas.style.height = `${this.height}px`;
    canvas.style.width = heads.style.width = `${this.numbersWidth + this.graphWidth + this.wordsWidth}px`;
    for (const [part, size] of [[numbers, this.numbersWidth], [graph.parentElement, this.graphWidth], [words, this.wordsWidth]]) part.style.width = `${size}px`;
    this.root.querySelector(".corner").style.width = `${this.numbersWidth}px`;
    this.parts["head-lanes"].style.width = `${this.graphWidth}px`;
    this.root.querySelector(".head-words").style.width = `${this.wordsWidth}px`;
    this.root.classList.toggle("narrow", this.narrow);
    this.root.classList.toggle("wide", this.graphWidth + this.wordsWidth > room + 1);
    this.root.classList.toggle("flowing", this.wordsWidth < FLOWING);
    this.root.classList.toggle("small-rows", this.rowHeight < LEAST_WITH_WORDS);
    this.root.style.setProperty("--row", `${this.rowHeight}px`);
  }

  drawAnew() {
    this.measure();
    this.draw();
  }

  x(lane) {
    const column = this.model.columns.get(this.model.lanes[lane].column);
    return column === undefined ? undefined : (column + 0.5) * this.spacing + 4;
  }

  y(row) {
    return (row + 0.5) * this.rowHeight + 6;
  }

  /** The first and the last row that are in sight. */
  sight() {
    const { picture, heads } = this.parts;
    const first = Math.floor((picture.scrollTop - 6) / this.rowHeight);
    const last = Math.ceil((picture.scrollTop + picture.clientHeight - heads.offsetHeight) / this.rowHeight);
    const most = this.model.rows.length - 1;
    return [Math.min(Math.max(0, first), Math.max(0, most)), Math.min(most, last)];
  }

  // ---- drawing: only the rows in sight, and some above and below

  draw() {
    const [first, last] = this.sight();
    const more = Math.min(100, last - first + 1);
    this.from = Math.max(0, first - more);
    this.to = Math.min(this.model.rows.length - 1, last + more);
    this.drawnAt = this.parts.picture.scrollLeft;
    this.call = this.chosen < 0 ? -1 : this.model.scene.call[this.chosen];
    this.root.classList.toggle("has-call", this.call >= 0);
    this.drawGraph();
    this.drawNumbers();
    this.drawWords();
    this.drawHeads();
    this.drawBand(this.parts.band, this.chosen < 0 ? -1 : this.model.rowOf(this.chosen));
  }

  /** Draws anew where what is drawn no longer covers what is in sight. */
  follow() {
    const [first, last] = this.sight();
    const sideways = Math.abs(this.parts.picture.scrollLeft - this.drawnAt) > 100;
    const above = first - this.from < 5 && this.from > 0;
    const below = this.to - last < 5 && this.to < this.model.rows.length - 1;
    if (sideways || above || below) this.draw();
    else this.drawHeads();
  }

  drawGraph() {
    const { graph, picture } = this.parts;
    const top = this.from * this.rowHeight;
    const height = (this.to - this.from + 1) * this.rowHeight + 12;
    graph.setAttribute("width", this.graphWidth);
    graph.setAttribute("height", Math.max(0, height));
    graph.style.top = `${top}px`;
    graph.replaceChildren();
    if (this.model.rows.length === 0) return;
    const left = picture.scrollLeft - 300;
    const right = left + picture.clientWidth + 600;
    const seen = (x) => x !== undefined && x >= left && x <= right;
    const layers = { lane: [], call: [], session: [], bracket: [], arrow: [], mark: [] };
    for (const span of this.model.crossing(this.model.rows[this.from], this.model.rows[this.to])) {
      const x = this.x(span.lane);
      if (seen(x)) layers[span.kind].push(this.span(span, x, top));
    }
    for (let row = this.from; row <= this.to; row++) this.rowMarks(row, top, seen, layers);
    graph.append(...Object.values(layers).flat());
  }

  get markSize() {
    return Math.max(1.7, Math.min(7, this.rowHeight * 0.27));
  }

  /** The rows that a span goes over, as heights below the top, cut where nothing is drawn. */
  ends(span, top) {
    const first = Math.max(this.from - 2, this.model.rowFrom(span.from));
    const last = Math.min(this.to + 2, this.model.rowFrom(span.to + 1) - 1);
    return [this.y(first) - top, this.y(Math.max(first, last)) - top];
  }

  span(span, x, top) {
    const [y1, y2] = this.ends(span, top);
    const own = span.call >= 0 && span.call === this.call ? " in" : "";
    const size = this.markSize;
    if (span.kind === "lane") return this.laneLine(span.item, x, y1, y2, top);
    if (span.kind === "bracket") return withClass(bracketOf(x - size * 1.5 - 5, y1, y2, size * 0.8 + 2, span.item.good, Math.max(3, size)), `fade${own}`);
    const wide = Math.min(11, size * 1.7);
    const bar = (kind, from, to) => make("rect", { class: `bar ${kind}`, x: x - wide / 2, y: from - size, width: wide, height: to - from + 2 * size, rx: wide / 2 });
    if (span.kind === "session") return make("g", { class: `fade${own}` }, bar("session", y1, y2));
    const received = span.item.sessions.length ? this.model.sessions[span.item.sessions[0]].place : -1;
    const held = received >= 0 && Math.max(y1, this.y(Math.max(this.from - 2, this.model.rowFrom(received))) - top);
    return make("g", { class: `fade${own}` }, bar(span.item.verdict.startsWith("notify") ? "waiting" : "native", y1, y2), received >= 0 && held <= y2 ? bar("held", held, y2) : null);
  }

  /** A task's line, solid while it lives, and dotted while its number is still held. */
  laneLine(lane, x, y1, y2, top) {
    const line = (kind, from, to) => make("line", { class: `lane ${lane.kind} ${kind}`, x1: x, x2: x, y1: from, y2: to });
    if (lane.kind !== "task") return line("", -8, this.height);
    if (lane.ended === null) return line("", y1, y2);
    const end = Math.max(y1, Math.min(y2, this.y(Math.min(this.to + 2, this.model.rowFrom(lane.ended + 1) - 1)) - top));
    return make("g", {}, line("", y1, end), line("held-number", end, y2));
  }

  rowMarks(row, top, seen, layers) {
    const { model } = this;
    const { scene } = model;
    const place = model.rows[row];
    const own = model.concerns(place, this.call) || place === this.chosen ? " in" : "";
    const y = this.y(row) - top;
    for (const arrow of model.arrows.get(place) || []) {
      const x1 = this.x(arrow.source);
      const x2 = this.x(arrow.target);
      if (x1 !== undefined && x2 !== undefined && x1 !== x2 && (seen(x1) || seen(x2))) layers.arrow.push(withClass(arrowOf(arrow, x1, x2, y, this.markSize), `fade${own}`));
    }
    const x = this.x(scene.lane[place]);
    if (seen(x)) layers.mark.push(withClass(markOf(scene.step[place], scene.bad[place], model.lanes[scene.lane[place]].kind, x, y, this.markSize), `fade${own}`));
  }

  drawNumbers() {
    const each = Math.max(1, Math.ceil(17 / this.rowHeight));
    const shown = [];
    for (let row = this.from; row <= this.to; row++) {
      if (row % each === 0) shown.push(this.placed(make("span", { class: "number" }, this.model.rows[row]), row));
    }
    this.parts.numbers.replaceChildren(...shown);
  }

  placed(element, row) {
    element.style.top = `${this.y(row)}px`;
    return element;
  }

  drawWords() {
    const rows = this.rowHeight < LEAST_WITH_WORDS ? this.wordsThatFit() : Array.from({ length: Math.max(0, this.to - this.from + 1) }, (_, at) => this.from + at);
    this.parts.words.replaceChildren(...rows.map((row) => this.wordsOf(row)));
  }

  wordsOf(row) {
    const { model } = this;
    const { scene } = model;
    const place = model.rows[row];
    const lane = model.lanes[scene.lane[place]];
    const kinds = ["row", ...this.ground(place), model.concerns(place, this.call) && "in", place === this.chosen && "in chosen", this.hitSet?.has(place) && "hit"].filter(Boolean);
    return this.placed(make("div", { class: kinds.join(" "), role: "option", id: `row-${place}`, "aria-selected": String(place === this.chosen), "aria-setsize": model.rows.length, "aria-posinset": row + 1, "aria-label": `${place}, ${laneName(lane)} ${scene.words[place]}${(model.tags.get(place) || []).map((tag) => `, ${tag.text}`).join("")}`, title: model.lines[place + 1].slice(0, 300) },
      make("span", { class: `actor ${lane.kind}` }, laneName(lane)),
      make("span", { class: "what" }, scene.words[place]),
      ...(model.tags.get(place) || []).map((tag) => make("span", { class: `tag ${tag.kind}`, "data-rule": tag.rule ?? undefined, title: tag.rule ? `Only rule ${tag.rule}` : undefined }, tag.text))), row);
  }

  /** What a row is marked by: that a clause is broken there, or that this rests on it. */
  ground(place) {
    return (this.model.tags.get(place) || []).map((tag) => tag.kind).filter((kind) => kind === "broken" || kind === "rests");
  }

  /** The rows whose words have room where rows are small: what is chosen or found first, then what failed, and then calls. */
  wordsThatFit() {
    const { model } = this;
    const { scene } = model;
    const weight = (place) => (place === this.chosen ? 0 : this.hitSet?.has(place) ? 1 : (model.tags.get(place) || []).some((tag) => tag.kind === "bad") ? 2 : scene.step[place] === "call" ? 3 : scene.step[place] === "act" ? 4 : 5);
    const rows = [];
    for (let row = this.from; row <= this.to; row++) rows.push(row);
    rows.sort((one, other) => weight(model.rows[one]) - weight(model.rows[other]) || one - other);
    const apart = Math.ceil(19 / this.rowHeight);
    const taken = new Uint8Array(this.to - this.from + 1);
    const fits = rows.filter((row) => {
      const at = row - this.from;
      if (taken[at]) return false;
      taken.fill(1, Math.max(0, at - apart + 1), at + apart);
      return true;
    });
    return fits.sort((one, other) => one - other);
  }

  drawHeads() {
    const [first] = this.sight();
    const { model } = this;
    const place = model.rows[first] ?? 0;
    const named = new Map();
    for (const lane of model.lanes) {
      if (!model.columns.has(lane.column) || model.shownLanes && !model.shownLanes.has(lane.number)) continue;
      const before = named.get(lane.column);
      if (!before || lane.first <= place || before.first > lane.first) named.set(lane.column, lane);
    }
    const key = [...named.values()].map((lane) => lane.number).join(" ") + this.spacing;
    if (this.headKey === key) return;
    this.headKey = key;
    this.parts["head-lanes"].replaceChildren(...[...named.values()].map((lane) => this.head(lane)));
  }

  head(lane) {
    const chosen = this.model.filter?.kind === "lane" && this.model.filter.value === lane.number;
    const below = lane.kind === "task" ? `pid ${lane.pid ?? "?"}` : lane.kind === "worker" ? "broker" : "kernel";
    const button = make("button", { type: "button", class: `head ${lane.kind}`, title: `Only ${laneName(lane)}`, "aria-pressed": String(chosen), tabindex: -1, onclick: () => this.only(chosen ? null : { kind: "lane", value: lane.number }) },
      make("b", {}, laneName(lane)), make("small", {}, below));
    button.style.left = `${this.x(lane.number) - this.spacing / 2}px`;
    button.style.width = `${this.spacing}px`;
    return button;
  }

  drawBand(band, row) {
    band.hidden = row < 0;
    if (row < 0) return;
    const height = Math.max(4, this.rowHeight);
    band.style.top = `${this.y(row) - height / 2}px`;
    band.style.height = `${height}px`;
  }

  // ---- what is chosen and shown

  /** Chooses an event, and brings it into sight in the picture and in the text. */
  choose(place, { from = "picture", quiet = false } = {}) {
    const { model } = this;
    if (place >= 0 && model.rowOf(place) < 0) this.only(null, { keep: true });
    this.chosen = place >= 0 && place < model.count ? place : -1;
    if (this.chosen >= 0) this.bring(model.rowOf(this.chosen));
    this.draw();
    this.details.show(this.chosen);
    this.text.choose(this.chosen, from !== "text");
    const { picture } = this.parts;
    if (this.chosen >= 0) picture.setAttribute("aria-activedescendant", `row-${this.chosen}`);
    else picture.removeAttribute("aria-activedescendant");
    if (this.address && !quiet) location.replace(this.chosen < 0 ? "#" : `#event=${this.chosen}`);
  }

  placeOfAddress() {
    const found = this.address && /^#event=(\d{1,9})$/.exec(location.hash);
    return found && Number(found[1]) < this.model.count ? Number(found[1]) : -1;
  }

  /** Scrolls so that the row is in sight, with some rows around it. */
  bring(row) {
    const { picture, heads } = this.parts;
    const seen = picture.clientHeight - heads.offsetHeight;
    const y = this.y(row);
    const margin = Math.min(seen / 3, Math.max(60, this.rowHeight * 2));
    if (y - margin < picture.scrollTop) picture.scrollTop = y - margin;
    else if (y + margin > picture.scrollTop + seen) picture.scrollTop = y + margin - seen;
    const x = this.x(this.model.scene.lane[this.model.rows[row]]);
    const across = picture.clientWidth - this.numbersWidth - this.wordsWidth;
    if (x - this.spacing < picture.scrollLeft) picture.scrollLeft = x - this.spacing;
    else if (x + this.spacing / 2 > picture.scrollLeft + across) picture.scrollLeft = x + this.spacing / 2 - across;
  }

  /** Shows only what the filter names, or everything. */
  only(filter, { keep = false } = {}) {
    this.model.only(filter);
    this.parts.only.value = filter ? `${filter.kind} ${filter.value}` : "";
    if (this.parts.only.selectedIndex < 0) this.parts.only.value = "";
    this.root.classList.toggle("filtered", filter !== null);
    this.headKey = null;
    this.find();
    this.measure();
    if (!keep) {
      if (this.chosen >= 0 && this.model.rowOf(this.chosen) >= 0) this.bring(this.model.rowOf(this.chosen));
      else this.parts.picture.scrollTop = 0;
      if (this.chosen >= 0 && this.model.rowOf(this.chosen) < 0) this.choose(-1);
      else this.draw();
    }
    this.say(filter ? `${this.model.rows.length} events are shown` : "all events are shown");
  }

  say(text) {
    this.parts.said.textContent = text;
  }

  fillOnly() {
    const { model } = this;
    const option = (kind, value, text) => make("option", { value: `${kind} ${value}` }, text);
    this.parts.only.append(
      make("option", { value: "" }, "All"),
      make("optgroup", { label: "Lane" }, ...model.lanes.slice(0, 500).map((lane) => option("lane", lane.number, laneName(lane)))),
      make("optgroup", { label: "Rule" }, ...model.rules.slice(0, 500).map((rule) => option("rule", rule, rule))));
  }

  fillNotes() {
    const kinds = new Map();
    for (const [kind, place] of this.model.scene.notes) {
      if (!kinds.has(kind)) kinds.set(kind, []);
      kinds.get(kind).push(place);
    }
    for (const places of kinds.values()) places.sort((one, other) => one - other);
    const buttons = [...kinds].sort(([kind, one], [, other]) => (kind === "broken" ? -1 : one[0]) - other[0]).map(([kind, places]) => {
      return make("button", { type: "button", class: `note ${kind}`, onclick: () => this.choose(places.find((place) => place > this.chosen) ?? places[0]) },
        NOTES[kind], places.length > 1 ? make("b", {}, ` ${places.length.toLocaleString("en")}`) : null);
    });
    this.parts.notes.append(...(buttons.length ? [make("span", {}, "Worth a look:"), ...buttons] : []));
  }

  find() {
    this.hits = this.model.search(this.parts.find.value.trim());
    this.hitSet = new Set(this.hits);
    this.tellFound();
  }

  search(choose) {
    this.find();
    if (choose && this.hits.length) this.step(1, this.hits, true);
    else this.draw();
  }

  tellFound() {
    this.root.classList.toggle("searching", this.parts.find.value.trim() !== "");
    const at = this.hits.indexOf(this.chosen) + 1;
    this.parts.found.textContent = !this.parts.find.value.trim() ? "" : !this.hits.length ? "nothing" : at ? `${at} of ${this.hits.length.toLocaleString("en")}` : `${this.hits.length.toLocaleString("en")}`;
  }

  /** Chooses the next place of a rising list, or the one before; with `here` also the chosen one itself. */
  step(way, places, here = false) {
    if (!places.length) return;
    const at = this.chosen;
    const next = way > 0 ? places.find((place) => place > at || here && place === at) ?? places[0] : places.findLast((place) => place < at) ?? places[places.length - 1];
    this.choose(next);
    this.tellFound();
  }

  stepRow(by) {
    const { rows } = this.model;
    if (!rows.length) return;
    const row = this.chosen < 0 ? (by > 0 ? -1 : rows.length) : this.model.rowOf(this.chosen);
    this.choose(rows[Math.max(0, Math.min(rows.length - 1, row + by))]);
  }

  zoom(factor) {
    const fit = (this.parts.picture.clientHeight - this.parts.heads.offsetHeight - BELOW) / Math.max(1, this.model.rows.length);
    const height = factor === 0 ? Math.min(this.usual, fit) : this.rowHeight * factor;
    const [first] = this.sight();
    const anchor = this.chosen >= 0 ? this.model.rowOf(this.chosen) : first;
    const above = this.y(anchor) - this.parts.picture.scrollTop;
    this.rowHeight = Math.max(2.5, Math.min(48, height));
    this.measure();
    this.parts.picture.scrollTop = this.y(anchor) - above;
    this.draw();
  }

  // ---- mouse, keys and sizes

  listen() {
    const { picture, canvas, find, only } = this.parts;
    let asked = false;
    picture.addEventListener("scroll", () => {
      if (asked) return;
      asked = true;
      requestAnimationFrame(() => {
        asked = false;
        this.follow();
      });
    });
    const rowAt = (event) => {
      const row = Math.floor((event.clientY - canvas.getBoundingClientRect().top - 6) / this.rowHeight);
      return row >= 0 && row < this.model.rows.length ? row : -1;
    };
    canvas.addEventListener("click", (event) => {
      const { rule } = event.target.dataset;
      if (rule) {
        this.only({ kind: "rule", value: rule });
        return;
      }
      const row = rowAt(event);
      if (row < 0) return;
      const place = this.model.rows[row];
      if (place === this.chosen && this.narrow) this.tab("trail");
      else this.choose(place);
    });
    canvas.addEventListener("mousemove", (event) => this.hover(rowAt(event)));
    canvas.addEventListener("mouseleave", () => this.hover(-1));
    picture.addEventListener("keydown", (event) => this.key(event));
    this.root.addEventListener("keydown", (event) => this.anyKey(event));
    let waiting = 0;
    find.addEventListener("input", () => {
      clearTimeout(waiting);
      waiting = setTimeout(() => this.search(false), 120);
    });
    find.addEventListener("keydown", (event) => {
      if (event.key !== "Enter") return;
      clearTimeout(waiting);
      if (this.found !== find.value) this.search(true);
      else this.step(event.shiftKey ? -1 : 1, this.hits);
      this.found = find.value;
      event.preventDefault();
    });
    only.addEventListener("change", () => {
      const [kind, ...value] = only.value.split(" ");
      this.only(kind ? { kind, value: kind === "lane" ? Number(value[0]) : value.join(" ") } : null);
    });
    for (const button of this.root.querySelectorAll("[data-do]")) button.addEventListener("click", () => this.do(button.dataset.do));
    for (const button of this.root.querySelectorAll("[data-tab]")) button.addEventListener("click", () => this.tab(button.dataset.tab));
    this.sizes = new ResizeObserver(() => {
      const before = this.usual;
      this.measure();
      if (this.rowHeight === before) this.rowHeight = this.usual;
      this.drawAnew();
      this.text.draw();
    });
    this.sizes.observe(picture);
    this.sizes.observe(this.parts.text);
  }

  do(what) {
    ({
      next: () => this.step(1, this.hits), before: () => this.step(-1, this.hits),
      greater: () => this.zoom(1.35), smaller: () => this.zoom(1 / 1.35), all: () => this.zoom(0),
      legend: () => { this.choose(-1); this.tab("trail"); },
      everything: () => this.only(null),
    })[what]();
  }

  hover(row) {
    this.drawBand(this.parts.hover, row);
    const { peek } = this.parts;
    peek.hidden = row < 0 || this.rowHeight >= LEAST_WITH_WORDS;
    if (!peek.hidden) peek.replaceChildren(this.wordsOf(row));
  }

  /** On a narrow page one of the three parts is shown. */
  tab(name) {
    this.root.dataset.shown = name;
    for (const button of this.root.querySelectorAll("[data-tab]")) button.setAttribute("aria-selected", String(button.dataset.tab === name));
  }

  key(event) {
    if (event.ctrlKey || event.metaKey || event.altKey) return;
    const { model } = this;
    const call = this.chosen < 0 ? -1 : model.scene.call[this.chosen];
    const calls = () => model.calls.map((one) => one.place).filter((place) => model.rowOf(place) >= 0);
    const actions = {
      ArrowDown: () => this.stepRow(1), ArrowUp: () => this.stepRow(-1), j: () => this.stepRow(1), k: () => this.stepRow(-1),
      PageDown: () => this.stepRow(10), PageUp: () => this.stepRow(-10), Home: () => this.choose(model.rows[0] ?? -1), End: () => this.choose(model.rows[model.rows.length - 1] ?? -1),
      ArrowRight: () => call >= 0 && this.step(1, model.calls[call].events), ArrowLeft: () => call >= 0 && this.step(-1, model.calls[call].events),
      n: () => this.step(1, calls()), p: () => this.step(-1, calls()),
      o: () => this.chosen >= 0 && this.only({ kind: "lane", value: model.scene.lane[this.chosen] }),
      Enter: () => { this.tab("trail"); this.parts.trail.focus(); },
      "+": () => this.zoom(1.35), "=": () => this.zoom(1.35), "-": () => this.zoom(1 / 1.35), 0: () => this.zoom(0),
    };
    const action = actions[event.key.length === 1 ? event.key.toLowerCase() : event.key];
    if (!action) return;
    event.preventDefault();
    action();
  }

  /** Keys that count wherever in the picture one is. */
  anyKey(event) {
    const typing = event.target.matches("input, select, textarea");
    if (event.key === "Escape") {
      if (typing && this.parts.find.value) this.parts.find.value = "";
      if (this.model.filter) this.only(null);
      this.choose(-1);
      this.search(false);
      this.tab("picture");
      this.parts.picture.focus();
      event.preventDefault();
    } else if (event.key === "/" && !typing) {
      this.parts.find.focus();
      this.parts.find.select();
      event.preventDefault();
    }
  }

  focus() {
    this.parts.picture.focus({ preventScroll: true, focusVisible: false });
  }

  /** Ends what the picture watches, before another one takes its place. */
  leave() {
    this.sizes.disconnect();
  }
}

function withClass(element, names) {
  element.setAttribute("class", `${element.getAttribute("class")} ${names}`);
  return element;
}

const LINE = 20;
const LONGEST_LINE = 600;

/** The report's lines, of which only those in sight are in the page. */
class TextLines {
  constructor(root, model, choose) {
    Object.assign(this, { root, model, choosePlace: choose, marked: new Set(), line: -1, fault: -1 });
    this.room = make("div", { class: "room" });
    root.replaceChildren(this.room);
    const longest = model.lines.reduce((most, line) => Math.max(most, line.length), 0);
    this.room.style.height = `${model.lines.length * LINE + 12}px`;
    this.room.style.width = `calc(${Math.min(LONGEST_LINE + 40, longest) + 9}ch + 20px)`;
    let asked = false;
    root.addEventListener("scroll", () => {
      if (asked) return;
      asked = true;
      requestAnimationFrame(() => {
        asked = false;
        this.draw();
      });
    });
    root.addEventListener("click", (event) => {
      const line = Math.floor((event.clientY - this.room.getBoundingClientRect().top - 6) / LINE);
      if (line >= 0 && line < model.lines.length) this.go(line);
    });
    root.addEventListener("keydown", (event) => {
      const by = { ArrowDown: 1, ArrowUp: -1, j: 1, k: -1, PageDown: 10, PageUp: -10 }[event.key];
      if (by === undefined || event.ctrlKey || event.metaKey || event.altKey) return;
      event.preventDefault();
      this.go(Math.max(0, Math.min(model.lines.length - 1, this.line + by)));
    });
  }

  go(line) {
    this.choosePlace(this.model.places[line]);
    this.line = line;
    this.bring(line);
    this.draw();
  }

  choose(place, scroll) {
    this.marked = new Set(place < 0 ? [] : this.model.linesOf(this.model.scene.call[place]));
    this.line = place < 0 ? -1 : place + 1;
    if (scroll && this.line >= 0) this.bring(this.line);
    this.draw();
  }

  /** Marks a line as the first that is at fault. */
  markFault(line) {
    this.fault = line;
    this.bring(line);
    this.draw();
  }

  bring(line) {
    const y = line * LINE;
    const { scrollTop, clientHeight } = this.root;
    if (y < scrollTop + LINE) this.root.scrollTop = y - 2 * LINE;
    else if (y > scrollTop + clientHeight - 3 * LINE) this.root.scrollTop = y - clientHeight + 4 * LINE;
  }

  draw() {
    const { lines } = this.model;
    const first = Math.max(0, Math.floor(this.root.scrollTop / LINE) - 10);
    const last = Math.min(lines.length - 1, Math.ceil((this.root.scrollTop + this.root.clientHeight) / LINE) + 10);
    const shown = [];
    for (let line = first; line <= last; line++) {
      const kinds = ["line", this.marked.has(line) && "in", line === this.line && "chosen", line === this.fault && "fault", this.model.places[line] < 0 && "title"].filter(Boolean);
      const element = make("div", { class: kinds.join(" ") }, make("span", { class: "at" }, line + 1), cut(lines[line], LONGEST_LINE));
      element.style.top = `${line * LINE + 6}px`;
      shown.push(element);
    }
    this.room.replaceChildren(...shown);
  }
}
