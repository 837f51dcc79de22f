"use strict";

/** A scene with what is looked up in it: which rows are shown, which events are of a call, and what crosses some rows. */
class Model {
  constructor(scene) {
    this.scene = scene;
    this.count = scene.lane.length;
    this.lines = scene.lines;
    this.lanes = scene.lanes.map(([name, kind, first, last, ended, reaped, pid, column], number) => ({ number, name, kind, first, last, ended, reaped, pid, column }));
    this.calls = scene.calls.map(([place, lane, name, pid, verdict, outcome, end, args, sessions], number) => ({
      number, place, lane, name, pid, verdict, outcome, end: end ?? this.count - 1, args, sessions, events: [],
    }));
    this.sessions = scene.sessions.map(([place, lane, call, end, id, rule, verdict, answer, reply, copy], number) => ({
      number, place, lane, call, end, id, rule, verdict, answer, reply, copy,
    }));
    scene.call.forEach((call, place) => call >= 0 && this.calls[call].events.push(place));
    this.addCauses(scene.causes);
    this.arrows = byPlace(scene.arrows.map(([kind, place, source, target, lost]) => ({ kind, place, source, target, lost: lost === 1 })));
    this.tags = byPlace(scene.tags.map(([place, kind, text, rule]) => ({ place, kind, text, rule })));
    this.rules = [...new Set(this.sessions.map((session) => session.rule))].filter((rule) => rule !== "-").sort();
    this.spans = this.allSpans();
    this.blocks = blocksOf(this.spans);
    this.places = this.findLines();
    this.only(null);
  }

  /** Steps of others that have brought something to a call belong to its trail. */
  addCauses(causes) {
    this.causes = this.calls.map(() => new Set());
    for (const [place, call] of causes) if (this.scene.call[place] !== call) this.causes[call].add(place);
    this.calls.forEach((call, number) => {
      call.trail = this.causes[number].size ? [...call.events, ...this.causes[number]].sort((one, other) => one - other) : call.events;
    });
  }

  /** Whether an event is of a call, or has brought something to it. */
  concerns(place, call) {
    return call >= 0 && (this.scene.call[place] === call || this.causes[call].has(place));
  }

  /** What goes over several rows: lanes, calls, sessions, and the two checks of a session. */
  allSpans() {
    const of = (kind, from, to, lane, call, item) => ({ kind, from, to, lane, call, item });
    return [
      ...this.lanes.map((lane) => of("lane", lane.first, lane.last, lane.number, -1, lane)),
      ...this.calls.map((call) => of("call", call.place, call.end, call.lane, call.number, call)),
      ...this.sessions.map((session) => of("session", session.place, session.end, session.lane, session.call, session)),
      ...this.scene.brackets.map(([lane, first, last, good, call]) => of("bracket", first, last, lane, call, { good: good === 1 })),
    ];
  }

  /** For each line of the report the event that it is of, or -1. */
  findLines() {
    const calls = this.count + 2;
    const audit = calls + this.calls.length + 1;
    this.lineOfCall = calls;
    this.lineOfSession = audit;
    const places = new Int32Array(this.lines.length).fill(-1);
    for (let place = 0; place < this.count; place++) places[place + 1] = place;
    this.calls.forEach((call, at) => (places[calls + at] = call.place));
    this.sessions.forEach((session, at) => (places[audit + at] = session.place));
    return places;
  }

  /** The lines, beside its own, that tell of the event's call. */
  linesOf(call) {
    return call < 0 ? [] : [...this.calls[call].trail.map((place) => place + 1), this.lineOfCall + call, ...this.calls[call].sessions.map((session) => this.lineOfSession + session)];
  }

  /** Shows all rows, or only those of one lane, rule or call. */
  only(filter) {
    this.filter = filter;
    this.chosenCalls = filter && new Set(this.callsOf(filter));
    const all = Array.from({ length: this.count }, (_, place) => place);
    const lane = filter && filter.kind === "lane" ? filter.value : -1;
    const caused = new Set(filter && [...this.chosenCalls].flatMap((call) => [...this.causes[call]]));
    this.rows = filter ? all.filter((place) => this.scene.lane[place] === lane || this.chosenCalls.has(this.scene.call[place]) || caused.has(place)) : all;
    const lanes = new Set(this.rows.map((place) => this.scene.lane[place]));
    const columns = [...new Set([...lanes].map((number) => this.lanes[number].column))].sort((one, other) => one - other);
    this.columns = new Map(columns.map((column, at) => [column, at]));
    this.shownLanes = filter ? lanes : null;
  }

  callsOf({ kind, value }) {
    if (kind === "call") return [value];
    const touches = kind === "lane" ? (session) => session.lane === value : (session) => session.rule === value;
    const own = kind === "lane" ? this.calls.filter((call) => call.lane === value).map((call) => call.number) : [];
    return [...own, ...this.sessions.filter(touches).map((session) => session.call)].filter((call) => call >= 0);
  }

  /** The first row whose event is at this place or behind it. */
  rowFrom(place) {
    let low = 0;
    let high = this.rows.length;
    while (low < high) {
      const middle = (low + high) >> 1;
      if (this.rows[middle] < place) low = middle + 1;
      else high = middle;
    }
    return low;
  }

  /** The row of an event, or -1 where it isn't shown. */
  rowOf(place) {
    const row = this.rowFrom(place);
    return this.rows[row] === place ? row : -1;
  }

  isShown(span) {
    if (!this.filter) return true;
    return span.kind === "lane" ? this.shownLanes.has(span.lane) : this.chosenCalls.has(span.call) && this.shownLanes.has(span.lane);
  }

  /** The spans that cross some of the places. */
  crossing(from, to) {
    const found = new Set();
    for (let block = Math.floor(from / BLOCK); block <= Math.floor(to / BLOCK); block++) {
      for (const span of this.blocks[block] || []) if (span.from <= to && span.to >= from && this.isShown(span)) found.add(span);
    }
    return found;
  }

  /** The places whose line or words have the text, without regard to case. */
  search(text) {
    const wanted = text.toLowerCase();
    if (!wanted) return [];
    const { words } = this.scene;
    return this.rows.filter((place) => this.lines[place + 1].toLowerCase().includes(wanted) || words[place].toLowerCase().includes(wanted)
      || (this.tags.get(place) || []).some((tag) => tag.text.toLowerCase().includes(wanted)));
  }
}

const BLOCK = 512;

function byPlace(items) {
  const found = new Map();
  for (const item of items) {
    if (!found.has(item.place)) found.set(item.place, []);
    found.get(item.place).push(item);
  }
  return found;
}

function blocksOf(spans) {
  const blocks = [];
  for (const span of spans) {
    for (let block = Math.floor(span.from / BLOCK); block <= Math.floor(span.to / BLOCK); block++) (blocks[block] ||= []).push(span);
  }
  return blocks;
}
