"use strict";

const SVG = "http://www.w3.org/2000/svg";

/** An element of HTML or SVG; texts are put in as text, never as markup. */
function make(name, attributes = {}, ...children) {
  const svg = SVG_NAMES.has(name);
  const element = svg ? document.createElementNS(SVG, name) : document.createElement(name);
  for (const [key, value] of Object.entries(attributes)) {
    if (value === undefined || value === false) continue;
    if (key.startsWith("on")) element.addEventListener(key.slice(2), value);
    else element.setAttribute(key, value === true ? "" : value);
  }
  element.append(...children.filter((child) => child !== null && child !== undefined));
  return element;
}

const SVG_NAMES = new Set(["svg", "g", "path", "rect", "line", "circle", "text", "title"]);

const CIRCLE = "M-.85 0a.85 .85 0 1 0 1.7 0a.85 .85 0 1 0-1.7 0Z";
const DOT = "M-.5 0a.5 .5 0 1 0 1 0a.5 .5 0 1 0-1 0Z";
const DIAMOND = "M0-1.2L1.2 0L0 1.2L-1.2 0Z";
const SQUARE = "M-.65-.65H.65V.65H-.65Z";
const BOLT = "M.3-1.1L-.75 .2H-.05L-.3 1.1L.75-.2H.05Z";
const DEATH = ["M-.85-.85L.85 .85M.85-.85L-.85 .85", "heavy"];
const TAG_LEFT = "M-1.15 0L-.35-.8H.95V.8H-.35Z";
const CROSS = "M-.5-.5L.5 .5M.5-.5L-.5 .5";

// a path in a square from -1 to 1, and whether it is filled or drawn as a line
const SHAPES = {
  spawn: [CIRCLE, "line", "M-.45 0H.45M0-.45V.45"],
  poke: [DOT, "fill"],
  handler: [DOT, "line"],
  call: [CIRCLE, "fill"],
  native: ["M-.85-.7H.85L0 .85Z", "fill"],
  install: [SQUARE, "fill"],
  resume: [CIRCLE, "line"],
  kill: [BOLT, "fill"],
  deliver: [BOLT, "fill"],
  wait: ["M-.8-.5V0A.8 .8 0 0 0 .8 0V-.5", "open"],
  exit: ["M-1 0H1", "heavy"],
  recv: ["M-.7-.9L.95 0L-.7 .9Z", "fill"],
  "open-mem": [DOT, "line"],
  "open-base": [DOT, "line"],
  check: [CIRCLE, "line", "M-.42 .05L-.1 .38L.45-.32"],
  read: [SQUARE, "fill"],
  act: [DIAMOND, "fill"],
  plant: [DIAMOND, "fill"],
  "addfd-put": [TAG_LEFT, "fill"],
  "addfd-take": [DOT, "fill"],
  send: ["M.7-.9L-.95 0L.7 .9Z", "fill"],
  "let-go": ["M-.8 0H.8", "heavy"],
  skip: ["M-.3 0a.3 .3 0 1 0 .6 0a.3 .3 0 1 0-.6 0Z", "line"],
  close: ["M-1-.3H1M-1 .3H1", "heavy"],
};

// smaller marks are shapes alone
const LEAST_WITH_CROSS = 2.6;

/** The mark of an event: its shape, hollow and with a cross where the event failed. */
function markOf(step, bad, actor, x, y, size) {
  const [path, form, inner] = bad && step === "deliver" ? DEATH : SHAPES[step];
  if (size < LEAST_WITH_CROSS) return make("path", { d: path, class: `mark shape ${bad && form === "fill" ? "line" : form} ${actor} of-${step}${bad ? " failed" : ""}`, transform: `translate(${x} ${y}) scale(${size})` });
  const of = (d, kind) => make("path", { d, class: `shape ${kind}`, transform: `scale(${size})` });
  const parts = bad && form !== "heavy" && form !== "open" ? [of(path, "line"), of(CROSS, "cross")] : [of(path, form), inner && of(inner, "cross")];
  return make("g", { class: `mark ${actor} of-${step}${bad ? " failed" : ""}`, transform: `translate(${x} ${y})` }, ...parts.filter(Boolean));
}

/** A mark alone, for a legend. */
function markAlone(step, bad, actor) {
  return make("svg", { viewBox: "-10 -10 20 20", width: 20, height: 20, "aria-hidden": "true" }, markOf(step, bad, actor, 0, 0, 6.5));
}

/** An arrow between two lanes in one row; one that reaches nobody is broken and ends with a cross before it. */
function arrowOf(arrow, x1, x2, y, size) {
  const way = Math.sign(x2 - x1);
  const start = x1 + way * size * 1.2;
  const whole = x2 - way * size * 1.2;
  const end = arrow.lost ? start + (whole - start) * 0.62 : whole;
  const head = Math.min(7, size * 1.1);
  const parts = [];
  if (arrow.kind === "other") {
    parts.push(make("path", { d: wave(start, end, y, Math.min(3, size / 2)), class: "shaft" }));
    parts.push(make("path", { d: "M0-1.2L1.15 .85H-1.15Z", class: "warning", transform: `translate(${x2} ${y}) scale(${size})` }));
    parts.push(make("path", { d: "M0-.45V.2M0 .5V.52", class: "warning-sign", transform: `translate(${x2} ${y}) scale(${size})` }));
  } else {
    parts.push(make("path", { d: `M${start} ${y}H${end - (arrow.lost ? 0 : way * head * 0.8)}`, class: "shaft" }));
    if (arrow.lost) parts.push(make("path", { d: CROSS, class: "lost-end", transform: `translate(${end} ${y}) scale(${size * 1.3})` }));
    else parts.push(make("path", { d: `M${end} ${y}l${-way * head} ${-head * 0.6}v${head * 1.2}Z`, class: "tip" }));
  }
  return make("g", { class: `arrow ${arrow.kind}${arrow.lost ? " lost" : ""}` }, ...parts);
}

/** A wavy line from left to right or from right to left. */
function wave(from, to, y, height) {
  const steps = Math.max(2, 2 * Math.round(Math.abs(to - from) / 12));
  const step = (to - from) / steps;
  let path = `M${from} ${y}`;
  for (let at = 0; at < steps; at++) path += `q${step / 2} ${at % 2 ? height : -height} ${step} 0`;
  return path;
}
