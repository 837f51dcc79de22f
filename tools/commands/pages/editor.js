"use strict";

const EDITOR_LINE = 20;
const EDITOR_TOP = 8;
const EDITOR_LEFT = 10;

/** A field for a text, with its lines numbered. One line can be marked, and others have notes, which stand below the text too. */
class Editor {
  constructor(root, title, changed) {
    this.count = make("span", {});
    this.field = make("textarea", { spellcheck: "false", wrap: "off", autocomplete: "off", autocapitalize: "off", "aria-label": title });
    this.gutter = make("div", { class: "gutter", "aria-hidden": "true" });
    this.key = make("span", { class: "key" });
    this.stripe = make("div", { class: "stripe", hidden: true }, this.key);
    this.list = make("ul", { class: "notes-of-lines", "aria-label": `What is likely a mistake in the ${title.toLowerCase()}`, hidden: true });
    this.marked = 0;
    this.noted = new Map();
    root.append(make("header", {}, title, this.count), make("div", { class: "field" }, this.gutter, this.stripe, this.field), this.list);
    this.field.addEventListener("scroll", () => this.draw());
    this.field.addEventListener("input", () => {
      this.mark(0);
      this.note([]);
      changed();
    });
    new ResizeObserver(() => this.draw()).observe(this.field);
    this.set("");
  }

  get text() {
    return this.field.value;
  }

  set(text) {
    this.field.value = text;
    this.field.scrollTop = 0;
    this.note([]);
    this.mark(0);
  }

  /** Puts notes on lines: each has a line, a column, words, and a cure that may be empty. */
  note(notes) {
    this.noted = new Map(notes.map(({ line, words }) => [line, words]));
    this.list.hidden = notes.length === 0;
    this.list.replaceChildren(...notes.map(({ line, column, words, cure }) => make("li", {}, make("button", { type: "button", class: "small", onclick: () => this.cursor(line, column - 1, column - 1) }, `Line ${line}`), make("span", {}, words, cure && make("em", {}, ` ${cure}`)))));
    this.draw();
  }

  /** Marks a line, counted from 1, or a part of it, and brings it into sight; 0 marks none. */
  mark(line, why = "", from = 0, to = 0) {
    this.marked = line;
    const letters = line && to > from ? [...this.text.split("\n")[line - 1] ?? ""] : [];
    this.before = letters.slice(0, from).join("");
    this.part = letters.slice(from, to).join("");
    this.key.replaceChildren(this.before, make("mark", {}, this.part));
    if (line) {
      this.field.setAttribute("aria-invalid", "true");
      this.field.title = why;
      this.sight(line);
    } else {
      this.field.removeAttribute("aria-invalid");
      this.field.removeAttribute("title");
    }
    this.draw();
  }

  /** Puts the cursor at what is marked. */
  go() {
    this.cursor(this.marked, this.before.length, this.before.length + this.part.length);
  }

  /** Puts the cursor into a line, counted from 1, and selects from one of its places to another. */
  cursor(line, from, to) {
    const before = this.text.split("\n").slice(0, line - 1).join("\n").length + (line > 1 ? 1 : 0);
    this.field.focus();
    this.field.setSelectionRange(before + from, before + to);
    this.sight(line);
  }

  /** Brings a line into sight. */
  sight(line) {
    const y = (line - 1) * EDITOR_LINE;
    if (y < this.field.scrollTop || y > this.field.scrollTop + this.field.clientHeight - 3 * EDITOR_LINE) this.field.scrollTop = Math.max(0, y - this.field.clientHeight / 2);
  }

  /** Numbers the lines that are in sight. */
  draw() {
    let lines = 1;
    for (let at = this.text.indexOf("\n"); at >= 0; at = this.text.indexOf("\n", at + 1)) lines++;
    const { scrollTop, clientHeight } = this.field;
    const first = Math.max(0, Math.floor((scrollTop - EDITOR_TOP) / EDITOR_LINE));
    const last = Math.min(lines - 1, Math.ceil((scrollTop + clientHeight) / EDITOR_LINE));
    const numbers = [];
    for (let line = first; line <= last; line++) {
      const number = make("span", { class: line + 1 === this.marked ? "fault" : this.noted.has(line + 1) && "noted" }, line + 1);
      number.style.top = `${EDITOR_TOP + line * EDITOR_LINE - scrollTop}px`;
      numbers.push(number);
    }
    this.gutter.replaceChildren(...numbers);
    this.stripe.hidden = this.marked === 0;
    this.stripe.style.top = `${EDITOR_TOP + (this.marked - 1) * EDITOR_LINE - scrollTop}px`;
    this.key.style.left = `${EDITOR_LEFT - this.field.scrollLeft}px`;
    const whole = lines - (this.text.endsWith("\n") || this.text === "" ? 1 : 0);
    this.count.textContent = `${whole.toLocaleString("en")} line${whole === 1 ? "" : "s"}`;
  }
}
