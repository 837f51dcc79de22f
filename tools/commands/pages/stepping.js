"use strict";

// so many actors have a button each
const MOST_ACTORS = 60;

/** Steps one by one: who is able to step has a button, and each step is a turn of a schedule. The case is the one that stood in the page when it began. */
class Stepping {
  constructor(page, root) {
    Object.assign(this, { page, root, turns: [] });
    this.end();
  }

  get isOn() {
    return !this.root.hidden;
  }

  begin() {
    this.policy = this.page.editors.policy.text;
    this.script = this.page.editors.script.text;
    return this.go([]);
  }

  end() {
    this.root.hidden = true;
  }

  /** The turns as a schedule: steps of one actor that follow one another are one turn. */
  schedule(turns) {
    const found = [];
    for (const actor of turns) {
      if (found.length > 0 && found.at(-1)[0] === actor) found.at(-1)[1]++;
      else found.push([actor, 1]);
    }
    return found;
  }

  /** Goes to where these turns lead. */
  async go(turns) {
    const told = await this.page.send("step", { policy: this.policy, script: withSchedule(this.script, this.schedule(turns)) });
    if (!told) return;
    if (told.status !== 0) {
      this.end();
      this.page.refused(told, "step");
    } else if (told.skipped) {
      this.page.tell("", make("p", {}, `${actorName(turns.at(-1))} has no step to take now.`));
    } else {
      this.turns = turns;
      this.show(told);
    }
  }

  show({ view, able }) {
    const { scene } = view;
    this.page.showSteps(view);
    const last = scene.lane.length - 1;
    const doing = (actor) => {
      const lane = scene.lanes.findIndex(([name]) => name === actor);
      const place = lane < 0 ? -1 : scene.lane.lastIndexOf(lane);
      return place < 0 ? "holds no notification" : `last: ${scene.words[place]}`;
    };
    const focused = this.root.contains(document.activeElement) ? document.activeElement.dataset.actor ?? document.activeElement.textContent : null;
    const buttons = able.slice(0, MOST_ACTORS).map((actor) => make("button", { type: "button", class: `able ${actor[0] === "t" ? "task" : "worker"}`, "data-actor": actor, title: doing(actor), onclick: () => this.go([...this.turns, actor]) }, make("b", {}, actorName(actor)), make("small", {}, doing(actor))));
    const did = this.turns.length === 0 ? "The container has started." : `${counted(this.turns.length, "step")}: ${laneName(this.laneOf(scene, last))} ${scene.words[last]}.`;
    this.root.replaceChildren(
      make("p", { role: "status" }, did, " ", able.length ? "Who steps next?" : "Nobody is able to step."),
      make("div", { class: "actors", role: "group", "aria-label": "Who is able to step" }, ...buttons, able.length > MOST_ACTORS ? make("span", {}, `and ${counted(able.length - MOST_ACTORS, "task")} more`) : null),
      make("div", { class: "tools" },
        make("button", { type: "button", class: "small", disabled: this.turns.length === 0, onclick: () => this.go(this.turns.slice(0, -1)) }, "Take back"),
        make("button", { type: "button", class: "small", disabled: this.turns.length === 0, onclick: () => this.keep() }, "Put this order into the script"),
        make("button", { type: "button", class: "small", onclick: () => this.end() }, "End")));
    this.root.hidden = false;
    const again = [...this.root.querySelectorAll("button:not(:disabled)")];
    (again.find((button) => focused !== null && (button.dataset.actor ?? button.textContent) === focused) ?? again[0]).focus({ preventScroll: true });
  }

  laneOf(scene, place) {
    const [name, kind] = scene.lanes[scene.lane[place]];
    return { name, kind };
  }

  /** The order becomes the script's schedule, and stepping is over. */
  keep() {
    this.end();
    this.page.takeScript(withSchedule(this.script, this.schedule(this.turns)));
    this.page.tell("good", make("p", {}, "The script's schedule has this order now. "), make("button", { type: "button", class: "small", onclick: () => this.page.ask("play") }, "Play it"));
  }
}
