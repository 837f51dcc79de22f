"use strict";

/** Shows a view of an output in an element: a picture of a report, those of a pod, or the outcomes of an exploration. What is shown has `leave` and `focus`. */
function show(root, view, options = {}) {
  if (view.kind === "exploration") return new Exploration(root, view, options);
  return view.kind === "pod" ? new Pod(root, view) : new Picture(root, view.scene, options);
}

/** The pictures of a pod's containers, of which one is shown. */
class Pod {
  constructor(root, view) {
    this.view = view;
    this.address = false;
    this.room = make("div", { class: "container-room" });
    this.buttons = view.scenes.map((scene, number) => make("button", { type: "button", role: "tab", "aria-selected": "false", onclick: () => this.choose(number) }, `Container ${number}`, make("small", {}, counted(scene.summary.events, "event"))));
    root.replaceChildren(make("section", { class: "pod", "aria-label": "Containers of a pod" }, make("div", { class: "containers", role: "tablist", "aria-label": "Containers" }, ...this.buttons, make("span", { class: "sums" }, `together: ${view.sums.replaceAll("=", " ")}`)), this.room));
    this.picture = null;
    this.choose(0);
  }

  choose(number) {
    this.picture?.leave();
    this.buttons.forEach((button, at) => button.setAttribute("aria-selected", String(at === number)));
    this.picture = new Picture(this.room, this.view.scenes[number]);
  }

  focus() {
    this.picture.focus();
  }

  leave() {
    this.picture.leave();
  }
}
