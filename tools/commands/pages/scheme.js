"use strict";

/** Lets a button change between dark and light; without it the reader's own setting counts. */
function followScheme(button) {
  button.addEventListener("click", () => {
    const root = document.documentElement;
    const dark = root.dataset.scheme ? root.dataset.scheme === "dark" : matchMedia("(prefers-color-scheme: dark)").matches;
    root.dataset.scheme = dark ? "light" : "dark";
  });
}
