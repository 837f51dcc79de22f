"use strict";

followScheme(document.querySelector(".scheme"));
const shown = show(document.getElementById("place"), JSON.parse(document.getElementById("view").textContent), { address: true });
const picture = shown instanceof Picture ? shown : shown.picture ?? null;
window.addEventListener("hashchange", () => {
  if (!shown.address) return;
  const place = picture.placeOfAddress();
  if (place !== picture.chosen) picture.choose(place, { quiet: true });
});
shown.focus();
