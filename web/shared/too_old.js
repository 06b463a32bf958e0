// Tells somebody whose browser is too old for the pages, which are scripts of 2024. This one is written so that a
// browser of any age reads it; docs/GUIDE.md, section 5, names the versions.
(function () {
  "use strict";
  var isNew = typeof Map.groupBy === "function" && typeof Object.hasOwn === "function" &&
    typeof Array.prototype.findLast === "function" && typeof AbortSignal !== "undefined" &&
    typeof AbortSignal.timeout === "function" && window.CSS && CSS.supports("selector(:has(a))");
  var place = document.getElementById("too-old");
  if (isNew) return;
  place.textContent = "This browser is too old for this page. It takes Chromium, Chrome or Edge 117, Firefox 121, " +
    "Safari 17.4, or a later version.";
  place.hidden = false;
  place.removeAttribute("hidden");
})();
