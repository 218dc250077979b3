"use strict";
// Colours, size of type and page numbers: set before anything is drawn, kept in this browser.
(function () {
  const root = document.documentElement;
  const dark = matchMedia("(prefers-color-scheme: dark)");
  const THEMES = ["system", "light", "dark"];

  // What the browser keeps may be refused to a page; then the wish holds for this page alone.
  function kept(name) {
    try {
      return localStorage.getItem(`neqysbar.${name}`) || "";
    } catch {
      return "";
    }
  }

  function keep(name, value) {
    try {
      localStorage.setItem(`neqysbar.${name}`, value);
    } catch {
      // it isn't kept then
    }
  }

  const Look = {
    theme: THEMES.includes(kept("theme")) ? kept("theme") : "system",
    large: kept("large") === "yes",
    numbers: kept("numbers") !== "no",

    apply() {
      const shown = Look.theme === "system" ? (dark.matches ? "dark" : "light") : Look.theme;
      root.dataset.theme = shown;
      root.dataset.size = Look.large ? "large" : "usual";
    },

    set(name, value) {
      Look[name] = value;
      keep(name, value === true ? "yes" : value === false ? "no" : value);
      Look.apply();
    },

    nextTheme() {
      Look.set("theme", THEMES[(THEMES.indexOf(Look.theme) + 1) % THEMES.length]);
    },

    onSystemChange(call) {
      dark.addEventListener("change", () => {
        Look.apply();
        call();
      });
    },
  };

  Look.apply();
  globalThis.Look = Look;
})();
