"use strict";
// Exercises on paper, a page for each: the sheets with the questions, or the solutions. They stand in the
// document until they are printed, and are seen on paper alone.
(function (Player) {
  const { make } = Player.panelParts;
  const SHEET = "print-sheet";

  function numbersText({ seed, pages, slots, references }) {
    return `Seed ${seed}, ${pages} pages, ${slots} slots, ${references.length} references. The same four ` +
      "numbers give this exercise again.";
  }

  function questionNode(question, solved) {
    return make("li", "", question.text, solved
      ? make("b", "answer", Player.answerText(question.answer)) : make("span", "line"));
  }

  // The sheet of an exercise, blank or solved, as a node.
  Player.exerciseSheet = function (exercise, grid, questions, solved) {
    return make("section", "sheet",
      make("h1", "", `Page replacement, exercise ${exercise.seed}${solved ? ": solution" : ""}`),
      solved ? "" : make("p", "fill", make("span", "", "Name"), make("span", "", "Date")),
      make("p", "", Player.exerciseRules(exercise)),
      make("p", "", solved ? "A page that came in is framed, a hit is ringed, and a page that left is struck " +
        "through. Below a fault stands where its page was: in the section, or on the free or the modified list."
        : "Write down what each slot holds after each reference, and whether it is a hit or a fault."),
      Player.plainGrid(grid, !solved, "References, and what the slots hold after each"),
      make("ol", "", ...questions.map((question) => questionNode(question, solved))),
      make("p", "seed", numbersText(exercise)));
  };

  function clear() {
    const sheets = document.getElementById(SHEET);
    if (sheets) {
      sheets.remove();
    }
    delete document.body.dataset.sheet;
  }

  Player.printSheets = function (sheets) {
    clear();
    document.body.append(Object.assign(make("div", "", ...sheets), { id: SHEET }));
    document.body.dataset.sheet = "printed";
    window.addEventListener("afterprint", clear, { once: true });
    window.print();
  };
})(globalThis.Player = globalThis.Player || {});
