"use strict";
// The panel with questions: an exercise that is drawn from a seed, answered by the reader and then shown;
// and the questions of the lessons, each with its answer apart.
(function (Player) {
  const { make, list, number, button, plural, keepKeys, whenSeen } = Player.panelParts;
  const box = document.getElementById("questions");
  const MOST_SEED = 4294967295;
  const MOST_SHEETS = 40;
  const FIRST = { seed: 1, pages: 5, slots: 3, references: 12 };
  const state = { numbers: { ...FIRST }, exercise: null, grid: null, questions: [], asked: 0 };

  // ---- the exercise ----

  const fields = Object.fromEntries([["seed", "Seed"], ["pages", "Pages"], ["slots", "Slots"],
    ["references", "References"]].map(([name, title]) => [name, number(title, FIRST[name],
    Player.EXERCISE_BOUNDS[name], (value) => take({ [name]: value }))]));
  const next = button("Next exercise", () => take({ seed: seedAfter(1) }));
  const rules = make("p", "rules");
  const place = make("div", "plain-place");
  const asked = make("ol", "asked");
  const said = make("p", "said");
  said.setAttribute("role", "status");
  const check = make("button", "", "Check my answers");
  const show = button("Show the answers", () => solve(false));
  const sheets = number("Sheets, from this seed on", 1, [1, MOST_SHEETS], () => {});
  const form = make("form", "", asked, said, make("div", "panel-moves", check, show,
    button("Open it in the page", openIt)),
  make("div", "panel-moves controls", sheets.box, button("Print the sheet", () => print(false)),
    button("Print the solution", () => print(true))));
  form.noValidate = true;
  form.addEventListener("submit", (event) => {
    event.preventDefault();
    solve(true);
  });
  const drawing = make("details", "", make("summary", "", "How it is drawn"), make("p", "note", "The numbers " +
    "are drawn as the program's make draws: by a linear congruential generator of 64 bits. Beginning with the " +
    "seed, each state is the one before by 6364136223846793005, and 1442695040888963407 more, modulo 2^64; a draw " +
    "is its upper half. A reference takes two draws: the first, modulo the pages, is its page, or the next page " +
    "if it would be the same as before; by the second, modulo 3, it is a write if that is 0. The same four " +
    "numbers give the same exercise everywhere. The answers are those of the program's run of it."));
  const exercisePart = make("div", "", make("h3", "", "An exercise"), make("div", "controls",
    ...Object.values(fields).map((field) => field.box), next), rules, place, form, drawing);

  function take(change) {
    Object.assign(state.numbers, change);
    Object.entries(fields).forEach(([name, { input }]) => { input.value = state.numbers[name]; });
    draw();
  }

  // The seed so many further, which begins anew after the last one.
  function seedAfter(steps) {
    return (state.numbers.seed + steps) % (MOST_SEED + 1);
  }

  // An exercise with the program's run of it, and what is asked.
  async function runExercise(numbers) {
    const exercise = Player.exerciseOf(numbers);
    const { output } = await Session.program(["serial"], exercise.trace);
    const grid = Player.gridOf(Player.makeRun(output, exercise.trace), 0, false);
    return { exercise, grid, questions: Player.questionsOf(exercise, grid) };
  }

  async function draw() {
    const asked = state.asked += 1;
    try {
      const drawn = await runExercise({ ...state.numbers });
      if (asked === state.asked) {
        Object.assign(state, drawn);
        ask();
      }
    } catch (error) {
      said.textContent = `The exercise can't be run: ${error.message}.`;
    }
  }

  function questionNode(question, i) {
    const input = Object.assign(make("input"), { type: "text", inputMode: question.list ? "text" : "numeric",
      autocomplete: "off", size: question.list ? 14 : 4, placeholder: question.list ? "2 4, or none" : "",
      id: `answer-${i}` });
    const label = Object.assign(make("label", "", question.text, question.list
      ? make("span", "unseen", " Numbers, or none") : ""), { htmlFor: input.id });
    return make("li", "", label, make("span", "given", input, make("span", "verdict")));
  }

  function ask() {
    rules.textContent = Player.exerciseRules(state.exercise);
    place.replaceChildren(Player.plainGrid(state.grid, true, "The references of the exercise"));
    asked.replaceChildren(...state.questions.map(questionNode));
    said.textContent = "";
  }

  // Shows the grid and the answers; with `judged` what the reader wrote is judged.
  function solve(judged) {
    let right = 0;
    state.questions.forEach((question, i) => {
      const item = asked.children[i];
      const verdict = item.querySelector(".verdict");
      const found = Player.readAnswer(item.querySelector("input").value);
      const given = judged && item.querySelector("input").value.trim() !== "";
      const good = given && Player.isRight(question, found);
      right += good ? 1 : 0;
      item.classList.toggle("right", good);
      item.classList.toggle("wrong", given && !good);
      verdict.textContent = good ? "right" : `${given ? "no: " : ""}${Player.answerText(question.answer)}`;
    });
    place.replaceChildren(Player.plainGrid(state.grid, false, "The references, and what the slots hold after each"));
    said.textContent = judged ? `${right} of ${plural(state.questions.length, "answer")} right.`
      : "The answers are shown.";
  }

  // Puts the exercise's trace into the editor, and shows its grid.
  function openIt() {
    Session.write(state.exercise.trace);
    document.getElementById("grid").scrollIntoView({ block: "center" });
  }

  async function print(solved) {
    if (!sheets.input.reportValidity()) {
      return;
    }
    const made = [];
    for (let i = 0; i < Number(sheets.input.value); i += 1) {
      const { exercise, grid, questions } = await runExercise({ ...state.numbers, seed: seedAfter(i) });
      made.push(Player.exerciseSheet(exercise, grid, questions, solved));
    }
    Player.printSheets(made);
  }

  // ---- the lessons' questions ----

  const lesson = list("Lesson", (value) => showLesson(Number(value)));
  const items = make("ol", "lesson-items");
  const open = make("a", "", "Open its run");
  const lessonPart = make("div", "", make("h3", "", "The questions of the lessons"),
    make("div", "controls", lesson.box, open), items);
  box.append(make("div", "questions-wrap", make("div", "questions-parts", exercisePart, lessonPart)));

  // A text with its code, and without its links' addresses.
  function inline(text) {
    return text.replace(/\[([^\]]*)\]\([^)]*\)/g, "$1").split("`").map((part, i) =>
      (i % 2 ? make("code", "", part) : part));
  }

  function blockNodes(blocks) {
    return blocks.map((block) => (block.code === undefined ? make("p", "", ...inline(block))
      : make("pre", "", block.code)));
  }

  function showLesson(chosen) {
    const found = Player.LESSONS.find((one) => one.number === chosen);
    items.replaceChildren(...found.items.map(({ question, answer }) => make("li", "", ...blockNodes(question),
      make("details", "", make("summary", "", "Answer"), ...blockNodes(answer)))));
    const example = Player.EXAMPLES.find((one) => one.title.startsWith(`${chosen}. `));
    open.hidden = !example;
    open.href = example ? `#example=${example.name}` : "#";
  }

  lesson.fill(Player.LESSONS.map((one) => [String(one.number), `${one.number}. ${one.title}`]), "1");
  showLesson(1);
  keepKeys(box);
  whenSeen(box, draw);
})(globalThis.Player = globalThis.Player || {});
