// The reply table: one row a command, its attempts joined, and only the rows that are in view.
"use strict";

const Replies = (() => {
  const ROW = 30;

  const cell = (tag, text, name) => {
    const element = document.createElement(tag);
    element.textContent = text;
    if (name) element.className = name;
    return element;
  };

  const attemptButton = (reply, place, choose) => {
    const button = cell("button", `${reply.attempt}: ${reply.outcome}`, `attempt ${reply.kind}`);
    button.type = "button";
    button.title = place ? `place ${place.item.index} of range ${place.range}` : "no place";
    button.addEventListener("click", () => choose(reply, place));
    return button;
  };

  const row = (command, report, choose, faulty) => {
    const element = document.createElement("div");
    element.className = faulty.has(Reading.commandKey(command)) ? "row fault" : "row";
    const name = cell("span", `${command.client}.${command.seq}`, "command");
    name.style.borderLeftColor = Lanes.clientColour(command.client);
    element.append(name);
    for (const reply of command.attempts) {
      const place = report.places.byAttempt.get(Reading.attemptKey(reply));
      element.append(attemptButton(reply, place, choose));
    }
    return element;
  };

  /** A table of all commands of a report. `choose(reply, place)` is called where an attempt is clicked. */
  const make = (report, choose, faulty) => {
    const scroller = document.createElement("div");
    scroller.className = "replies";
    scroller.tabIndex = 0;
    scroller.setAttribute("aria-label", `${report.commands.length} commands`);
    const space = document.createElement("div");
    space.style.height = `${report.commands.length * ROW}px`;
    space.className = "rows";
    scroller.append(space);
    let from = -1;

    const draw = () => {
      const first = Math.max(0, Math.floor(scroller.scrollTop / ROW) - 5);
      if (first === from) return;
      from = first;
      const last = Math.min(report.commands.length, first + Math.ceil((scroller.clientHeight || 400) / ROW) + 10);
      const rows = [];
      for (let place = first; place < last; place += 1) {
        const element = row(report.commands[place], report, choose, faulty);
        element.style.top = `${place * ROW}px`;
        rows.push(element);
      }
      space.replaceChildren(...rows);
    };

    const show = (item) => {
      const key = Reading.commandKey(item.of);
      const place = report.commands.findIndex((command) => Reading.commandKey(command) === key);
      if (place < 0) return;
      scroller.scrollTop = Math.max(0, place * ROW - 60);
      from = -1;
      draw();
    };

    scroller.addEventListener("scroll", () => requestAnimationFrame(draw));
    return { element: scroller, draw, show };
  };

  return { make };
})();
