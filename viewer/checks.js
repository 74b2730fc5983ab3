// What the page tests of a report. A convenience, no proof: the theorem is the program's.
"use strict";

const Checks = (() => {
  const { attemptKey, commandKey } = typeof Reading !== "undefined" ? Reading : require("./reading.js");

  const twice = (report) => {
    const faults = [];
    for (const [command, places] of report.places.byCommand) {
      if (places.length > 1) {
        faults.push({ command, words: `command ${command} has ${places.length} places`, places });
      }
    }
    return faults;
  };

  /** A reply `ok R` without a place of its attempt that made R. */
  const unplaced = (report) => {
    const faults = [];
    for (const reply of report.replies) {
      if (reply.kind !== "ok") continue;
      const place = report.places.byAttempt.get(attemptKey(reply));
      if (!place) {
        faults.push({ command: commandKey(reply), words: `${attemptKey(reply)} is ok and has no place`, places: [] });
      } else if (reply.outcome !== `ok ${place.item.reply}`) {
        faults.push({
          command: commandKey(reply),
          words: `${attemptKey(reply)} was told ${reply.outcome}, its place says ${place.item.reply}`,
          places: [place],
        });
      }
    }
    return faults;
  };

  const all = (report) => [
    { name: "each command has at most one place", faults: twice(report) },
    { name: "each ok has its place", faults: unplaced(report) },
  ];

  return { all };
})();

if (typeof module !== "undefined") module.exports = Checks;
