// The page: opens a report by picker, drop or paste, and shows its ranges, replies, notes and checks.
"use strict";

const Page = (() => {
  const byId = (id) => document.getElementById(id);

  const element = (tag, name, text) => {
    const made = document.createElement(tag);
    if (name) made.className = name;
    if (text !== undefined) made.textContent = text;
    return made;
  };

  const tell = (words) => {
    byId("detail").textContent = words;
  };

  const summary = (report) => {
    const ends = {};
    for (const reply of report.replies) ends[reply.kind] = (ends[reply.kind] ?? 0) + 1;
    const places = report.places.byAttempt.size;
    const told = Object.entries(ends).map(([kind, count]) => `${count} ${kind}`).join(", ");
    return `${report.nodes} nodes, ${report.ranges.length} ranges, ${report.commands.length} commands, `
      + `${report.replies.length} attempts (${told || "none"}), ${places} places`;
  };

  const checkLine = ({ name, faults }) => {
    const line = element("li", faults.length ? "fault" : "holds", faults.length
      ? `${name}: no. ${faults.slice(0, 3).map((fault) => fault.words).join("; ")}`
      : `${name}: yes`);
    return line;
  };

  /** How much of the range's list a replica has applied, as a bar below the lane. */
  const bar = (replica, list) => {
    const meter = element("meter");
    meter.max = list.length || 1;
    meter.value = list.filter((item) => item.index <= replica.applied).length;
    meter.title = `applied ${replica.applied}`;
    return meter;
  };

  const replicaLine = (replica, list) => {
    if (replica.state === "none") return element("li", "none", `node ${replica.node}: none`);
    if (replica.state === "removed") {
      const gone = element("li", "removed", `node ${replica.node}: removed at ${replica.applied}`);
      gone.prepend(bar(replica, list));
      return gone;
    }
    const line = element("li", "live", `node ${replica.node}: applied ${replica.applied}, term ${replica.term}, `
      + `lease applied index ${replica.lai}, ${replica.rows.length} rows`);
    line.prepend(bar(replica, list));
    if (replica.rows.length) {
      const rows = element("details");
      rows.append(element("summary", "", "rows"),
        element("pre", "", replica.rows.map(([key, value]) => `${key} ${value}`).join("\n")));
      line.append(rows);
    }
    return line;
  };

  const rangeTitle = (range) => {
    const { holder, seq, expires } = range.lease;
    return `range ${range.id}: from ${range.start} to ${range.end}, level ${range.level}, `
      + `lease ${seq} of node ${holder} until tick ${expires}`;
  };

  const rangeSection = (range, choose, faulty) => {
    const section = element("section", "range");
    section.append(element("h2", "", rangeTitle(range)));
    const lane = Lanes.make(range.list, (item) => choose(range, item), faulty);
    section.append(range.list.length ? lane.element : element("p", "none", "no record"));
    const replicas = element("ul", "replicas");
    replicas.append(...range.replicas.map((replica) => replicaLine(replica, range.list)));
    section.append(replicas);
    return { section, lane, range };
  };

  const noteLine = (note) => {
    const button = element("button", "note", `line ${note.line}: ${note.text}`);
    button.type = "button";
    button.addEventListener("click", () => tell(`note of line ${note.line}: ${note.text}`));
    return button;
  };

  const faultyItems = (checks) => new Set(checks.flatMap((check) => check.faults)
    .flatMap((fault) => fault.places.map((place) => place.item)));

  /** Numbers of what is shown, for scripts that test the page. */
  const counted = (report, checks) => {
    const kinds = { write: 0, split: 0, lease: 0, pass: 0 };
    for (const range of report.ranges) for (const item of range.list) kinds[item.kind] += 1;
    const shown = { nodes: report.nodes, ranges: report.ranges.length, commands: report.commands.length,
      attempts: report.replies.length, notes: report.notes.length, ...kinds,
      faults: checks.reduce((sum, check) => sum + check.faults.length, 0) };
    Object.assign(document.body.dataset, Object.fromEntries(
      Object.entries(shown).map(([name, count]) => [name, String(count)])));
  };

  const show = (report) => {
    const checks = Checks.all(report);
    const faulty = faultyItems(checks);
    const commands = new Set(checks.flatMap((check) => check.faults).map((fault) => fault.command));
    let ranges = [];
    let replies = null;

    const mark = (place) => ranges.forEach(({ lane, range }) => (
      place && range.id === place.range ? lane.show(place.item) : lane.clear()));
    const chooseItem = (range, item) => {
      tell(`range ${range.id}, index ${item.index}: ${item.text}`);
      if (item.of) replies.show(item);
      if (item.kind === "split") byId(`range-${item.right}`)?.scrollIntoView({ block: "nearest" });
    };
    const chooseReply = (reply, place) => {
      tell(`${reply.client}.${reply.seq}, attempt ${reply.attempt}: ${reply.outcome}`
        + (place ? `; range ${place.range}, index ${place.item.index}: ${place.item.text}` : ""));
      mark(place);
    };

    ranges = report.ranges.map((range) => rangeSection(range, chooseItem, faulty));
    ranges.forEach(({ section, range }) => { section.id = `range-${range.id}`; });
    replies = Replies.make(report, chooseReply, commands);
    byId("summary").textContent = summary(report);
    byId("checks").replaceChildren(...checks.map(checkLine));
    byId("ranges").replaceChildren(...ranges.map(({ section }) => section));
    byId("replies").replaceChildren(replies.element);
    byId("notes").replaceChildren(...report.notes.map(noteLine));
    byId("report").hidden = false;
    ranges.forEach(({ lane }) => lane.draw());
    replies.draw();
    counted(report, checks);
    tell("Click an item, an attempt or a note; or go along a list with the arrow keys.");
  };

  const open = (text) => {
    try {
      show(Reading.read(text));
      byId("fault").textContent = "";
    } catch (error) {
      if (!(error instanceof Reading.NotReport)) throw error;
      byId("report").hidden = true;
      byId("fault").textContent = error.message;
    }
    document.body.dataset.ready = "yes";
  };

  const openFile = async (file) => open(await file.text());

  const start = () => {
    byId("file").addEventListener("change", (event) => {
      if (event.target.files.length) openFile(event.target.files[0]);
    });
    document.addEventListener("dragover", (event) => event.preventDefault());
    document.addEventListener("drop", (event) => {
      event.preventDefault();
      if (event.dataTransfer.files.length) openFile(event.dataTransfer.files[0]);
    });
    document.addEventListener("paste", (event) => {
      const text = event.clipboardData.getData("text");
      if (text) open(text);
    });
    if (typeof window.openedReport === "string") open(window.openedReport);
  };

  return { start };
})();

document.addEventListener("DOMContentLoaded", Page.start);
