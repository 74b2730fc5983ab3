// Reads a report of `rp run --form json` into what the page draws. No network, no dependency.
"use strict";

const Reading = (() => {
  /** Why a text is no report, in words for the page. */
  class NotReport extends Error {}

  const need = (condition, words) => {
    if (!condition) throw new NotReport(words);
  };

  const isCount = (value) => Number.isInteger(value) && value >= 0;

  /** "2.1" and "3" as the attempt 3 of command 1 of client 2. */
  const attemptOf = (command, attempt) => {
    const [client, seq] = command.split(".").map(Number);
    return { client, seq, attempt: Number(attempt) };
  };

  const commandKey = ({ client, seq }) => `${client}.${seq}`;
  const attemptKey = ({ client, seq, attempt }) => `${client}.${seq} ${attempt}`;

  /** The words of a text, where a text value (an apostrophe and what follows) may hold no space. */
  const writeItem = (index, text) => {
    const found = /^write (\d+\.\d+) (\d+) (.*) under (\d+) ok (.*)$/.exec(text);
    need(found, `no item: ${text}`);
    const [, command, attempt, request, under, reply] = found;
    return { index, text, kind: "write", of: attemptOf(command, attempt), request, under: Number(under), reply };
  };

  const splitItem = (index, text) => {
    const found = /^split (\d+\.\d+) (\d+) (\S+) right (\d+) under (\d+)$/.exec(text);
    need(found, `no item: ${text}`);
    const [, command, attempt, key, right, under] = found;
    return {
      index, text, kind: "split", of: attemptOf(command, attempt), request: `split ${key}`,
      key, right: Number(right), under: Number(under), reply: `range ${right}`,
    };
  };

  const leaseItem = (index, text) => {
    const found = /^lease (\d+) (\d+) (\d+)$/.exec(text);
    need(found, `no item: ${text}`);
    const [holder, seq, expires] = found.slice(1).map(Number);
    return { index, text, kind: "lease", holder, seq, expires };
  };

  /** A record of a range's list: an item that took effect, or an entry that was passed over. */
  const record = ({ index, text }) => {
    need(isCount(index) && typeof text === "string", "a record without index and text");
    if (text.startsWith("write ")) return writeItem(index, text);
    if (text.startsWith("split ")) return splitItem(index, text);
    if (text.startsWith("lease ")) return leaseItem(index, text);
    need(text.startsWith("pass "), `no record: ${text}`);
    return { index, text, kind: "pass", why: text.slice(5) };
  };

  const replica = (value) => {
    need(["live", "removed", "none"].includes(value.state), "a replica without a state");
    return value;
  };

  const range = (value) => {
    need(Array.isArray(value.list) && Array.isArray(value.replicas), "a range without list and replicas");
    const [holder, seq, expires] = value.lease;
    return {
      id: value.id, start: value.start, end: value.end, level: value.level,
      lease: { holder, seq, expires }, list: value.list.map(record), replicas: value.replicas.map(replica),
    };
  };

  const outcomeKind = (outcome) => outcome.split(" ")[0];

  const reply = (value) => {
    need(typeof value.outcome === "string", "a reply without an outcome");
    return { ...value, kind: outcomeKind(value.outcome) };
  };

  /** The places of commands over all ranges, by attempt and by command. */
  const placesOf = (ranges) => {
    const byAttempt = new Map();
    const byCommand = new Map();
    for (const { id, list } of ranges) {
      for (const item of list) {
        if (!item.of) continue;
        const place = { range: id, item };
        byAttempt.set(attemptKey(item.of), place);
        const key = commandKey(item.of);
        byCommand.set(key, [...(byCommand.get(key) ?? []), place]);
      }
    }
    return { byAttempt, byCommand };
  };

  /** Attempts of one command, joined in order. */
  const commandsOf = (replies) => {
    const commands = new Map();
    for (const one of replies) {
      const key = commandKey(one);
      if (!commands.has(key)) commands.set(key, { client: one.client, seq: one.seq, attempts: [] });
      commands.get(key).attempts.push(one);
    }
    return [...commands.values()];
  };

  /** The report that a text holds. Throws NotReport where it holds none. */
  const read = (text) => {
    let value;
    try {
      value = JSON.parse(text);
    } catch (error) {
      throw new NotReport(`this is no JSON: ${error.message}`);
    }
    need(value && Array.isArray(value.ranges) && Array.isArray(value.replies) && Array.isArray(value.notes),
      "this JSON is no report: it has no ranges, replies and notes");
    const ranges = value.ranges.map(range);
    const replies = value.replies.map(reply);
    return { nodes: value.nodes, notes: value.notes, ranges, replies,
      commands: commandsOf(replies), places: placesOf(ranges) };
  };

  return { NotReport, read, attemptKey, commandKey };
})();

if (typeof module !== "undefined") module.exports = Reading;
