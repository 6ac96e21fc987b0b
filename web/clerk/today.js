// Today: the next task of each notice, in groups and by the kind of work, the most urgent first, from the office's list and
// the terms. Finished notices are left out, if the mirror knows them; the search finds them too.
import { tables } from "../common/data.js";
import { element, fresh, given, link, placeOf, title } from "../common/draw.js";
import { entriesOf } from "../common/filters.js";
import { button, jumpTo, note, steps } from "../common/forms.js";
import { growingTable } from "../common/many.js";
import { when } from "../common/money.js";
import { notices, officeNow, sentenceOf } from "../common/office.js";
import { say } from "../common/texts.js";
import { seeking } from "./finds.js";
import { isOwn, momentAndSpan, othersText, placeOfTask, stageOfOpened } from "./load.js";
import { GROUPS, inOrder, isDate, stageOfEntry, stepOf, tasksOf, workOf } from "./stage.js";

const OVER = ["complete", "unsuccessful", "cancelled"];
// This many opened notices are queried at once, those first whose validity ends first; this many rows of a table are shown at first.
const AT_ONCE = 20, ROWS = 10;
// The date that a row shows, by the kind of work: that of the task, or the end of the tenders' validity.
const DATES = { open: "deadline", wait: "deadline", sign: "stood", standstill: "stands", expired: "expired", examine: "valid", award: "valid", endlot: "valid",
  unsigned: "valid", binds: "valid" };
const asked = { count: AT_ONCE };

/** An opened notice with its stage, or with the fault that prevented it. */
function staged(entry) {
  return stageOfOpened(entry.notice, entry.releases).then((stage) => ({ ...entry, stage }), (fault) => ({ ...entry, fault }));
}

export async function drawToday(again) {
  const [list, data] = await Promise.all([notices(), tables("notices", "lots", "tenders")]);
  const entries = entriesOf(list, data, officeNow());
  const coming = entries.filter(({ state }) => state === "open" || state === "waiting");
  const opened = entries.filter((entry) => !coming.includes(entry) && !OVER.includes(entry.state))
    .sort((one, other) => Number(one.state === "running") - Number(other.state === "running") || (one.deadline < other.deadline ? -1 : 1));
  const found = await Promise.all(opened.slice(0, asked.count).map(staged));
  const shown = inOrder([...coming, ...found.filter(({ stage }) => !stage || stepOf(stage) !== "over")], officeNow(), isOwn);
  const left = Math.max(opened.length - asked.count, 0);
  const known = new Set(shown.map(({ notice }) => notice));
  const more = button(say("today.more", { count: left }), () => {
    asked.count += AT_ONCE;
    return again();
  }, "second");
  const begin = [say("see.list.empty"), say("today.begin", { budget: say("page.budget"), notice: say("page.new") })];
  const none = list.length === 0 ? begin : left === 0 ? [say("today.over"), say("today.over.find")] : [say("task.none")];
  const place = element("div", {}, shown.length > 0 ? groups(shown) : note("look", ...none));
  const rest = othersText(shown.filter(({ fault }) => !fault).flatMap((entry) => tasksOf(stageOfEntry(entry), officeNow())));
  const all = [...shown, ...entries.filter(({ notice }) => !known.has(notice))];
  return { title: say("page.today"), content: [title(say("page.today")), element("p", { class: "intro" }, say("today.intro")),
    list.length > 0 ? seeking(all, place) : null, rest ? element("p", { class: "quiet" }, rest) : null, place, left > 0 ? steps(more) : null] };
}

/** The groups that have notices, each with its heading; above them a button for each. */
function groups(shown) {
  const now = officeNow();
  const works = shown.map((entry) => (entry.fault ? ["week", { code: "fault" }, entry] : [...workOf(stageOfEntry(entry), now, isOwn), entry]));
  const parts = GROUPS.map((name) => [name, works.filter(([group]) => group === name)]).filter(([, some]) => some.length > 0)
    .map(([name, some]) => groupPart(name, some));
  return [parts.length > 1 ? element("div", { class: "jumps", role: "group", "aria-label": say("today.groups") }, parts.map(({ jump }) => jump)) : "",
    ...parts.map(({ made }) => made)];
}

/** A group: a table for each kind of work, which names it. Notices that only wait are folded. */
function groupPart(name, works) {
  const text = say("today.group", { group: say(`today.group.${name}`), count: works.length });
  const head = element("h2", { id: fresh("group"), tabindex: "-1" }, text);
  const codes = [...new Set(works.map(([, { code }]) => code))].sort((one, other) => Number(isDate(one)) - Number(isDate(other)));
  const made = codes.map((code) => workTable(code, works.filter(([, task]) => task.code === code)));
  const folded = name === "waiting" ? element("details", {}, element("summary", {}, say("today.fold")), made) : made;
  return { jump: jumpTo(head, text), made: element("section", { "aria-labelledby": head.id }, head, element("p", { class: "quiet" }, say(`today.what.${name}`)), folded) };
}

/** The notices with one kind of work, a line each. */
function workTable(code, works) {
  const hasDate = Object.hasOwn(DATES, code);
  const hasWork = !["wait", "none"].includes(code);
  const heads = ["see.notice", "column.title", ...(hasWork ? ["today.next"] : []), ...(hasDate ? [`today.date.${DATES[code]}`] : [])].map((name) => say(name));
  const dateOf = (task, entry) => momentAndSpan(DATES[code] === "valid" ? entry.stage.bindsUntil : task.until ?? task.since, when, 1);
  const rowOf = ([, task, entry]) => [link(entry.notice, placeOf("notice", entry.notice)), given(entry.title), ...(hasWork ? [workOfEntry(entry)] : []),
    ...(hasDate ? [dateOf(task, entry)] : [])];
  return growingTable(say("today.work", { work: say(`today.work.${code}`), count: works.length }), heads, works, rowOf,
    { kind: hasDate ? "figures tasks dated" : "figures tasks", first: ROWS });
}

/** The own tasks for a notice, in a few words that lead to their places. */
function workOfEntry(entry) {
  if (entry.fault) {
    return sentenceOf(entry.fault);
  }
  const own = tasksOf(stageOfEntry(entry), officeNow()).filter((task) => isOwn(task) && task.code !== "binds");
  return own.map((task, at) => {
    const { code, lot = "", count = 0, contract = "" } = task;
    return [at > 0 ? " · " : "", link(say(`today.short.${code}`, { lot, count, contract }), placeOfTask(entry.notice, task))];
  });
}
