// What test_page_rules.py asks the modules of the screens, beyond their own functions, which are global here.

export async function leftUntil(tag, seconds) {
  await chooseLanguage(tag);
  return say("clock.left", { span: span(seconds) });
}

/** What is shown of each tender of the lot L1 and of its security. */
export function outcomesOf(tenders, text, byPoints, status, forfeits, isWhole) {
  const shown = evaluationOf(text, isWhole).get("L1");
  return tenders.map((one) => [...outcomeOf(one, shown, byPoints), securityOf(one, shown, status, forfeits)]);
}

/** The lowest price and the points of each lot, and whether there are any. */
export function pointsIn(text) {
  return [...evaluationOf(text)].map(([, shown]) => [lowestOf(shown), [...shown.tenders.values()].map(pointsOf), hasPoints(shown)]);
}

export function searchPlan(list, data, caller, now) {
  const { order, opened, rest } = planOf(list, data, caller, now);
  return [order.map(({ notice }) => notice), opened.map(({ notice, lot, receipt }) => [notice, lot, receipt]), rest.map(({ notice }) => notice)];
}

/** The paths that are asked for again, by a firm that knows of these tenders. */
export async function askedAgain(plan, tenders) {
  const asked = [];
  globalThis.fetch = async (path) => {
    asked.push(path);
    return new Response('{"tenders":[]}');
  };
  Object.assign(session, { caller: { caller: "T1", key: "k" }, tenders });
  await lookFirst(plan);
  return asked;
}

/** The step and the tasks of a notice that is seen, its groups for all roles and for two alone, and the reserved amounts. */
export function stageSeen(seen, now) {
  const stage = stageOf({ ...seen, evaluation: seen.evaluation && evaluationOf(seen.evaluation, true) }, now);
  const told = ({ code, lot, count, until, since }) => [code, lot, count, until ?? since].filter((it) => it !== undefined);
  const isOf = (role) => (task) => rolesOf(task).length === 0 || rolesOf(task).includes(role);
  const groups = [groupOf(stage, now), ...["notices", "contracts"].map((role) => groupOf(stage, now, isOf(role)))];
  return { tasks: [stepOf(stage), ...tasksOf(stage, now).map(told)], groups: groups.join(" "), reserved: stage.lots.map((lot) => lot.reserved) };
}

export function noticesInOrder(entries, now) {
  return inOrder(entries.map(({ seen, ...entry }) => ({ ...entry, stage: seen && stageOf(seen, now) })), now).map(({ notice }) => notice);
}

/** The budget files that had the same amounts, and the lines that would be doubled. */
export function repeatsIn(file, lines, entries) {
  const { rows } = readBudget(new TextEncoder().encode(file));
  const { names, lines: doubled } = repeatsOf(rows, changesOf(rows, new Map(lines.map((one) => [one.line, one]))).changes, entries);
  return [names, doubled];
}

export function convertedFrom(file) {
  const found = converted(Uint8Array.from(file), new Map([["2000", "Parks"]]));
  return found && [new TextDecoder().decode(found.bytes), found.lines, found.changes.map(({ line, name, told }) => [line, name, told])];
}

/** The moment that a field means in a zone, and the field's content for that moment. */
export function inZone(name, text) {
  useZone(name);
  const found = localMilliseconds(text);
  const told = [momentText(found), localText(found)];
  useZone("");
  return told;
}

/** The warnings about a draft with these parts and this deadline. */
export function warningsAbout(parts, text, now) {
  const found = warningsOf({ ...newDraft(), ...parts, deadline: text && localMilliseconds(text), typed: text }, now);
  return found.map(({ code, value }) => (code === "cents" ? `${code} ${value}` : code));
}
