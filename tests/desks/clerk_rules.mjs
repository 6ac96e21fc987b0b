// What test_clerk_rules.py asks the modules of the clerk's desk. Node.js runs this with the folder of the modules as its argument.
const web = process.argv[1];
const { readBudget, changesOf } = await import(`${web}/clerk/budget.js`);
const { bodyBytes, faultsOf } = await import(`${web}/clerk/notice.js`);
const { MOST } = await import(`${web}/clerk/values.js`);
const { addEntry, fileOf, newJournal, readFile } = await import(`${web}/clerk/journal.js`);
const { outlookOf, stageOf } = await import(`${web}/clerk/stage.js`);
const { evaluationOf, tendersOf } = await import(`${web}/common/findings.js`);
const { addTexts, hasText, chooseLanguage } = await import(`${web}/common/texts.js`);
const en = (await import(`${web}/clerk/en.js`)).default;
const de = (await import(`${web}/clerk/de.js`)).default;

// The budget lines of a ledger.
const linesOf = (ledger) => new Map(ledger.split("\n").slice(2).filter(Boolean).map((line) => line.split("\t")).map(([line, appropriation, free]) =>
  [line, { line, appropriation: Number(appropriation), free: Number(free) }]));

// The office's answer by the faults that are found: to a budget file, `{ rows }` if it imports it; to a notice, null; else `{ name, what }`.
function answerOf(reading, lines) {
  if (reading.bytes > MOST.body) {
    return { name: "TooLong" };
  }
  if (reading.faults.length > 0) {
    return { name: "BadBody", what: `row ${Math.min(...reading.faults.map(({ record }) => record))}` };
  }
  const { faults } = changesOf(reading.rows, lines);
  const has = (code) => faults.some((fault) => fault.code === code);
  if (has("unknown")) {
    return { name: "NoSuch", what: "line" };
  }
  if (has("short")) {
    return { name: "InsufficientFunds" };
  }
  return has("past") || reading.rows.length > MOST.rows ? { name: "LimitReached" } : { rows: reading.rows.length };
}

function refusalOf(draft, lines, now, isUsed) {
  const faults = faultsOf(draft, lines, now);
  if (faults.some(({ code }) => code === "size")) {
    return { name: "TooLong" };
  }
  const of = (code) => faults.find((fault) => fault.code === code);
  const wrong = faults.find(({ code }) => !["size", "line.unknown", "deadline.passed", "money", "lots.many", "items.many"].includes(code) && code !== "name");
  if (wrong) {
    return { name: "BadBody", what: WHAT[wrong.field] ?? "lots" };
  }
  if (of("line.unknown")) {
    return { name: "NoSuch", what: "line" };
  }
  const name = isUsed ? "Exists" : of("deadline.passed") ? "DeadlinePassed" : of("money") ? "InsufficientFunds" : of("lots.many") || of("items.many")
    ? "LimitReached" : null;
  return name ? { name } : null;
}
const WHAT = { title: "title", deadline: "deadline", validity: "validity_days", standstill: "standstill_days", criteria: "criteria", weight: "price_weight",
  performance: "performance" };

const bytes = (text) => new Uint8Array(Buffer.from(text, "base64"));

/** The modules' answers to budget files, drafts, notices, awards and names of refusals, and what they say of the journal and of the texts. */
export async function answersTo({ files = [], drafts = [], notices = [], awards = [], refusals = [], now }) {
  const told = {};
  told.files = files.map(({ data, ledger }) => {
    const reading = readBudget(bytes(data)), lines = linesOf(ledger);
    const after = changesOf(reading.rows, lines).changes.map(({ id, appropriation, free }) => [id, String(appropriation), String(free)]);
    const rows = reading.rows.map(({ id, kind, amount, title }) => ({ amount, kind, line: id, title }));
    return { answer: answerOf(reading, lines), after, read: reading.bytes > MOST.body || reading.faults.length > 0 ? null : rows };
  });
  told.bodies = drafts.map((draft) => Buffer.from(bodyBytes(draft)).toString("base64"));
  told.notices = notices.map(({ draft, ledger, isUsed }) => refusalOf(draft, linesOf(ledger), now, isUsed));
  told.awards = awards.map(({ record, terms, minutes, evaluation }) => {
    const seen = { compiled: JSON.parse(record).records[0].compiledRelease, terms: JSON.parse(terms), tenders: tendersOf(minutes),
      evaluation: evaluationOf(evaluation, true) };
    const { code, tender } = outlookOf(stageOf(seen, now).lots[0]);
    return tender ? [tender.receipt, tender.corrected] : code;
  });
  told.journal = await (async () => {
    const journal = newJournal("https://office.example");
    for (const text of ["one", "t\u00fc\nwo", ""]) {
      await addEntry(journal, { moment: "2026-01-05T09:00:00Z", who: "Anna", title: "x", method: "POST", path: "/budget/B1", body: new TextEncoder().encode(text),
        answer: { status: 200, text: "{}" }, found: null });
    }
    journal.letters = { "N1/L1/1": "Too dear" };
    const text = await fileOf(journal), lines = text.trimEnd().split("\n");
    const isFound = async (changed) => Boolean((await readFile(changed)).fault);
    const digit = (line) => line.replace(/\d(?=\D*$)/, (it) => (Number(it) + 1) % 10);
    const ways = lines.flatMap((line, at) => [[], [line, line], [digit(line)], [line.replace("Anna", "Anne")], [line.replace("one", "two")]].map((others) =>
      lines.toSpliced(at, 1, ...others)).filter((way) => way.join() !== lines.join()));
    const found = await Promise.all(ways.map((way) => isFound(`${way.join("\n")}\n`)));
    const back = await readFile(text);
    return { ways: ways.length, missed: found.filter((it) => !it).length, isSame: JSON.stringify([back.journal?.entries, back.journal?.letters]) === JSON.stringify([journal.entries, journal.letters]) };
  })();
  await addTexts({ en: () => ({ default: en }), de: () => ({ default: de }) });
  told.texts = [];
  for (const tag of ["en", "de"]) {
    await chooseLanguage(tag);
    told.texts.push(...refusals.filter((name) => !hasText(name)));
  }
  return told;
}
