// What test_tender_files.py asks the modules of the tenderer's desk, whose functions are global here.

/** How the desk reads a file, the lines of its faults, and what becomes of it. */
export function whatBecomesOf(items, data) {
  try {
    const bytes = new Uint8Array(Buffer.from(data, "base64"));
    const { kind: word, stated, price, corrections, rows } = readingOf(bytes, items);
    const made = converted(bytes, items, "EUR");
    return { words: word === "priced" ? `priced ${stated} ${price} ${corrections}` : word,
      lines: faultsOf(bytes, items, { kind: word, rows }).map(({ line }) => line), faults: made.faults.map(({ line, name }) => [line, name]),
      changes: made.changes.map(({ line, name }) => [line, name]), kind: made.kind, made: Buffer.from(made.bytes ?? []).toString("base64") };
  } catch (fault) {
    return { words: String(fault.stack), lines: [], faults: [], changes: [], kind: "thrown", made: "" };
  }
}
