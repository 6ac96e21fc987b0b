// The acts of a test on the clerk's desk, as by hand (clerk_desk.py). A field is found by its label, a button by its text, a part of the screen by its heading. Of
// several it takes the last visible one, which is in front.
(() => {
  const seen = (at) => at.checkVisibility() && !at.closest("details:not([open]) > :not(summary)");
  const text = (at) => (at?.textContent ?? "").replace(/\s+/g, " ").trim();
  const dialog = () => document.querySelector("dialog[open]");
  const all = (selector, part) => [...((part ? hands.part(part) : null) ?? dialog() ?? document).querySelectorAll(selector)];
  const nameOf = (at) => at.getAttribute("aria-label") ?? text(at.querySelector("h2, h3"));
  const happens = (at, ...names) => names.forEach((name) => at.dispatchEvent(new Event(name, { bubbles: true })));
  window.hands = {
    part: (name) => all("article, section, form, [role=group]").filter((at) => nameOf(at) === name).at(-1),
    field: (label, part) => all("label", part).filter((at) => text(at) === label).map((at) => document.getElementById(at.htmlFor))
      .filter((at) => at && seen(at)).at(-1),
    button: (name, part) => all("button, summary, nav a, main a", part).filter((at) => text(at) === name && seen(at)).at(-1),
    press: (name, part) => hands.button(name, part).click(),
    tick: (label, part) => hands.field(label, part).click(),
    // A number is a moment: a field for date and time has it in the browser's time zone.
    async set(label, value, part) {
      const at = hands.field(label, part);
      at.value = typeof value === "number" ? (await import("/clerk/values.js")).localText(value) : value;
      happens(at, "input", "change");
    },
    drop(content, name) {
      const files = new DataTransfer(), input = document.querySelector("main input[type=file]");
      files.items.add(new File([content], name));
      input.files = files.files;
      happens(input, "change");
    },
    told: () => (dialog() ?? document.querySelector("main")).innerText,
    // Confirms what the window of a command asks: a box to tick, or a word to type.
    sure() {
      const at = dialog().querySelector("input");
      if (at?.type === "checkbox") at.click();
      else if (at) {
        at.value = dialog().innerText.match(/(?:type|schreiben): (.+)/)[1].trim();
        happens(at, "input");
      }
    },
    // The entries of the journal: the path of each command, the office's status, the clerk's name, and the result of queries if no answer came.
    entries: async () => (await import("/clerk/session.js")).journal().entries.map(({ path, status, who, found }) => [path, status, who, found]),
    // The body of the draft's publication, the journal's file, and the budget file that the desk makes of a spreadsheet's.
    body: async () => {
      const [{ draft }, { bodyBytes }] = await Promise.all([import("/clerk/session.js"), import("/clerk/notice.js")]);
      return new TextDecoder().decode(bodyBytes(draft()));
    },
    file: async () => {
      const [{ journal }, { fileOf }] = await Promise.all([import("/clerk/session.js"), import("/clerk/journal.js")]);
      return fileOf(journal());
    },
    converted: async (text) => {
      const [{ converted }, { bytesOf }] = await Promise.all([import("/clerk/convert.js"), import("/common/digest.js")]);
      return new TextDecoder().decode(converted(bytesOf(text), new Map()).bytes);
    },
    // Stops the page's time three quarters of an hour before the deadline of the first notice, and shows a clock of it.
    async stop() {
      const [{ notices, officeNow }, { clock }] = await Promise.all([import("/common/office.js"), import("/common/money.js")]);
      const [{ deadline }] = await notices();
      const at = Date.parse(deadline) - 2_860_300 - (officeNow() - Date.now());
      Date.now = () => at;
      document.querySelector("main").append(clock(deadline));
    },
    // The English texts of the desk that are shown.
    async english() {
      const [{ default: en }, { default: de }] = await Promise.all([import("/clerk/en.js"), import("/clerk/de.js")]);
      return Object.keys(en).filter((name) => typeof en[name] === "string" && en[name] !== de[name] && en[name].length > 12 && !en[name].includes("{")
        && hands.told().includes(en[name]));
    },
    // The most pixels between the first lines of two cells in a row of a table.
    apart() {
      const top = (cell) => {
        const texts = document.createTreeWalker(cell, NodeFilter.SHOW_TEXT, (one) => (one.data.trim() ? 1 : 2));
        const first = document.createRange();
        first.selectNodeContents(texts.nextNode());
        return first.getClientRects()[0].top;
      };
      const rows = [...document.querySelectorAll("main .figures tbody tr")].filter((row) => row.checkVisibility());
      const tops = rows.map((row) => [...row.cells].filter((cell) => cell.innerText.trim()).map(top));
      return Math.max(...tops.map((of) => Math.max(...of) - Math.min(...of)));
    },
  };
})();
