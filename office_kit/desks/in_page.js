// Functions that page_checks.py runs within a page.
({
  /** Texts whose contrast is below 4.5 to 1 (WCAG 2.2, 1.4.3), and edges of bars and fields below 3 to 1 (1.4.11). */
  pale() {
    const parts = (text) => text.match(/[\d.]+/g).map(Number);
    const channel = (value) => value <= 10.31475 ? value / 3294.6 : ((value / 255 + 0.055) / 1.055) ** 2.4;
    const light = ([r, g, b]) => 0.2126 * channel(r) + 0.7152 * channel(g) + 0.0722 * channel(b);
    const grounds = new Map();
    const seek = (at) => {
      const own = parts(getComputedStyle(at).backgroundColor);
      return own[3] === 0 ? (at.parentElement ? ground(at.parentElement) : [255, 255, 255]) : own;
    };
    const ground = (at) => grounds.get(at) ?? grounds.set(at, seek(at)).get(at);
    const ratio = (one, other) => {
      const [low, high] = [light(one), light(other)].sort((a, b) => a - b);
      return (high + 0.05) / (low + 0.05);
    };
    const found = [];
    for (const at of document.querySelectorAll("body *")) {
      const style = getComputedStyle(at);
      const own = [...at.childNodes].some((node) => node.nodeType === Node.TEXT_NODE && node.data.trim()) || at.tagName === "INPUT";
      if (at.checkVisibility() && own && ratio(parts(style.color), ground(at)) < 4.5) found.push(`text: ${at.textContent}`);
      if (at.matches(".span, .sign, .piece") && ratio(parts(style.stroke), ground(at.parentElement)) < 3) found.push(`shape: ${at.outerHTML}`);
      if (at.matches(".bar, .swatch, input") && ratio(parts(style.borderTopColor), ground(at.parentElement)) < 3) found.push(`edge: ${at.outerHTML}`);
    }
    return found;
  },

  /** The texts with a mark that turns the direction of the letters after it, if no mark ends it. */
  turning() {
    const texts = document.createTreeWalker(document.body, NodeFilter.SHOW_TEXT), found = [];
    while (texts.nextNode()) {
      if (texts.currentNode.data.includes("\u202e") && !texts.currentNode.parentElement.closest("bdi")) found.push(texts.currentNode.data);
    }
    return found;
  },

  /** The patterns that distinguish the parts of bars and pictures without their colours: kind, picture or form, and whether the part is filled, each once. */
  patterns() {
    return [...new Set([...document.querySelectorAll(".part, .swatch, .span, .sign")].map((at) => {
      const style = getComputedStyle(at), empty = getComputedStyle(document.documentElement).backgroundColor;
      const form = at.namespaceURI.endsWith("svg") ? `${at.tagName} ${style.strokeDasharray} ${style.fill === empty}` : "";
      return `${at.classList[1]} ${form} ${style.backgroundImage.split("(")[0]} ${style.backgroundColor === empty}`;
    }))].sort();
  },

  /** The element that has the focus: its name, and whether it is seen there, to so many pixels, with an outline around it. */
  focused(slack) {
    const at = document.activeElement, box = at.getBoundingClientRect(), style = getComputedStyle(at);
    const isWithin = box.left >= -slack && box.top >= -slack && box.right <= innerWidth + slack && box.bottom <= innerHeight + slack;
    return [at.id || at.textContent, isWithin && style.outlineStyle === "solid" && parseFloat(style.outlineWidth) >= 2];
  },
})
