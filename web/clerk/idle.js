// Forgets the key if nobody uses the tab for some minutes, and warns before. The draft and the journal stay. (If a clerk has
// signed in by name, there is no key. The tab can't make the browser forget a password.)
import { caller, forgetKey, way } from "./session.js";

// Seconds without a hand until the warning, and until the key is forgotten.
export const LIMITS = { warn: 540, forget: 600 };
const HANDS = ["pointerdown", "pointermove", "keydown", "wheel", "touchstart"];
let last = Date.now();

/** Somebody is here, or a command is being sent. */
export function touch() {
  last = Date.now();
}

/** Watches the tab. `tell` takes `held`, `warned` with the seconds that are left, or `forgotten`, each time
 * that something else holds. */
export function watch(tell) {
  for (const kind of HANDS) {
    addEventListener(kind, touch, { passive: true, capture: true });
  }
  let state = "held";
  setInterval(() => {
    const idle = (Date.now() - last) / 1000;
    const next = caller() === null || way() !== "key" ? "held" : idle >= LIMITS.forget ? "forgotten" : idle >= LIMITS.warn ? "warned" : "held";
    if (next === "forgotten") {
      forgetKey();
    }
    if (next !== state) {
      tell(next, Math.ceil(LIMITS.forget - idle));
    }
    state = next === "forgotten" ? "held" : next;
  }, 1000);
}
