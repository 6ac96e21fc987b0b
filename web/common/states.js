// The badge of a procurement's state in a list.
import { badge } from "./draw.js";
import { say } from "./texts.js";

const KINDS = { open: "open", waiting: "running", opened: "running", awarded: "running", running: "running", complete: "ended", unsuccessful: "stopped",
  cancelled: "stopped" };

export function stateBadge(state) {
  return badge(KINDS[state], say(`see.state.${state}`));
}
