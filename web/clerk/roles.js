// The parts of the screens that are for some roles only. nginx refuses the commands of other roles; the desk only hides them.
import { element } from "../common/draw.js";
import { say } from "../common/texts.js";
import { may, roles } from "./session.js";

/** The names of this clerk's roles. */
export function ownRoles() {
  return roles().map((role) => say(`role.${role}`)).join(", ");
}

/** A part for clerks with a role; for others, the role that it needs. */
export function forRole(role, part) {
  return may(role) ? part() : element("p", { class: "quiet" }, say("role.needed", { role: say(`role.${role}`) }));
}
