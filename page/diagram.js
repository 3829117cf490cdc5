/* The time diagram of a replay: two lifelines, time downwards, an arrow for each frame. */

import { bitsOf, hexadecimal } from "./records.js";
import { shape } from "./shapes.js";
import { Stand } from "./report.js";

const APART = 200, STEP = 24, TOP = 50, WIDTH = 6.8;
const SHORT = { synchronized: "sync", collecting: "coll", distributing: "dist", aggregatable: "agg", active: "act" };
/* The most entries that are drawn. */
export const MOST_DRAWN = 1500;

const shortOf = (octet) => bitsOf(octet).map((it) => SHORT[it] ?? it).join(",") || "none";
const lacpduOf = (octet) => `LACPDU ${hexadecimal(octet)} ${shortOf(octet)}`;
const labelOfFrame = (frame) => `port ${frame.port}: ${frame.kind === "lacpdu" ? lacpduOf(frame.state) : frame.said}`;

/* An SVG from the top down. System 1 stands left, system 2 right. */
class Picture {
    constructor() {
        this.rows = [];
        this.y = TOP;
        this.reach = [100, 100];
    }

    at(system) { return system === 1 ? 0 : APART; }

    add(name, attributes, text) { this.row.append(shape(name, attributes, text)); }

    note(system, said, kind = "") {
        this.reach[system - 1] = Math.max(this.reach[system - 1], 20 + WIDTH * said.length);
        const [way, anchor] = system === 1 ? [-10, "end"] : [10, "start"];
        this.add("text", { x: this.at(system) + way, y: this.y + 4, "text-anchor": anchor, class: kind }, said);
    }

    dot(system) { this.add("circle", { cx: this.at(system), cy: this.y, r: 3, class: "dot" }); }

    across(said, kind) {
        this.add("path", { d: `M0 ${this.y} H${APART}`, class: `across ${kind}` });
        this.add("text", { x: APART / 2, y: this.y - 5, "text-anchor": "middle", class: kind }, said);
    }

    /* From where a frame was sent to where it is received now. */
    arrow(frame, to) {
        const { y } = this, x = this.at(to), back = to === 2 ? -8 : 8;
        this.add("path", { d: `M${this.at(3 - to)} ${frame.y} L${x} ${y}`, class: frame.kind });
        this.add("path", { d: `M${x} ${y} l${back} -5 l0 8 z`, class: "tip" });
    }

    /* A frame that was lost: a short arrow that ends in a cross. */
    cross(frame, to) {
        const x = this.at(3 - to) + (to === 2 ? 60 : -60), { y } = frame;
        this.add("path", { d: `M${this.at(3 - to)} ${y} L${x} ${y}`, class: frame.kind });
        this.add("path", { d: `M${x - 4} ${y - 4} l8 8 m0 -8 l-8 8`, class: "lost" });
    }

    /* Begins the row of an entry. */
    open(entry) {
        this.row = shape("g", { class: "entry", "data-entry": entry.number });
        this.row.append(shape("title", {}, `${entry.number} ${entry.text}: ${entry.reply}`));
        this.add("rect", { x: -1e4, y: this.y - STEP / 2, width: 2e4, height: STEP, class: "back" });
        this.rows.push(this.row);
    }

    svg(title) {
        const lines = [1, 2].flatMap((system) => [shape("path", { d: `M${this.at(system)} ${TOP - 20} V${this.y}`, class: "life" }),
            shape("text", { x: this.at(system), y: TOP - 30, "text-anchor": "middle" }, `system ${system}`)]);
        const [left, right] = this.reach.map(Math.round), width = left + APART + right, height = this.y + 20;
        const made = shape("svg", { viewBox: `${-left} 0 ${width} ${height}`, width, height, role: "img", "aria-label": title });
        made.append(shape("title", {}, title), ...lines, ...this.rows);
        return made;
    }
}

/* Draws what came of an entry. */
function drawEntry(picture, entry, came) {
    const [first, second] = entry.words.map(Number), isRefused = entry.reply.startsWith("refused");
    picture.open(entry);
    for (const { frame, to } of came.lost ?? []) picture.cross(frame, to);
    if (came.sent) came.sent.y = picture.y;
    if (entry.word === "emit" || entry.word === "offer") {
        if (came.sent) picture.dot(first);
        const said = came.sent ? labelOfFrame(came.sent) : `${entry.word}: ${entry.reply}`;
        picture.note(first, `${entry.number}  ${said}`, isRefused ? "bad" : "");
        if (came.sent?.lost) picture.cross(came.sent, 3 - first);
    } else if (["deliver", "lose", "repeat"].includes(entry.word)) {
        picture.dot(second);
        picture.note(second, `${entry.number}  ${entry.word === "lose" ? `cable ${first}: ` : ""}${entry.reply}`, entry.word === "lose" ? "bad" : "");
        if (came.taken && entry.word === "lose") picture.cross(came.taken, second);
        else if (came.taken) picture.arrow(came.taken, second);
    } else if (["cut", "join", "restart"].includes(entry.word)) {
        const what = entry.word === "restart" ? "system" : "cable";
        picture.across(`${entry.number}  ${what} ${first} ${entry.reply}`, entry.word === "join" ? "good" : "bad");
    } else picture.note(entry.word === "sense" ? second : first, `${entry.number}  ${entry.text}: ${entry.reply}`, isRefused ? "bad" : "quiet");
    picture.y += STEP;
}

/* The diagram of a report, of two systems with these ports and cables. */
export function drawReplay(report, ports, cables) {
    const picture = new Picture(), stand = new Stand(ports, cables);
    for (const entry of report.entries.slice(0, MOST_DRAWN)) drawEntry(picture, entry, stand.play(entry));
    return picture.svg(`A replay of two systems: ${report.entries.length} entries`);
}
