/* The links of one pair of systems on one time axis, from left to right: of each end a bar for each state, and an arrow for each frame. */

import { bitsOf, hexadecimal, isRemark, machinesOf, ruleOf, saidBy, secondsOf } from "./records.js";
import { shape } from "./shapes.js";

const GUTTER = 66, RIGHT = 14, AXIS = 26, ROW = 13, NAME = 18, ARROWS = 54, BETWEEN = 16, LETTER = 6.2;
/* The bars of an end, from the top: a name, and what a state octet says there. */
const bitIn = (name) => (octet) => bitsOf(octet).includes(name) ? name : "";
const ROWS = [
    ["receive", (octet) => machinesOf(octet).receive], ["mux", (octet) => machinesOf(octet).mux],
    ["sync", bitIn("synchronized")], ["coll", bitIn("collecting")], ["dist", bitIn("distributing")],
];
const END_HEIGHT = NAME + ROWS.length * ROW;
const LINK_HEIGHT = 2 * END_HEIGHT + ARROWS + BETWEEN;
const NEAREST = 3; // pixels between two arrows that are drawn

/* The stretches of time in which an end showed one value, by its state octets: from one LACPDU to the next that shows another. */
function stretchesOf(end, timeOf, last, valueOf) {
    const stretches = [];
    for (const frame of end.frames) {
        if (frame.kind !== "lacpdu") continue;
        const from = timeOf(frame), before = stretches.at(-1), value = valueOf(frame.actor.state);
        if (before?.value === value) continue;
        if (before) before.to = from;
        stretches.push({ from, to: last, value });
    }
    return stretches;
}

/* A distance between marks of the axis: 1, 2 or 5 of a power of ten. */
function stepOf(span, width) {
    const least = span * 90 / width, power = 10 ** Math.floor(Math.log10(least));
    return [1, 2, 5, 10].map((it) => it * power).find((it) => it >= least);
}

/* Draws what lies in a stretch of time on so many pixels. */
export class Drawing {
    constructor(bundle, axis, view, width) {
        Object.assign(this, { bundle, axis, view, width });
        this.height = AXIS + LINK_HEIGHT * bundle.links.length;
        this.parts = [];
        this.hidden = 0;
    }

    x(time) { return GUTTER + (time - this.view.from) / (this.view.to - this.view.from) * (this.width - GUTTER - RIGHT); }

    inside(x) { return Math.min(Math.max(x, GUTTER), this.width - RIGHT); }

    add(name, attributes, text) { this.parts.push(shape(name, attributes, text)); }

    text(x, y, said, kind, anchor = "start") { this.add("text", { x: x.toFixed(1), y, class: kind, "text-anchor": anchor }, said); }

    drawAxis() {
        const { from, to } = this.view, step = stepOf(to - from, this.width - GUTTER - RIGHT), digits = Math.max(0, -Math.floor(Math.log10(step)));
        for (let number = Math.ceil(from / step); number * step <= to; number += 1) {
            const x = this.x(number * step).toFixed(1);
            this.add("path", { d: `M${x} ${AXIS - 6} V${this.height}`, class: "grid" });
            this.text(Number(x), 12, `${(number * step).toFixed(digits)}${this.axis.unit}`, "quiet", "middle");
        }
    }

    bar({ from, to, value }, y, kind) {
        const left = this.inside(this.x(from)), width = Math.max(this.inside(this.x(to)) - left, 1);
        const it = shape("rect", { x: left.toFixed(1), y, width: width.toFixed(1), height: ROW - 2, class: kind });
        it.append(shape("title", {}, `${value} from ${from.toFixed(6)} to ${to.toFixed(6)}`));
        this.parts.push(it);
        if (width > LETTER * value.length + 6) this.text(left + 4, y + ROW - 4, value, "onbar");
    }

    /* The bars of one end: the receive and the mux machine as they show, then three bits. */
    drawBars(end, y) {
        ROWS.forEach(([name, valueOf], row) => {
            this.text(GUTTER - 6, y + row * ROW + ROW - 4, name, "quiet small", "end");
            for (const stretch of this.axis.stretches(end, row, valueOf)) {
                if (!stretch.value || stretch.to < this.view.from || stretch.from > this.view.to) continue;
                this.bar(stretch, y + row * ROW, `bar ${row < 2 ? stretch.value.toLowerCase().split(" ")[0] : "bit"}`);
            }
        });
    }

    drawLink(link, top) {
        const upper = top + END_HEIGHT, lower = upper + ARROWS;
        link.ends.forEach((end, number) => {
            const y = number === 0 ? top : lower;
            this.text(4, y + 13, end ? end.name : "the other end is not heard", end ? "name" : "name bad");
            if (end) this.drawBars(end, y + NAME);
        });
        for (const y of [upper, lower]) this.add("path", { d: `M${GUTTER} ${y} H${this.width - RIGHT}`, class: "life" });
        this.drawFrames(link, upper, lower);
    }

    /* The frames in view: those of findings and the chosen one, and of the others no two that are too near to tell apart. */
    drawFrames(link, upper, lower) {
        const { from, to } = this.view, nearest = NEAREST * Math.max(1, this.bundle.links.length / 4);
        const marked = new Set(link.findings.map((it) => it.packet));
        const last = [-Infinity, -Infinity], written = [-Infinity, -Infinity];
        const seen = link.frames.filter((it) => this.axis.timeOf(it) >= from && this.axis.timeOf(it) <= to);
        const first = seen.filter((it) => marked.has(it.packet)).map((it) => [it, this.x(this.axis.timeOf(it))]);
        const room = (this.width - GUTTER) / Math.max(seen.length, 1);
        for (const frame of seen) {
            const x = this.x(this.axis.timeOf(frame)), way = frame.end === link.ends[0] ? 0 : 1, isMarked = marked.has(frame.packet);
            if (x - last[way] < nearest && !isMarked && frame !== this.view.chosen) {
                this.hidden += 1;
                continue;
            }
            last[way] = x;
            const words = room > 70 && frame.kind === "lacpdu" ? `${frame.packet}: ${hexadecimal(frame.actor.state)}` : `${frame.packet}`;
            const isInTheWay = !isMarked && first.some(([it, other]) => it.end === frame.end && Math.abs(other - x) < 30);
            const hasRoom = isMarked || 2 * room > 10 + LETTER * words.length;
            const said = x > written[way] && hasRoom && !isInTheWay ? words : "";
            if (said) written[way] = x + 10 + LETTER * said.length;
            this.drawFrame(link, frame, { x, way, upper, lower, said, isMarked });
        }
    }

    drawFrame(link, frame, { x, way, upper, lower, said, isMarked }) {
        const [from, other, back] = way === 0 ? [upper, lower, 1] : [lower, upper, -1], isLost = link.ends.includes(null);
        const to = isLost ? from + back * 26 : other, across = x.toFixed(1);
        const isChosen = frame === this.view.chosen, findings = link.findings.filter((it) => it.packet === frame.packet);
        const it = shape("g", { class: `frame${isChosen ? " chosen" : ""}`, role: "button", tabindex: isChosen ? 0 : -1, "data-packet": frame.packet,
            "aria-label": labelOf(frame, findings) });
        const put = (name, attributes, text) => it.append(shape(name, attributes, text));
        put("rect", { x: (x - 7).toFixed(1), y: upper, width: 14, height: lower - upper, class: "back" });
        put("path", { d: `M${across} ${from} V${to - back * 6}`, class: frame.kind === "lacpdu" ? "lacpdu" : "marker" });
        if (isLost) put("path", { d: `M${(x - 4).toFixed(1)} ${to - 4} l8 8 m0 -8 l-8 8`, class: "lost" });
        else put("path", { d: `M${across} ${to} l-4 ${-back * 8} h8 z`, class: "tip" });
        const look = isMarked ? findings.every(isRemark) ? "quiet" : "bad" : "";
        if (isMarked) put("circle", { cx: across, cy: from + back * 9, r: 5, class: `found ${look}` });
        const [beside, anchor] = x + 7 + LETTER * said.length > this.width ? [x - 7, "end"] : [x + 7, "start"];
        if (said) put("text", { x: beside.toFixed(1), y: from + (way === 0 ? 13 : -5), "text-anchor": anchor, class: `small ${look}` }, said);
        put("title", {}, labelOf(frame, findings));
        this.parts.push(it);
    }

    /* All of it. */
    draw() {
        this.drawAxis();
        this.bundle.links.forEach((link, number) => this.drawLink(link, AXIS + number * LINK_HEIGHT));
        return this.parts;
    }
}

/* What a frame says, for who cannot see it. */
function labelOf(frame, findings) {
    const found = findings.map((it) => `; finding: ${it.name} (${ruleOf(it)})`).join("");
    return `packet ${frame.packet}, ${secondsOf(frame.seconds)} s, from ${frame.end.name}: ${saidBy(frame)}${found}`;
}

/* The axis of a bundle: seconds where each frame has a time, else the numbers of packets. */
export function axisOf(bundle) {
    const frames = bundle.links.flatMap((it) => it.frames), isTimed = frames.every((it) => it.seconds !== null);
    const timeOf = isTimed ? (it) => it.seconds : (it) => it.packet;
    let from = Infinity, to = -Infinity;
    for (const it of frames) {
        from = Math.min(from, timeOf(it));
        to = Math.max(to, timeOf(it));
    }
    if (from > to) [from, to] = [0, 0];
    const margin = Math.max((to - from) / 50, isTimed ? 0.01 : 0.5);
    const known = new Map(), last = to + margin;
    const stretches = (end, row, valueOf) => {
        if (!known.has(end)) known.set(end, []);
        return known.get(end)[row] ??= stretchesOf(end, timeOf, last, valueOf);
    };
    return { timeOf, from: from - margin, to: last, unit: isTimed ? " s" : "", stretches };
}

/* The changes of an end's state, in words: what the bars show. */
export function changesOf(end) {
    const lines = [];
    let before = null;
    for (const frame of end.frames) {
        if (frame.kind !== "lacpdu" || frame.actor.state === before) continue;
        before = frame.actor.state;
        const { receive, mux } = machinesOf(before), bits = ROWS.slice(2).map(([, valueOf]) => valueOf(before)).filter(Boolean);
        lines.push([frame, receive, mux, bits.join(", ") || "none"]);
    }
    return lines;
}
