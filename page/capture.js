/* What is shown of a capture: a line a link, the causes, then a time axis for each pair of systems, then the frames and the text. */

import { addressOf, isRemark, nameOf, ruleOf, saidBy, secondsOf } from "./records.js";
import { capitalized, counted } from "./keys.js";
import { frameOf } from "./cases.js";
import { PAST, titleOf } from "./causes.js";
import { CARRIES, foldedLines, IDLE, textOfLine } from "./summary.js";
import { pictureOfVerdict } from "./picture.js";
import { Packets } from "./packets.js";
import { fieldsOf } from "./fields.js";
import { octetsBeside } from "./octets.js";
import { changesOf } from "./timeline.js";
import { Viewing } from "./viewing.js";
import { offer, pictureOf, textOfPicture } from "./saving.js";
import { button, made, madeWhole, table } from "./shapes.js";

/* The most frames that are listed of a link, besides those of findings; the most lines of links, places of a cause and lines of it that do
 * not fold. */
const MOST = 400, MOST_LINES = 10, MOST_PLACES = 2, MOST_SAID = 6;
const lookOf = (finding) => isRemark(finding) ? "quiet" : "bad";
const frameRow = (packet) => `packet-${packet}`;

/* A part that opens, and is made once it is opened. */
function opening(summary, make, isOpen) {
    const part = made("details");
    part.append(made("summary", summary));
    part.fill = () => { if (part.childElementCount === 1) part.append(...make()); };
    part.addEventListener("toggle", () => part.open && part.fill());
    if (isOpen) part.fill();
    part.open = isOpen;
    return part;
}

/* The frames of a link, each a row. */
function framesOf(link, { comments }, choose) {
    const packets = new Set(link.findings.map((it) => it.packet));
    const listed = link.frames.filter((it, number) => number < MOST || packets.has(it.packet));
    const rows = listed.map((frame) => {
        const open = button(`${frame.packet}`, () => choose(frame)), said = made("span", saidBy(frame));
        if (comments.has(frame.packet)) said.append(made("em", ` ${comments.get(frame.packet)}`));
        for (const it of link.findings) if (it.packet === frame.packet) said.append(made("strong", ` ${it.name} (${ruleOf(it)})`, lookOf(it)));
        open.setAttribute("aria-label", `packet ${frame.packet}: its fields`);
        return [open, secondsOf(frame.seconds), frame.end === link.ends[0] ? "\u2192" : "\u2190", said];
    });
    const it = table(["packet", "seconds", "way", "says"], rows, "frames");
    listed.forEach((frame, number) => { it.tBodies[0].rows[number].id = frameRow(frame.packet); });
    const left = link.frames.length - listed.length;
    return left ? [it, made("p", `${counted(left, "frame")} more are not listed.`, "quiet")] : [it];
}

function statesOf(end) {
    const rows = changesOf(end).map(([frame, ...words]) => [secondsOf(frame.seconds), ...words]);
    const it = table(["seconds", "receive", "mux", "bits"], rows.slice(0, MOST), "frames");
    it.createCaption().textContent = rows.length > MOST ? `${end.name}: the first ${MOST} changes` : end.name;
    return it;
}

/* One pair of systems. */
class Pair {
    constructor(bundle, { packets, records }, isOpen) {
        Object.assign(this, { bundle, packets, records });
        this.title = `${nameOf(bundle)}: ${counted(bundle.links.length, "link")}, ${counted(bundle.findings.length, "finding")}`;
        this.fields = made("div", "", "chosen-frame");
        this.fields.hidden = true;
        this.viewing = new Viewing(bundle, this.title, (frame, isEntered) => this.showFields(frame, isEntered));
        this.part = opening(this.title, () => this.parts(), isOpen);
    }

    parts() {
        const tools = made("p", "", "tools");
        tools.append(button("Save as SVG", () => this.save()));
        const states = opening("The states as text", () => this.bundle.links.flatMap((it) => it.ends.filter(Boolean).map(statesOf)), false);
        this.lists = this.bundle.links.map((link) => {
            const names = link.ends.map((it) => it ? it.name : "no other end").join(" and ");
            return opening(`The frames of ${names}: ${link.frames.length}`, () => framesOf(link, this.records, (frame) => this.take(frame)), false);
        });
        return [this.viewing.box, this.fields, tools, states, ...this.lists];
    }

    save() { offer("links.svg", "image/svg+xml", textOfPicture(pictureOf(this.viewing, this.title, false))); }

    take(frame) {
        this.part.fill();
        this.part.open = true;
        this.viewing.take(frame, false);
    }

    /* Scrolls so far that the fields do not cover the chosen frame. */
    uncover() {
        const { top, bottom } = this.viewing.svg.querySelector(".chosen").getBoundingClientRect();
        if (top < 0 || bottom > innerHeight / 2) scrollBy(0, top - innerHeight / 5);
    }

    async showFields(frame, isEntered) {
        const turn = this.turn = (this.turn ?? 0) + 1, found = await this.packets.packet(frame.packet);
        if (turn !== this.turn) return;
        const place = this.records.places.has(frame.packet) ? ` (${this.records.placeOf(frame.packet)})` : "", comment = this.records.comments.get(frame.packet);
        const head = made("h3", `Packet ${frame.packet}${place} at ${secondsOf(frame.seconds)} s, from ${frame.end.name}`);
        const findings = this.bundle.findings.filter((it) => it.packet === frame.packet && it.at === frame.end);
        const said = findings.map((it) => made("p", `${capitalized(it.name)} (${ruleOf(it)}). ${it.advice}`, lookOf(it)));
        const octets = found ? octetsBeside(found.octets, fieldsOf(found.octets, found.link)) : made("p", "Its octets are not found in the file.");
        this.fields.replaceChildren(button("Close", () => this.close(), "close"), head, ...comment ? [made("em", comment)] : [], ...said, octets);
        this.fields.hidden = false;
        this.uncover();
        this.fields.onkeydown = (event) => { if (event.key === "Escape") this.close(); };
        if (isEntered) this.fields.querySelector("tr[tabindex='0']")?.focus();
    }

    close() {
        this.fields.hidden = true;
        this.viewing.svg.querySelector(".chosen")?.focus();
    }
}

/* What the packet of a finding has of what is wrong, by the rule. */
const VALUES = new Map([
    [2, ({ partner }) => `names system ${partner.system}`],
    [3, ({ partner }) => `names port ${partner.port}`],
    [4, ({ partner }) => `names key ${partner.key}`],
    [15, ({ actor, partner }) => `key ${actor.key}, the partner's key ${partner.key}`],
    [29, ({ partner }) => `names system ${partner.system}`],
    [30, ({ partner }) => `names system ${partner.system}`],
]);
const valueOf = (finding, frame) => frame?.kind === "lacpdu" && VALUES.has(finding.rule) ? `: ${VALUES.get(finding.rule)(frame)}` : "";

/* Where a finding shows: the end, and the packet, which leads into the diagram. */
function placeIn(finding, pair) {
    const frame = frameOf(finding), link = made(frame ? "a" : "span", pair.records.placeOf(finding.packet));
    if (frame) link.href = `#${frameRow(finding.packet)}`;
    if (frame) link.addEventListener("click", (event) => {
        event.preventDefault();
        pair.take(frame);
    });
    const { name, system } = finding.at, where = made("span", `${name}${system ? ` of system ${addressOf(system)}` : ""}, `, "quiet");
    where.append(link, finding.seconds === null ? "" : ` at ${finding.seconds.toFixed(6)} s`, valueOf(finding, frame));
    return where;
}

/* The first of some parts, and the others folded. */
function foldedBehind(parts, most, word) {
    const rest = parts.slice(most);
    return rest.length ? [...parts.slice(0, most), opening(`and ${counted(rest.length, word)} more`, () => rest, false)] : parts;
}

const placesOf = ({ findings = [] }, pairOf) => foldedBehind(findings.map((it) => placeIn(it, pairOf(it))), MOST_PLACES, "place");
const ruleIn = ({ rule, clause }) => rule ? [made("span", ` (rule ${rule}, ${clause})`, "quiet rule")] : [];

/* What follows from a cause, folded: what, how often, and where. */
function effectsOf({ effects }, pairOf) {
    if (!effects.length) return [];
    const said = effects.map((it) => it.places > 1 ? `${it.title} (${counted(it.places, "place")})` : it.title).join("; ");
    return [opening(`Likely effects: ${said}`, () => effects.flatMap((it) => [headOf(capitalized(it.title), it), ...placesOf(it, pairOf)]), false)];
}

function headOf(title, item) {
    const head = made("strong", title);
    head.append(...ruleIn(item));
    return head;
}

/* What a cause says behind its title: what to do, what is seen, where it shows, and what follows from it. */
function partsOf(item, pairOf) {
    const said = foldedBehind(item.lines.map((line, number) => madeWhole("span", line, number ? "line" : "line first")), MOST_SAID, "line");
    return [made("span", item.unexplained ? `${item.advice} ${item.unexplained}` : item.advice), ...said, ...placesOf(item, pairOf), ...effectsOf(item, pairOf)];
}

/* A cause; one that holds no more is folded. */
export function causeItem(item, pairOf) {
    const it = made("li"), title = capitalized(titleOf(item));
    if (item.kind === PAST) it.append(opening(title, () => [...ruleIn(item), ...partsOf(item, pairOf)], false));
    else it.append(headOf(title, item), ...partsOf(item, pairOf));
    return it;
}

const LOOKS = new Map([[CARRIES, "good"], [IDLE, "bad"]]);

/* A line a link: whether it carries, and why not. */
function lineIn(line) {
    const it = made("li"), text = textOfLine(line);
    it.append(madeWhole("b", text.slice(0, line.name.length)), madeWhole("span", text.slice(line.name.length), LOOKS.get(line.how)));
    return it;
}

/* Lines that carry, as one that opens. */
function foldedIn(line) {
    const it = made("li"), inside = made("ul");
    it.className = "good";
    it.append(opening(textOfLine(line), () => { inside.append(...line.folded.map(lineIn)); return [inside]; }, false));
    return it;
}

export function lineItems(lines) {
    const parts = foldedLines(lines).map((it) => it.folded ? foldedIn(it) : lineIn(it)), list = made("li");
    if (parts.length <= MOST_LINES) return parts;
    const inside = made("ul");
    inside.append(...parts.slice(MOST_LINES));
    list.append(opening(`and ${counted(parts.length - MOST_LINES, "link")} more`, () => [inside], false));
    return [...parts.slice(0, MOST_LINES), list];
}

/* The picture of a verdict, in its place. */
export function pictureIn(place, found) {
    const it = pictureOfVerdict(found);
    place.replaceChildren(...it ? [it] : []);
    place.hidden = !it;
}

/* Shows what a verdict on captures says; `partOf` gives parts of the page. Gives the pairs of systems. */
export function showCaptures(found, partOf) {
    const { records, bundles, causes, lines, source } = found, packets = new Packets(source);
    const pairs = bundles.map((it, number) => new Pair(it, { packets, records }, number === 0));
    const pairOf = (finding) => pairs.find((it) => it.bundle.findings.includes(finding));
    pictureIn(partOf("picture"), found);
    partOf("lines").replaceChildren(...lineItems(lines));
    partOf("findings").replaceChildren(...causes.map((it) => causeItem(it, pairOf)));
    partOf("links").replaceChildren(...pairs.map((it) => it.part));
    return { pairs };
}

/* What is drawn of each pair, for a report. All of it is made then. */
export function picturesOf(pairs) {
    for (const it of pairs) {
        it.part.fill();
        for (const list of it.part.querySelectorAll("details")) list.fill();
    }
    return pairs.map((it) => pictureOf(it.viewing, it.title, true));
}
