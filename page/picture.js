/* The picture of a verdict: each pair of systems as two boxes, a line for each link between their ports, and beside it why it does not carry. A text says the same. */

import { addressOf, isKnown } from "./records.js";
import { counted } from "./keys.js";
import { ALONE, CARRIES, CARRIES_APART, foldedLines, IDLE } from "./summary.js";
import { dashed } from "./advice.js";
import { shape } from "./shapes.js";

const NO_PARTNER = "nobody", NOT_HEARD = "not heard";
/* Of so many pairs, and of so many links of each, the picture has all. */
const MOST_PAIRS = 6, MOST_ROWS = 16;
/* Lengths: of the whole, of a box, from a line to the next one, and above the first; and how many letters stand between two boxes. */
const WIDTH_OF_ALL = 420, BOX = 118, APART_BY = 24, ABOVE = 44, LETTERS = 30;
const LINE_LOOKS = new Map([[CARRIES, "good"], [IDLE, "bad"], [CARRIES_APART, "doubt"], [ALONE, "doubt"]]);

const rowOf = (line, ports) => ({ line, name: line.at, ports, look: LINE_LOOKS.get(line.how) ?? "unknown", isOneWay: Boolean(line.isOneWay), brief: line.brief ?? "" });
const systemNamed = (system) => isKnown(system) ? addressOf(system) : NOT_HEARD;

/* Turns pairs so that a system of several stands at the left of each. */
function aligned(pairs) {
    const countOf = (system) => pairs.filter(({ systems }) => systems.includes(system)).length;
    return pairs.map((pair) => {
        const [near, far] = pair.systems;
        if (countOf(far) <= countOf(near) || far === NOT_HEARD) return pair;
        return { systems: [far, near], rows: pair.rows.map((it) => ({ ...it, ports: [...it.ports].reverse() })) };
    });
}

/* Of captures: the links of each pair of systems; files without an LACPDU are links of the first one. */
function pairsOfCaptures({ lines, bundles }) {
    const pairs = bundles.map((bundle) => ({
        systems: bundle.systems.map(systemNamed),
        rows: lines.filter(({ link }) => bundle.links.includes(link)).map((line) => rowOf(line, line.link.ends.map((it) => it?.last ? it.port : null))),
    })).filter(({ rows }) => rows.length);
    const rest = lines.filter(({ link }) => !link).map((line) => rowOf(line, [null, null]));
    if (pairs.length) pairs[0].rows.push(...rest);
    return pairs;
}

/* Of texts: the ports of each bundle, by their partners; those that have none stand beside the first one. */
function pairsOfTexts({ lines, texts: [{ bundles }] }) {
    return bundles.flatMap((bundle) => {
        const pairs = new Map(), own = lines.filter(({ port }) => bundle.ports.includes(port)), [first] = own.map(({ port }) => port.partner?.system).filter(Boolean);
        for (const line of own) {
            const { actor, partner } = line.port, far = partner?.system ?? first ?? NO_PARTNER;
            if (!pairs.has(far)) pairs.set(far, { systems: [bundle.name.replace(/^the (bond|bundle|team)$/, "") || (actor?.system ? dashed(actor.system) : "this end"), far === NO_PARTNER ? NO_PARTNER : dashed(far)], rows: [] });
            pairs.get(far).rows.push(rowOf(line, [actor?.port ?? null, partner?.port ?? null]));
        }
        return [...pairs.values()];
    });
}

/* What is drawn: the pairs, each with its rows in the order of their ports. */
function pairsOf(found) {
    const all = found.kind === "texts" ? pairsOfTexts(found) : aligned(pairsOfCaptures(found)), placeOf = ({ ports: [near, far] }) => near ?? far ?? Infinity;
    for (const it of all) it.rows.sort((one, other) => placeOf(one) - placeOf(other) || one.name.localeCompare(other.name, "en", { numeric: true }));
    return all;
}

/* The same as a text. */
export function textOfPairs(pairs) {
    return pairs.map(({ systems, rows }) => {
        const lines = foldedLines([...rows].sort((one, other) => Number(one.look === "good") - Number(other.look === "good")).map(({ line }) => line));
        return `${systems.join(" and ")}: ${lines.map(({ at, name, folded, how, brief, why }) => `${folded ? name : at} ${folded ? "carry" : how}${how === CARRIES || folded ? "" : `: ${brief || why}`}`).join("; ")}.`;
    }).join(" ");
}

const shortened = (text, most) => text.length > most ? `${text.slice(0, most - 2)}..` : text;

/* One pair, from `top` down: its parts, and how high it is. */
function drawn({ systems, rows }, top) {
    const parts = [], seen = rows.slice(0, MOST_ROWS), high = ABOVE + APART_BY * (seen.length - 1) + 14, right = WIDTH_OF_ALL - BOX;
    systems.forEach((system, way) => {
        const x = way ? right : 0;
        parts.push(shape("rect", { x: x + 1, y: top + 1, width: BOX - 2, height: high, rx: 5, class: "box" }));
        parts.push(shape("text", { x: x + BOX / 2, y: top + 17, "text-anchor": "middle", class: "name small" }, shortened(system, 19)));
    });
    seen.forEach(({ name, ports, look, isOneWay, brief }, number) => {
        const y = top + ABOVE + APART_BY * number, label = brief ? `${shortened(name, 14)}: ${shortened(brief, LETTERS - Math.min(name.length, 14) - 2)}` : shortened(name, LETTERS);
        ports.forEach((port, way) => {
            if (port !== null) parts.push(shape("text", { x: way ? right + 8 : BOX - 8, y: y + 4, "text-anchor": way ? "start" : "end", class: "small" }, `port ${port}`));
        });
        parts.push(shape("path", { d: `M${BOX} ${y} H${right}`, class: `link ${look}${isOneWay ? " one-way" : ""}` }));
        parts.push(shape("text", { x: WIDTH_OF_ALL / 2, y: y - 5, "text-anchor": "middle", class: `small ${look}` }, label));
    });
    const more = rows.length - seen.length;
    if (more) parts.push(shape("text", { x: WIDTH_OF_ALL / 2, y: top + high + 14, "text-anchor": "middle", class: "small" }, `and ${counted(more, "link")} more`));
    return { parts, high: high + (more ? 30 : 12) };
}

/* The picture of a verdict, as an SVG with its text; null where there is nothing to draw. */
export function pictureOfVerdict(found) {
    const all = pairsOf(found), pairs = all.slice(0, MOST_PAIRS);
    if (!pairs.length) return null;
    const parts = [];
    let top = 0;
    for (const pair of pairs) {
        const { parts: own, high } = drawn(pair, top);
        parts.push(...own);
        top += high;
    }
    if (all.length > pairs.length) parts.push(shape("text", { x: WIDTH_OF_ALL / 2, y: (top += 16) - 4, "text-anchor": "middle", class: "small" }, `and ${counted(all.length - pairs.length, "pair")} of systems more`));
    const text = textOfPairs(all), picture = shape("svg", { viewBox: `0 0 ${WIDTH_OF_ALL} ${top}`, width: WIDTH_OF_ALL, height: top, role: "img", "aria-label": text, class: "overview" });
    picture.append(shape("title", {}, "The links, and whether each carries"), shape("desc", {}, text), ...parts);
    return picture;
}
