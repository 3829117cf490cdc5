/* The fields of a frame of the slow protocols, each with its octets (IEEE 802.1AX-2014, 6.4.2.3 and 6.5.3.3). */

import { bitsOf, hexadecimal } from "./records.js";
import { COOKED, COOKED_2, ETHERNET, SLOW, TAGS } from "./packets.js";

const joined = (octets) => Array.from(octets, (it) => hexadecimal(it)).join("-");
const numberIn = (octets) => octets.reduce((sum, it) => sum * 256 + it, 0);
const stateIn = ([octet]) => `${hexadecimal(octet)}: ${bitsOf(octet).join(", ") || "none"}`;
const reservedIn = (octets) => octets.every((it) => it === 0) ? "zero" : "not zero";

const ofPort = (name) => [
    [`${name} TLV type`, 1, numberIn], [`${name} length`, 1, numberIn], [`${name} system priority`, 2, numberIn], [`${name} system`, 6, joined],
    [`${name} key`, 2, numberIn], [`${name} port priority`, 2, numberIn], [`${name} port`, 2, numberIn],
    [`${name} state`, 1, stateIn], ["reserved", 3, reservedIn],
];
const LACPDU = [
    ["subtype", 1, numberIn], ["version", 1, numberIn], ...ofPort("actor"), ...ofPort("partner"),
    ["collector TLV type", 1, numberIn], ["collector length", 1, numberIn], ["CollectorMaxDelay", 2, numberIn], ["reserved", 12, reservedIn],
    ["terminator TLV type", 1, numberIn], ["terminator length", 1, numberIn], ["reserved", 50, reservedIn],
];
const MARKER = [
    ["subtype", 1, numberIn], ["version", 1, numberIn], ["marker TLV type", 1, numberIn], ["marker length", 1, numberIn], ["requester port", 2, numberIn],
    ["requester system", 6, joined], ["requester transaction ID", 4, numberIn], ["padding", 2, reservedIn], ["terminator TLV type", 1, numberIn],
    ["terminator length", 1, numberIn], ["reserved", 90, reservedIn],
];

/* Reads field after field. */
class Layout {
    constructor(octets) {
        this.octets = octets;
        this.at = 0;
        this.fields = [];
    }

    get left() { return this.octets.length - this.at; }

    number(count = 2, at = this.at) { return numberIn(this.octets.subarray(at, at + count)); }

    put(name, count, valueIn) {
        const octets = this.octets.subarray(this.at, this.at + count);
        if (!octets.length) return;
        const value = octets.length < count ? `cut off: ${octets.length} of ${count} octets` : valueIn(octets);
        this.fields.push({ name, from: this.at, count: octets.length, value });
        this.at += octets.length;
    }
}

const typed = (octets) => `0x${hexadecimal(numberIn(octets), 4)}`;

function putEthernet(layout) {
    layout.put("destination address", 6, joined);
    layout.put("source address", 6, joined);
    while (TAGS.includes(layout.number()) && layout.left >= 4) layout.put("tag", 4, typed);
    layout.put("EtherType", 2, typed);
}

function putCooked(layout) {
    layout.put("packet type", 2, numberIn);
    layout.put("device type", 2, numberIn);
    layout.put("address length", 2, numberIn);
    layout.put("source address", 8, (it) => joined(it.subarray(0, 6)));
    while (TAGS.includes(layout.number()) && layout.left >= 6) layout.put("tag", 4, typed);
    layout.put("protocol", 2, typed);
}

function putCooked2(layout) {
    layout.put("protocol", 2, typed);
    layout.put("reserved", 2, reservedIn);
    layout.put("interface index", 4, numberIn);
    layout.put("device type", 2, numberIn);
    layout.put("packet type", 1, numberIn);
    layout.put("address length", 1, numberIn);
    layout.put("source address", 8, (it) => joined(it.subarray(0, 6)));
}

const HEADERS = new Map([[ETHERNET, putEthernet], [COOKED, putCooked], [COOKED_2, putCooked2]]);

/* The fields of a payload of the slow protocols, from where the layout stands. */
function putPayload(layout) {
    const payload = layout.octets[layout.at] === 1 ? LACPDU : layout.octets[layout.at] === 2 ? MARKER : [];
    for (const [name, count, valueIn] of payload) layout.put(name, count, valueIn);
    layout.put(payload.length ? "behind the frame" : "payload", layout.left, (it) => `${it.length} octets`);
}

/* The fields of a captured packet, by the type of its link. */
export function fieldsOf(octets, link) {
    const layout = new Layout(octets);
    HEADERS.get(link)?.(layout);
    putPayload(layout);
    return layout.fields;
}

/* The fields of a payload alone. */
export function fieldsOfPayload(octets) {
    const layout = new Layout(octets);
    putPayload(layout);
    return layout.fields;
}

/* Whether a frame begins there, and no payload. */
export const isFrame = (octets) => octets.length > 14 && numberIn(octets.subarray(12, 14)) === SLOW;
