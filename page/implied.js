/* The LACPDUs that texts of a status imply, as a capture that the module explains. Each port of a text has an interface; of a link that one
 * text has, the other end's LACPDU is what it told this end. Times say nothing: each end says the same again and again. */

import { hexadecimal } from "./records.js";
import { ETHERNET } from "./packets.js";
import { captureOf } from "./files.js";
import { nameOfPort } from "./advice.js";
import { NO_ADDRESS, TEXT_BITS } from "./readings.js";

const STEP_SECONDS = 2, LASTING = 94, BEGIN = 1700000000;
/* lagtool examines 64 ends: so many links. */
export const MOST_LINKS = 32;
/* The rules that a status can show, for they want no times of frames. */
export const OF_STATUS = [2, 3, 4, 5, 12, 14, 15, 17, 22, 29, 30];

/* Whether the state of a port has it distribute, and its program says that it does not: Open vSwitch, with may_enable: false. Its bits are cleared. */
export const isDenied = ({ actor, isUsed, standsBy, isAway }) => isUsed === false && !standsBy && !isAway && actor !== null && (actor.state & TEXT_BITS.DISTRIBUTING) !== 0;

/* What a text does not say, out of the way of others: the same for one port of a text. A partner without a name is one for all ports, with
 * the key that this end's implies, so that nothing is said of it. */
function filledIn(port, number) {
    const fill = (it, other) => Object.fromEntries(Object.entries(other).map(([key, value]) => [key, it[key] ?? value]));
    const own = { priority: 65535, key: 1, portPriority: 255, port: number + 1, state: 0 }, actor = fill(port.actor, { ...own, system: "02:ff:00:00:00:01" });
    if (isDenied(port)) actor.state &= ~(TEXT_BITS.COLLECTING | TEXT_BITS.DISTRIBUTING);
    if (!port.partner) return { actor, partner: { priority: 0, system: NO_ADDRESS, key: 0, portPriority: 0, port: 0, state: port.actor.state & TEXT_BITS.EXPIRED ? 0 : TEXT_BITS.SHORT } };
    return { actor, partner: fill(port.partner, { ...own, priority: port.partner.system === null ? 65535 : 0, system: "02:ff:00:00:00:02" }) };
}

const isSame = (one, other) => one.system === other.system && one.port === other.port && (one.priority === other.priority || !one.priority || !other.priority);

/* Whether a text has the numbers of its ports: without them nobody knows which port is at the other end. */
const hasNumber = ({ said }) => said.actor.port !== null;

/* Both ends of each link, as far as texts have them; `said` is the port as its text has it. */
export function linksOfTexts(texts) {
    const all = texts.flatMap((text, at) => text.bundles.flatMap((bundle) => bundle.ports.map((port) => ({ ...port, at, said: port }))));
    const ends = all.filter((it) => it.actor && it.link !== false).map((it, number) => ({ ...it, ...filledIn(it, number), isHeard: it.partner !== null }));
    const links = [], seen = new Set();
    for (const end of ends) {
        if (seen.has(end)) continue;
        seen.add(end);
        const answers = (it) => end.isHeard ? isSame(end.partner, it.actor) && (!it.isHeard || isSame(it.partner, end.actor)) : it.isHeard && isSame(it.partner, end.actor);
        const far = ends.find((it) => !seen.has(it) && it.at !== end.at && [end, it].every(hasNumber) && answers(it)) ?? null;
        if (far) seen.add(far);
        links.push([end, far]);
    }
    return links;
}

function lacpduOctets(source, actor, partner) {
    const octets = new Uint8Array(124), view = new DataView(octets.buffer);
    const put = (at, address) => octets.set(address.split(":").map((it) => parseInt(it, 16)), at);
    put(0, "01:80:c2:00:00:02");
    put(6, source);
    octets.set([0x88, 0x09, 1, 1], 12);
    [[16, 1, actor], [36, 2, partner]].forEach(([at, type, it]) => {
        octets.set([type, 20], at);
        view.setUint16(at + 2, it.priority);
        put(at + 4, it.system);
        [it.key, it.portPriority, it.port].forEach((value, number) => view.setUint16(at + 10 + 2 * number, value));
        octets[at + 16] = it.state;
    });
    octets.set([3, 16], 56);
    return octets;
}

/* Who sends on a link: its end, and the other one, as a text has it or as this end was told. An implied peer has an address of its own, and is
 * left out where it has the end's system, since another LACPDU would be the same. */
function sendersOf([end, far], number) {
    const sender = (it, other = null) => ({ number, source: it.source || it.actor.system, actor: it.actor, partner: it.partner, of: { ...it, far: other && nameOfPort(other), isHeldThere: other?.isHeld, saysThere: other?.says } });
    if (far) return [sender(end, far), sender(far, end)];
    if (!end.isHeard || end.actor.state & TEXT_BITS.EXPIRED || end.partner.system === end.actor.system) return [sender(end)];
    return [sender(end), { number, source: `02:fe:00:00:${hexadecimal(number >> 8)}:${hexadecimal(number & 255)}`, actor: end.partner, partner: end.actor, of: { ...end, isImplied: true } }];
}

/* A capture, how many links are in it and how many are left out, and which port of which text an end is, by interface, source and port. */
export function implied(texts) {
    const all = linksOfTexts(texts), links = all.slice(0, MOST_LINKS), senders = links.flatMap(sendersOf), ends = new Map(), packets = [];
    for (const it of senders) ends.set(`${it.number} ${it.source.replaceAll(":", "-")} ${it.actor.port}`, it.of);
    for (let second = 0; second <= LASTING; second += STEP_SECONDS) {
        senders.forEach((it, order) => {
            const time = BigInt(BEGIN + second) * 1000000000n + BigInt(order * 1000);
            packets.push({ number: it.number, time, octets: lacpduOctets(it.source, it.actor, it.partner) });
        });
    }
    return { capture: captureOf(links.map(() => ETHERNET), packets), ends, left: all.length - links.length };
}

/* What the rules say of texts: of each finding the rule, its texts, and the port. `explain` gives the records of a capture. */
export async function foundIn(texts, explain) {
    const { capture, ends, left } = implied(texts), records = await explain(capture);
    const found = records.filter((it) => it.record === "finding" && OF_STATUS.includes(it.rule)).map((it) => {
        const of = ends.get(`${it.end.interface} ${it.end.source} ${it.end.port}`);
        return { ...it, port: of, isImplied: Boolean(of?.isImplied) };
    });
    return { found: found.filter((it) => it.port), left };
}
