/* Captures as files have them: several as one, by their times; and what pcapng says beside packets, the names of interfaces and comments. What
 * the module says does not rest on this, where one file is given that has whole packets. */

import { COOKED, COOKED_2, ETHERNET, IF_TSRESOL, INTERFACE, PACKET, PIECE, Reading, SECTION, SLOW, TAGS } from "./packets.js";
import { movesOf, secondsFrom } from "./spans.js";

/* Octets of an LACPDU: up to the end of the partner's; all of it. Behind the partner's: the collector's TLV, and the terminator. */
const BOTH_ENDS = 42, WHOLE = 110, COLLECTOR = [3, 16];
/* Of one file so much is looked at for names and comments. */
const MOST_LOOKED = 1 << 24;

/* The packets of a capture, as far as it can be read; `told.end` is then the octet behind what was read. */
export async function* packetsOf(blob, told = {}, most = blob.size) {
    const viewOf = async (offset, count) => new DataView(await blob.slice(offset, offset + count).arrayBuffer());
    const reading = new Reading(await viewOf(0, 24));
    if (!reading.isCapture) return;
    told.end = Math.min(reading.start, blob.size);
    told.interfaces = new Set();
    for (let offset = reading.start, room = PIECE; offset < Math.min(blob.size, most);) {
        told.end = offset;
        const view = await viewOf(offset, room);
        let at = 0;
        for (let step = reading.step(view, at); step; step = reading.step(view, at)) {
            for (const it of reading.interfaces.slice(-1)) told.interfaces.add(it);
            if (step.packet) yield step.packet;
            at += step.length;
        }
        if (!at && (room > view.byteLength || room > PIECE)) return; // nothing whole is left
        room = at ? PIECE : 2 * PIECE;
        told.end = offset += at;
    }
}

/* Where the payload of a slow protocols frame begins; -1 in another packet. */
function payloadAt({ octets, from: { link } }) {
    const word = (at) => octets[at] * 256 + octets[at + 1];
    if (link === COOKED_2) return word(0) === SLOW ? 20 : -1;
    let at = link === COOKED ? 14 : 12;
    while (TAGS.includes(word(at))) at += 4;
    return [ETHERNET, COOKED].includes(link) && word(at) === SLOW ? at + 2 : -1;
}

/* Whether the payload there is an LACPDU, by its subtype. */
const isLacpdu = (octets, at) => octets[at] === 1;

/* An LACPDU that was cut behind what it says of both ends gets the rest by the standard; of others nothing changes. */
function wholeOf(octets, original, at) {
    const count = octets.length - at;
    if (!isLacpdu(octets, at) || count < BOTH_ENDS || count >= WHOLE || original - at < WHOLE) return octets;
    const whole = new Uint8Array(at + WHOLE);
    whole.set(octets.subarray(0, at + BOTH_ENDS));
    whole.set(COLLECTOR, at + BOTH_ENDS);
    return whole;
}

const isCut = ({ octets, original }, at) => at >= 0 && wholeOf(octets, original, at) !== octets;

/* What a file says beside its packets: names of interfaces by their numbers, comments by the numbers of packets; and after how many
 * octets LACPDUs are cut, 0 where they are whole. */
export async function lookedAt(blob) {
    const found = new Map(), comments = new Map(), told = {};
    let cut = 0;
    for await (const it of packetsOf(blob, told, MOST_LOOKED)) {
        if (!found.get(it.from.number)) found.set(it.from.number, it.from.name);
        if (it.comment) comments.set(it.number, it.comment);
        if (!cut && isCut(it, payloadAt(it))) cut = it.octets.length;
    }
    const names = new Map([...found].filter(([, name]) => name || found.size > 1).map(([number, name]) => [number, name || `interface ${number}`]));
    return { names, comments, cut, interfaces: [...told.interfaces ?? []].filter(isOfLink) };
}

/* Whether an interface may be of a link: loopback is not, nor is one that stands for all. */
const isOfLink = ({ link, name }) => link === ETHERNET && !["lo", "any"].includes(name);
const nameOfInterface = ({ name, number }) => name || `interface ${number}`;

/* Files and interfaces that can be read and have no LACPDU are links, too: where they are, and what they are called. */
const silentFile = (name) => ({ name, where: "in the file", unless: "it is of the bond itself, which has none" });
const silentInterface = (name) => ({ name, where: "on the interface", unless: "it is no member of the bundle, as the bond itself is none" });

/* The interfaces of one capture that is read as it is, on which no end sends an LACPDU. */
export function silentInterfaces(interfaces, ends) {
    const isHeard = ({ number }) => ends.some((it) => it.last && it.interface === number);
    return interfaces.some(isHeard) ? interfaces.filter((it) => !isHeard(it)).map((it) => silentInterface(nameOfInterface(it))) : [];
}

/* A block of pcapng. */
function blockOf32(type, words, octets = new Uint8Array(0)) {
    const room = 4 * Math.ceil(octets.length / 4), length = 12 + 4 * words.length + room, made = new Uint8Array(length), view = new DataView(made.buffer);
    [type, length, ...words].forEach((it, number) => view.setUint32(4 * number, it, true));
    made.set(octets, 8 + 4 * words.length);
    view.setUint32(length - 4, length, true);
    return made;
}

const SECTION_BLOCK = [SECTION, [0x1a2b3c4d, 1, 0xffffffff, 0xffffffff]];
/* An interface whose times are in nanoseconds. */
const interfaceBlock = (link) => blockOf32(INTERFACE, [link, 0, IF_TSRESOL | 0x10000, 9, 0]);
const packetBlock = (number, time, octets) => blockOf32(PACKET, [number, Number(time >> 32n), Number(time & 0xffffffffn), octets.length, octets.length], octets);

/* A capture as pcapng: the types of the links of its interfaces, and packets with their interface, time and octets. */
export function captureOf(links, packets) {
    return new Blob([blockOf32(...SECTION_BLOCK), ...links.map(interfaceBlock), ...packets.map((it) => packetBlock(it.number, it.time, it.octets))]);
}

const stemOf = (name) => name.replace(/\.gz$/i, "").replace(/\.(pcap|pcapng|cap|dmp)$/i, "");
const GROUP = [0x01, 0x80, 0xc2, 0x00, 0x00, 0x02];

/* A slow protocols frame as Ethernet has it, and where its payload begins: a cooked header has the source, and no destination. */
function etherOf(octets, link, at) {
    if (link === ETHERNET) return { octets: octets.slice(), at };
    const [source, rest] = link === COOKED_2 ? [octets.subarray(12, 18), [0x88, 0x09, ...octets.subarray(at)]] : [octets.subarray(6, 12), octets.subarray(14)];
    const ether = Uint8Array.from([...GROUP, ...source, ...rest]);
    return { octets: ether, at: ether.length - octets.length + at };
}

const textOf = (octets) => Array.from(octets, (it) => it.toString(16).padStart(2, "0")).join("");
/* Who sends an LACPDU: the source address, and the system and the port of the actor. */
const senderIn = ({ source, octets, at }) => `${source} ${textOf(octets.subarray(at + 6, at + 12))} ${textOf(octets.subarray(at + 16, at + 18))}`;
/* Whom it names as its partner, by system and port; nothing where it names nobody. */
const namedIn = ({ octets, at }) => octets.subarray(at + 26, at + 32).some(Boolean) ? `${textOf(octets.subarray(at + 26, at + 32))} ${textOf(octets.subarray(at + 36, at + 38))}` : "";

/* For each sender the interfaces on which it speaks, each with the partners that it names there. */
function sendersIn(kept) {
    const senders = new Map();
    for (const it of kept.filter((one) => one.isLacpdu)) {
        const sender = senderIn(it), places = senders.set(sender, senders.get(sender) ?? new Map()).get(sender);
        const named = places.set(it.number, places.get(it.number) ?? new Set()).get(it.number);
        if (namedIn(it)) named.add(namedIn(it));
    }
    return senders;
}

/* Whether one sender has one link there, by the partners that it names: of two copies of one machine each has its own. */
const isOneLink = (named, others) => !named.size || !others.size || [...named].some((it) => others.has(it));

/* Interfaces of several files that hold one link, as one sender shows it: for each the first of them. */
function sameLinks(kept, count) {
    const first = Array.from({ length: count }, (_, number) => number);
    for (const places of sendersIn(kept).values()) {
        const all = [...places];
        all.forEach(([number, named], at) => {
            const [known] = all.slice(0, at).find(([, others]) => isOneLink(named, others)) ?? [number];
            const [low, high] = [first[number], first[known]].sort((one, other) => one - other);
            first.forEach((one, place) => { if (one === high) first[place] = low; });
        });
    }
    return first;
}

/* Frames of a source that several files hold of one link at one time stand once: those of the file that has most of them, and of others what lies
 * outside. */
function once(kept, linkOf) {
    const spans = new Map(), placeOf = ({ number, source }) => `${linkOf(number)} ${source}`;
    for (const it of kept) {
        const place = placeOf(it), files = spans.set(place, spans.get(place) ?? new Map()).get(place), span = files.get(it.file) ?? { file: it.file, count: 0, from: it.time, to: it.time };
        files.set(it.file, { ...span, count: span.count + 1, from: it.time < span.from ? it.time : span.from, to: it.time > span.to ? it.time : span.to });
    }
    const orders = new Map([...spans].map(([place, files]) => [place, [...files.values()].sort((one, other) => other.count - one.count)]));
    return kept.filter((one) => {
        const { file, time } = one, order = orders.get(placeOf(one)), before = order.slice(0, order.findIndex((it) => it.file === file));
        return before.every((it) => time < it.from || time > it.to);
    });
}

/* What a file that is packed begins with. */
const PACKED = new Map([["1f8b", "gzip"], ["fd377a585a00", "xz"], ["28b52ffd", "zstd"]]);

const UNKNOWN_FILE = "neither pcap nor pcapng", WHAT_IS_READ = "captures are read, and what systems print of LACP (docs/TROUBLE.md has the list)";
/* Of a file that gzip packed no more is unpacked. */
const MOST_UNPACKED = 1 << 30;

/* A file; of one that gzip packed what is in it, if that can be unpacked. */
export async function unpacked(file) {
    const begin = textOf(new Uint8Array(await file.slice(0, 2).arrayBuffer()));
    if (begin !== "1f8b" || typeof DecompressionStream === "undefined") return file;
    const parts = [];
    try {
        let count = 0;
        for (const reader = file.stream().pipeThrough(new DecompressionStream("gzip")).getReader(); ;) {
            const { done, value } = await reader.read();
            if (done) return new Blob(parts);
            parts.push(value);
            if ((count += value.length) > MOST_UNPACKED) return file;
        }
    } catch {
        return file; // it is cut, or broken
    }
}

/* Why a file is no capture, by its first octets. */
async function whyUnknown(file) {
    const begin = textOf(new Uint8Array(await file.slice(0, 6).arrayBuffer())), found = [...PACKED].find(([octets]) => begin.startsWith(octets));
    return found ? `packed by ${found[1]}: unpack it first` : UNKNOWN_FILE;
}

/* What the module says of one file that is no capture: which program packed it, or what is read. */
export async function saidOf(said, [file]) {
    if (!said.includes(UNKNOWN_FILE)) return said.replace(/octet 0: (?=packed by)/, "").replace(/octet 0: cut short/, (it) => file.size ? it : "it is empty");
    const why = await whyUnknown(file);
    return said.replace(/octet 0: neither pcap nor pcapng(: \d+)?/, why === UNKNOWN_FILE ? `${why}: ${WHAT_IS_READ}` : why);
}

/* What one file gives: its slow protocols frames, when it begins, and its last packet, up to which it goes; whether it has LACPDUs, and why it cannot be read to its
 * end. `numberOf` gives interfaces their numbers. */
async function readOut(file, numberOf) {
    const told = { end: -1 }, kept = [], heard = new Set();
    let last = null, begin = null;
    for await (const it of packetsOf(file, told)) {
        const { octets, original, from } = it, at = payloadAt(it), index = from.link === COOKED_2 ? new DataView(octets.buffer, octets.byteOffset).getUint32(4) : null;
        begin ??= it.time ?? 0n;
        last = { file, time: it.time ?? 0n, of: it.number, number: numberOf(from, index), octets: new Uint8Array(14), source: "", isLacpdu: false, comment: it.comment };
        if (at < 0) continue;
        const ether = etherOf(wholeOf(octets, original, at), from.link, at);
        last = { ...last, ...ether, source: textOf(ether.octets.subarray(6, 12)), isLacpdu: isLacpdu(octets, at) };
        if (last.isLacpdu) heard.add(from);
        kept.push(last);
    }
    if (last && last !== kept.at(-1)) kept.push(last);
    const isUnknown = file.size > 0 && told.end < 0, fault = !file.size ? "it is empty" : isUnknown ? await whyUnknown(file) : told.end < file.size ? `octet ${told.end}: cut short, or broken` : "";
    const stem = stemOf(file.name ?? ""), isSilent = !kept.some((it) => it.isLacpdu), quiet = [...told.interfaces ?? []].filter((it) => isOfLink(it) && !heard.has(it));
    const silent = isSilent ? [silentFile(stem)] : quiet.map((it) => silentInterface(`${stem} ${nameOfInterface(it)}`.trim()));
    return { file, stem, kept, from: begin, fault, isUnknown, silent };
}

/* Numbers for the interfaces of a file, and their names by these. */
function numbering(names, file, isAlone) {
    const known = new Map(), stem = isAlone ? "" : stemOf(file.name);
    const numberOf = (from, index) => {
        const key = index ?? from;
        if (!known.has(key)) {
            known.set(key, { number: names.size, name: from.name || (index !== null ? `interface ${index}` : from.number ? `interface ${from.number}` : "") });
            names.set(names.size, stem);
        }
        return known.get(key).number;
    };
    const name = () => { for (const it of known.values()) if (isAlone || known.size > 1) names.set(it.number, `${stem} ${it.name}`.trim()); };
    return { numberOf, name };
}

/* How many of files were not read, since they are no captures, and why; nothing where all were, or none. */
function unknownSaid(given) {
    const whys = given.filter((it) => it.isUnknown).map(({ fault }) => /^packed by (\S+):/.exec(fault)?.[1] ?? fault), count = whys.length;
    return count && count < given.length ? `${count} of ${given.length} files ${count === 1 ? "was" : "were"} not read (${[...new Set(whys)].join(", ")}).` : "";
}

/* Slow protocols frames of files as one capture, by their times. `unknown` says how many files are no captures, `names` has
 * whence each interface is, `places` for each packet its file and its number there, `faults` what cannot be read, `silent` the files and
 * interfaces that can be read and have no LACPDU, `doubled` how many frames stand in several files and are taken once, and `fileEnds` for each link when its file ends, in
 * seconds, and whether it is cut short. Packets that were cut get whole. Files of different times end together; `apart` says so. */
export async function merged(files) {
    const given = [], faults = [], silent = [], names = new Map();
    for (const file of files) {
        const { numberOf, name } = numbering(names, file, files.length === 1), it = await readOut(file, numberOf);
        name();
        given.push(it);
        if (it.fault) faults.push(`cannot read ${file.name}: ${it.fault}`);
        else silent.push(...it.silent);
    }
    const all = given.flatMap(({ kept }) => kept), first = sameLinks(all, names.size), linkOf = (number) => first[number], { moves, apart, note, ends } = movesOf(given, linkOf);
    const kept = once(all, linkOf).map((it) => ({ ...it, time: it.time + (moves.get(it.file) ?? 0n) })).sort((one, other) => one.time < other.time ? -1 : Number(one.time > other.time));
    const places = new Map(kept.map(({ file, of }, number) => [number + 1, { file: file.name, number: of }]));
    const comments = new Map(kept.flatMap(({ comment }, number) => comment ? [[number + 1, comment]] : []));
    const capture = captureOf([...names.keys()].map(() => ETHERNET), kept.map((it) => ({ ...it, number: linkOf(it.number) })));
    const fileEnds = new Map([...ends].map(([link, { to, isCut }]) => [link, { until: secondsFrom(to, kept[0].time), isCut }]));
    return { capture, unknown: unknownSaid(given), names, places, comments, faults, silent, fileEnds, apart, moved: note, doubled: all.length - kept.length };
}

/* What is read: one capture as it is, with what it says of interfaces and packets; several as one, one whose LACPDUs are cut made whole, and one
 * that joins captures sorted by time, where `numbers` has those of its packets. Packets and text are those of `source`. */
export async function captureFrom(files, isJoined = false) {
    const looked = files.length === 1 ? await lookedAt(files[0]) : null;
    if (looked && !looked.cut && !isJoined) return { capture: files[0], source: files[0], unknown: "", ...looked, places: new Map(), numbers: new Map(), faults: [], silent: [], fileEnds: new Map(), apart: "", note: "" };
    const found = await merged(files), notes = [];
    if (looked?.cut) notes.push(`Its packets are cut behind ${looked.cut} octets: both ends are in them, and what follows, as CollectorMaxDelay, is taken as 0.`);
    if (isJoined) notes.push("It joins captures one behind the other: its packets are sorted by time.");
    if (found.moved) notes.push(found.moved);
    if (found.doubled) notes.push(`${found.doubled} frames stand in several files: they are taken once.`);
    const numbers = new Map(isJoined ? [...found.places].map(([packet, { number }]) => [packet, number]) : []);
    return { ...found, comments: isJoined ? looked.comments : found.comments, source: isJoined ? files[0] : found.capture, places: files.length > 1 ? found.places : new Map(), numbers, note: notes.join(" ") };
}
