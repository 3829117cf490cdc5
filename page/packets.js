/* Captures, pcap and pcapng, packet after packet; and the octets of one packet, by its number. What the module says does not rest on this. */

/* Octets that are read at once; a packet has fewer, as a rule. */
export const PIECE = 1 << 20;
const NANOSECONDS = 1000000000n;

/* Types of links, the type of a slow protocols frame, and those of tags. */
export const ETHERNET = 1;
export const COOKED = 113;
export const COOKED_2 = 276;
export const SLOW = 0x8809;
export const TAGS = [0x8100, 0x88a8, 0x9100];
/* Whether octets stand with the lowest first, by the number that a pcap begins with; of these, those with nanoseconds. */
const PCAP = new Map([[0xa1b2c3d4, true], [0xa1b23c4d, true], [0xd4c3b2a1, false], [0x4d3cb2a1, false]]);
const NANO = [0xa1b23c4d, 0x4d3cb2a1];
/* Blocks of pcapng. */
export const SECTION = 0x0a0d0d0a;
export const INTERFACE = 1;
const OLD_PACKET = 2, SIMPLE = 3;
export const PACKET = 6;
/* Options of pcapng: a comment; the name, the unit and the offset of the times of an interface. */
const COMMENT = 1, IF_NAME = 2, IF_TSOFFSET = 14;
export const IF_TSRESOL = 9;

/* The numbers of an interface of a section. */
class Interface {
    constructor(number, link) {
        Object.assign(this, { number, link, name: "", units: 1000000n, offset: 0n });
    }

    /* Nanoseconds since the beginning of 1970. */
    time(high, low) { return ((BigInt(high) << 32n) + BigInt(low)) * NANOSECONDS / this.units + this.offset * NANOSECONDS; }
}

/* The options of a block, from an offset to another. */
function* optionsIn(view, from, to, little) {
    for (let at = from; at + 4 <= to;) {
        const code = view.getUint16(at, little), length = view.getUint16(at + 2, little);
        if (!code || at + 4 + length > to) return;
        yield { code, octets: new Uint8Array(view.buffer, view.byteOffset + at + 4, length) };
        at += 4 + 4 * Math.ceil(length / 4);
    }
}

const textIn = (octets) => new TextDecoder().decode(octets).replace(/\0+$/, "");

/* An interface by its block. */
function interfaceIn(view, at, length, little, number) {
    const it = new Interface(number, view.getUint16(at + 8, little));
    for (const { code, octets } of optionsIn(view, at + 16, at + length - 4, little)) {
        if (code === IF_NAME) it.name = textIn(octets);
        if (code === IF_TSRESOL) it.units = octets[0] & 128 ? 1n << BigInt(octets[0] & 127) : 10n ** BigInt(octets[0]);
        if (code === IF_TSOFFSET) it.offset = new DataView(octets.buffer, octets.byteOffset, 8).getBigInt64(0, little);
    }
    return it;
}

/* A packet: its number, interface, octets as they were captured, how many it had, and its nanoseconds (null: not said) and comments, which are
 * read where somebody asks for them. */
class Packet {
    constructor(number, from, octets, original, more) {
        Object.assign(this, { number, from, octets, original, more });
    }

    get time() { return this.more.time?.() ?? null; }

    get comment() { return this.more.comment?.() ?? ""; }
}

/* How a capture is read: the order of its octets, the interfaces of its section, and how many packets have passed. */
export class Reading {
    constructor(head) {
        const magic = head.byteLength < 4 ? 0 : head.getUint32(0, true);
        this.isPcap = PCAP.has(magic);
        this.isCapture = this.isPcap ? head.byteLength === 24 : magic === SECTION;
        this.little = this.isPcap ? PCAP.get(magic) : true;
        this.isNano = NANO.includes(magic);
        this.number = 0;
        this.interfaces = this.isPcap && head.byteLength >= 24 ? [new Interface(0, head.getUint32(20, this.little) & 0xffff)] : [];
        this.start = this.isPcap ? 24 : 0;
    }

    copy() { return Object.assign(Object.create(Reading.prototype), this, { interfaces: [...this.interfaces] }); }

    /* A record or a block: its length, and its packet, if it has one; null where the piece ends before it does. */
    step(view, at) { return this.isPcap ? this.record(view, at) : this.block(view, at); }

    record(view, at) {
        if (at + 16 > view.byteLength) return null;
        const [seconds, part, count, original] = [0, 4, 8, 12].map((it) => view.getUint32(at + it, this.little));
        if (at + 16 + count > view.byteLength) return null;
        const time = () => BigInt(seconds) * NANOSECONDS + BigInt(part) * (this.isNano ? 1n : 1000n);
        return { length: 16 + count, packet: this.packet(this.interfaces[0], original, view, at + 16, count, { time }) };
    }

    packet(from, original, view, at, count, more) {
        this.number += 1;
        return new Packet(this.number, from, new Uint8Array(view.buffer, view.byteOffset + at, count), original, more);
    }

    block(view, at) {
        if (at + 12 > view.byteLength) return null;
        const kind = view.getUint32(at, this.little);
        if (kind === SECTION) {
            this.little = view.getUint32(at + 8, true) === 0x1a2b3c4d;
            this.interfaces = [];
        }
        const length = view.getUint32(at + 4, this.little);
        if (length < 12 || at + length > view.byteLength) return null;
        if (kind === INTERFACE) this.interfaces.push(interfaceIn(view, at, length, this.little, this.interfaces.length));
        return { length, packet: this.packetIn(kind, view, at, length) };
    }

    packetIn(kind, view, at, length) {
        if (kind === SIMPLE) {
            const original = view.getUint32(at + 8, this.little);
            return this.interfaces.length ? this.packet(this.interfaces[0], original, view, at + 12, Math.min(original, length - 16), {}) : null;
        }
        if (kind !== PACKET && kind !== OLD_PACKET) return null;
        const number = kind === PACKET ? view.getUint32(at + 8, this.little) : view.getUint16(at + 8, this.little), it = this.interfaces[number];
        const [high, low, count, original] = [12, 16, 20, 24].map((place) => view.getUint32(at + place, this.little));
        if (!it || count > length - 32) return null;
        const { little } = this, options = () => [...optionsIn(view, at + 28 + 4 * Math.ceil(count / 4), at + length - 4, little)];
        const comment = () => options().filter(({ code }) => code === COMMENT).map(({ octets }) => textIn(octets)).join("; ");
        return this.packet(it, original, view, at + 28, count, { time: () => it.time(high, low), comment });
    }
}

/* Packets by their numbers. It keeps where pieces begin, and how they are read on. */
export class Packets {
    constructor(blob) {
        this.blob = blob;
        this.places = [];
    }

    async view(offset, count) { return new DataView(await this.blob.slice(offset, offset + count).arrayBuffer()); }

    async begin() {
        const reading = new Reading(await this.view(0, 24));
        this.places.push({ offset: reading.start, reading });
    }

    /* The octets of a packet and the type of its link; null where it is not found. */
    async packet(number) {
        if (!this.places.length) await this.begin();
        const place = this.places.filter((it) => it.reading.number < number).at(-1), reading = place.reading.copy();
        for (let { offset } = place; offset < this.blob.size;) {
            const view = await this.view(offset, PIECE);
            let at = 0;
            for (let step = reading.step(view, at); step; step = reading.step(view, at)) {
                if (step.packet?.number === number) return { octets: step.packet.octets.slice(), link: step.packet.from.link };
                at += step.length;
            }
            if (!at) return null;
            offset += at;
            if (reading.number > this.places.at(-1).reading.number) this.places.push({ offset, reading: reading.copy() });
        }
        return null;
    }
}
