/* The records of a capture (docs/COMMAND.md), the links that they are of, and the links of each pair of systems. */

/* So many frames of so many ends are kept to be drawn; lagtool examines 64 ends. */
const MOST_KEPT = 100000, MOST_ENDS = 128;
const NO_SYSTEM = "00-00-00-00-00-00";
/* Seconds: the timeouts of 6.4.4. */
export const SHORT_TIMEOUT = 3;
const LONG_TIMEOUT = 90;
const BITS = ["active", "short", "aggregatable", "synchronized", "collecting", "distributing", "defaulted", "expired"];

/* Whether a finding calls for nothing, by its advice. */
export const isRemark = (finding) => finding.advice.startsWith("None is needed");
/* By what a finding is looked up: its rule, and the section of the standard. */
export const ruleOf = (finding) => `rule ${finding.rule}, ${finding.clause}`;
export const bitsOf = (octet) => BITS.filter((_, bit) => (octet >> bit) & 1);
export const hexadecimal = (number, digits = 2) => number.toString(16).padStart(digits, "0");
export const secondsOf = (seconds) => seconds === null ? "-" : seconds.toFixed(6);
/* A time as it stands in a sentence. */
export const roundedSeconds = (seconds) => `${seconds.toFixed(1)} s`;

/* The receive and the mux machine, as far as a state octet shows them. */
export function machinesOf(octet) {
    const has = new Set(bitsOf(octet));
    const receive = has.has("expired") ? "EXPIRED" : has.has("defaulted") ? "DEFAULTED" : "CURRENT";
    const mux = has.has("distributing") ? "DISTRIBUTING" : has.has("collecting") ? "COLLECTING"
        : has.has("synchronized") ? "ATTACHED" : "DETACHED or WAITING";
    return { receive, mux };
}

const MUX_SAID = new Map([
    ["DETACHED or WAITING", "has not attached it: it waits for an aggregator, or the 2 s before it attaches"],
    ["ATTACHED", "has attached it, and does not collect"], ["COLLECTING", "collects, and does not distribute"], ["DISTRIBUTING", "says that it distributes"],
]);
/* What an end does with its link by its state octet, behind the name of the end. */
export const muxSaid = (octet) => MUX_SAID.get(machinesOf(octet).mux);

/* What a frame says, in few words. */
export function saidBy(frame) {
    if (frame.kind === "lacpdu") return `LACPDU ${hexadecimal(frame.actor.state)} ${bitsOf(frame.actor.state).join(", ") || "none"}`;
    return frame.kind === "refused" ? `refused: ${frame.fault}` : `${frame.kind} ${frame.id}`;
}

/* One end of a link: an interface of the capture, a source address, and the number of its port, null where no frame names it. */
export class End {
    constructor(number, source, port, label) {
        this.interface = number;
        this.label = label ?? (number ? `interface ${number}` : "");
        this.source = source;
        this.port = port;
        this.frames = [];
        this.findings = [];
        this.actors = new Set();
        this.partners = new Set();
        this.system = null;
        this.named = null;
        this.distributes = false;
        this.last = null;
        this.record = null;
        this.others = [];
    }

    get name() {
        const source = `${this.label} ${this.source}`.trim();
        return this.port === null ? source : `${source} port ${this.port}`;
    }

    /* By its system: what is said of a link is of two systems. */
    get short() { return this.system ? `${addressOf(this.system)} port ${this.port}` : this.name; }

    /* Whether it has named a partner ever. */
    get hasHeard() { return [...this.partners].some((it) => isKnown(it.split(" ")[0])); }

    /* Whether it says that it hears nobody. */
    get isLost() { return this.has("defaulted") || this.has("expired"); }

    has(bit) { return this.last !== null && bitsOf(this.last.actor.state).includes(bit); }

    take(frame) {
        this.frames.push(frame);
        frame.end = this;
        if (frame.kind !== "lacpdu") return;
        this.actors.add(`${frame.actor.system} ${frame.actor.port}`);
        this.partners.add(`${frame.partner.system} ${frame.partner.port}`);
        this.system = frame.actor.system;
        this.named = frame.partner.system;
        this.distributes = bitsOf(frame.actor.state).includes("distributing");
        this.last = frame;
    }
}

/* Whether an end sends nothing more at the end of a capture, for longer than its partner waits; times are seconds. */
export function isSilent(end, until) {
    if (!end?.last || !end.record || !Number.isFinite(until)) return false;
    const partner = bitsOf(end.last.partner.state), timeout = partner.includes("short") && !end.has("expired") ? SHORT_TIMEOUT : LONG_TIMEOUT;
    return (end.has("active") || partner.includes("active")) && until - end.record.last > timeout;
}

const portNumberOf = (port) => Number(port.split("/")[1]);

/* The port that a frame names as its sender's; null where it names none. */
function portOf(frame) {
    if (frame.kind === "lacpdu") return portNumberOf(frame.actor.port);
    return frame.kind === "marker" ? frame.port : null;
}

/* What a capture says, record after record. */
export class Records {
    constructor() {
        this.ends = new Map();
        this.all = [];
        this.links = [];
        this.findings = [];
        this.frames = 0;
        this.kept = 0;
        this.unread = 0;
        this.others = 0;
        this.lacpdus = { first: Infinity, last: -Infinity };
        this.counts = null;
        this.names = new Map();
        this.comments = new Map();
        this.silent = [];
        this.fileEnds = new Map();
        this.places = new Map();
        this.numbers = new Map();
    }

    /* Where a packet stands: of several files, in which. */
    placeOf(packet) {
        const it = this.places.get(packet);
        return it ? `${it.file} packet ${it.number}` : `packet ${packet}`;
    }

    /* The end of these, which is there from now on; without a port it is the first of that source. */
    end(number, source, port) {
        const places = [`${number} ${source} ${port}`, `${number} ${source}`];
        const found = this.ends.get(places[port === null ? 1 : 0]);
        if (found) return found;
        const bare = this.ends.get(places[1]);
        if (bare && bare.port === null) bare.port = port;
        const end = bare && bare.port === port ? bare : new End(number, source, port, this.names.get(number));
        if (end !== bare) this.all.push(end);
        this.ends.set(places[0], end);
        if (!bare) this.ends.set(places[1], end);
        return end;
    }

    /* The end that a record names, if frames of it were kept. */
    endOf({ interface: number, source, port }) { return this.ends.get(`${number} ${source} ${port}`) ?? null; }

    add(record) {
        if (this.numbers.has(record.packet)) record.packet = this.numbers.get(record.packet);
        if (record.record === "frame") this.addFrame(record);
        if (record.record === "link") this.links.push(record);
        if (record.record === "finding") this.addFinding(record);
        if (record.record === "end") this.addEnd(record);
        if (record.record === "counts") this.counts = record;
    }

    addFrame(frame) {
        this.count(frame);
        const port = portOf(frame), { interface: number, source } = frame;
        if (this.all.length >= MOST_ENDS && !this.ends.has(port === null ? `${number} ${source}` : `${number} ${source} ${port}`)) return;
        this.kept += 1;
        this.end(number, source, port).take(frame);
    }

    /* A frame that is refused could not be read, unless it is of another slow protocol by its subtype. */
    count(frame) {
        this.frames += 1;
        if (frame.kind !== "refused") return;
        if (frame.fault.startsWith("octet 0 names")) this.others += 1;
        else this.unread += 1;
    }

    addEnd(record) {
        const { first, last, distributing: { began, ended } } = record;
        if (first === null || last === null) return;
        this.lacpdus = { first: Math.min(this.lacpdus.first, first), last: Math.max(this.lacpdus.last, last) };
        const end = this.endOf(record);
        if (end) end.record = record;
        if (end && this.kept >= MOST_KEPT) end.distributes = began !== null && (ended === null || ended < began);
    }

    /* How many seconds there are from the first LACPDU to the last; null where nothing says so. */
    get lasts() {
        const { first, last } = this.lacpdus;
        return first <= last ? last - first : null;
    }

    addFinding(finding) {
        const { interface: number, source, port } = finding.end;
        finding.at = this.end(number, source, port);
        finding.at.findings.push(finding);
        this.findings.push(finding);
    }

    addLines(text) {
        for (const line of text.split("\n")) {
            const isCounted = this.kept >= MOST_KEPT && line.startsWith('{"record":"frame"');
            if (isCounted && !line.includes('"kind":"refused"')) this.frames += 1;
            else if (isCounted) this.count(JSON.parse(line));
            else if (line) this.add(JSON.parse(line));
        }
    }
}

/* Who answered an end ever: whom its LACPDUs name, or who names it, on the same interface. */
function partnerOf(end, actors, partners) {
    const places = (set) => [...set].map((it) => `${end.interface} ${it}`);
    const found = [...places(end.partners).flatMap((it) => actors.get(it) ?? []), ...places(end.actors).flatMap((it) => partners.get(it) ?? [])];
    return found.find((it) => it !== end) ?? null;
}

function listed(ends, setOf) {
    const lists = new Map();
    for (const end of ends) {
        for (const it of setOf(end)) {
            const place = `${end.interface} ${it}`;
            if (!lists.has(place)) lists.set(place, []);
            lists.get(place).push(end);
        }
    }
    return lists;
}

const byTime = (one, other) => one.seconds === null || other.seconds === null ? one.packet - other.packet
    : one.seconds - other.seconds || one.packet - other.packet;
const findingsFirst = (list) => [...list.filter((it) => it.findings.length), ...list.filter((it) => !it.findings.length)];

/* The other end of a link whose ends hear nobody, and so name nobody: of two that are alone on an interface. Two of one system may be of two links. */
function otherUnheard(end, ends) {
    const here = ends.filter((it) => it.interface === end.interface && it.last), other = here.find((it) => it !== end && addressOf(it.system) !== addressOf(end.system));
    return other && here.length === 2 && here.includes(end) && here.every((it) => !it.hasHeard) ? other : null;
}

/* Whether an end named another one last, as its partner. */
export const namesLast = (end, { last }) => Boolean(end.last && last) && end.last.partner.system === last.actor.system && end.last.partner.port === last.actor.port;

/* The pairs of ends that the module's links have, and whether each carries. An end may be in two of them, with the one who answered it before
 * and with the one who does now: those that name each other last, and speak still, come first. */
function pairsSaid(records) {
    const said = records.links.map(({ end, partner, carries }) => ({ ends: [records.endOf(end), partner && records.endOf(partner)], carries })).filter(({ ends }) => ends.every(Boolean));
    const rankOf = ({ ends: [one, other] }) => (namesLast(one, other) && namesLast(other, one) ? 0 : 2) + Number([one, other].some((it) => isSilent(it, records.lacpdus.last)));
    return [0, 1, 2, 3].flatMap((rank) => said.filter((it) => rankOf(it) === rank));
}

const isUpByItself = (end) => end.distributes && !end.isLost;

/* An end of a link that says the same of itself, from another source address, and names no other partner; null where there is none. */
function sameEnd(end, ends) {
    const named = (it) => [...it.partners].filter((one) => isKnown(one.split(" ")[0])), isHere = (it) => it !== end && it.last && it.interface === end.interface && it.port === end.port && it.system === end.system;
    return end.last ? ends.find((it) => isHere(it) && (!named(end).length || named(end).some((one) => it.partners.has(one)))) ?? null : null;
}

/* Takes ends that are one with another one, of a link, to that; gives those that are left. */
function othersTaken(ends, seen) {
    return ends.filter((end) => {
        const it = sameEnd(end, [...seen]);
        if (it) it.others.push(end);
        return !it;
    });
}

/* A link: two ends, of which the second may not be heard (null), their frames in the order of times, and their findings. */
const linkOf = (ends, carries) => {
    const heard = ends.filter(Boolean).flatMap((it) => [it, ...it.others]);
    return { ends, carries, frames: heard.flatMap((it) => it.frames).sort(byTime), findings: heard.flatMap((it) => it.findings) };
};

/* The links: those of the module; then ends that are left, with who answered them before. Of more ends than the module examines it is said by
 * their bits whether they carry. */
function linksOf(records) {
    const ends = records.all, pairs = new Map(), seen = new Set();
    const take = (carries, ...both) => {
        const pair = { both, carries };
        for (const it of both) {
            seen.add(it);
            pairs.set(it, pair);
        }
    };
    for (const { ends: both, carries } of pairsSaid(records)) if (both.every((it) => !seen.has(it))) take(carries, ...both);
    const free = othersTaken(ends.filter((it) => !seen.has(it)), seen), actors = listed(free, (it) => it.actors), partners = listed(free, (it) => it.partners);
    for (const end of free) {
        if (seen.has(end)) continue;
        const found = partnerOf(end, actors, partners) ?? otherUnheard(end, free), partner = found && !seen.has(found) ? found : null;
        take(Boolean(partner && !end.record && isUpByItself(end) && isUpByItself(partner)), ...partner ? [end, partner] : [end]);
    }
    return [...new Set(ends.map((it) => pairs.get(it)).filter(Boolean))].map(({ both, carries }) => linkOf(both.length > 1 ? both : [both[0], null], carries));
}

/* Marks links of one end that is silent, where another end stands in its place now: nothing of it holds still. */
function markPast(links, until) {
    for (const link of links) {
        const [end, other] = link.ends, meet = (one, another) => [...one].some((it) => another.has(it));
        const near = other ? [] : links.filter((it) => it !== link && it.ends[1]).flatMap((it) => it.ends).filter((it) => it.interface === end.interface);
        link.isPast = !other && isSilent(end, until) && near.some((it) => meet(end.partners, it.actors) || meet(it.partners, end.actors));
    }
}

/* Marks up to when each link is judged (`until`), which is the end of its file; and links that are silent beside the other files, and not up to there
 * (`early`): whether the file is cut short, and whether the link carries then. */
function markEarly(links, { fileEnds, lacpdus }) {
    for (const link of links) {
        const heard = link.ends.filter((it) => it?.last), file = heard.length ? fileEnds.get(heard[0].interface) : null, [one, other] = heard;
        link.until = Math.min(file?.until ?? Infinity, lacpdus.last);
        const isEarly = heard.some((it) => isSilent(it, lacpdus.last)) && !heard.some((it) => isSilent(it, link.until));
        const carries = heard.length === 2 && heard.every(isUpByItself) && namesLast(one, other) && namesLast(other, one);
        link.early = isEarly ? { isCut: file.isCut, carries } : null;
    }
}

/* Ends beside a link, on the interface of one of its ends, that spoke with it: they named it, or it named them. */
export function othersBeside(link, at, { all }) {
    const meet = (one, other) => [...one].some((it) => other.has(it)), ends = link.ends.filter(Boolean);
    return all.filter((it) => it.last && it.interface === at.interface && !ends.includes(it) && ends.some((end) => meet(end.partners, it.actors) || meet(it.partners, end.actors)));
}

export const isKnown = (system) => system !== "" && !system.endsWith(NO_SYSTEM);

/* The two systems of a link, the lower one first; its ends are turned likewise. */
function systemsOf(link) {
    const [one, other] = link.ends, systems = [one.system ?? "", (other ? other.system : one.named) ?? ""];
    if (!isKnown(systems[1]) || systems[0] <= systems[1]) return systems;
    link.ends.reverse();
    return systems.reverse();
}

/* A link whose other system is not known belongs to the one pair that its own system is in, if there is one alone. */
function pairOfUnknown([system], pairs) {
    const found = pairs.filter((it) => it.includes(system) && it.every(isKnown));
    return found.length === 1 ? found[0] : null;
}

/* The links of each pair of systems. Pairs with a finding stand before the others, and so do their links. */
export function bundlesOf(records) {
    const all = linksOf(records);
    markPast(all, records.lacpdus.last);
    markEarly(all, records);
    const links = all.map((link) => ({ link, systems: systemsOf(link) }));
    const pairs = new Map(links.map(({ systems }) => [systems.join(" "), systems])), bundles = new Map();
    for (const { link, systems } of links) {
        const pair = (isKnown(systems[1]) ? null : pairOfUnknown(systems, [...pairs.values()])) ?? systems, name = pair.join(" ");
        if (pair[0] !== systems[0]) link.ends.reverse();
        if (!bundles.has(name)) bundles.set(name, { systems: pair, links: [], findings: [] });
        bundles.get(name).links.push(link);
        bundles.get(name).findings.push(...link.findings);
    }
    for (const it of bundles.values()) it.links = findingsFirst(it.links);
    return findingsFirst([...bundles.values()]);
}

/* The MAC address of a system. */
export const addressOf = (system) => system.split("/")[1];

/* What a pair of systems is called: by their addresses. */
export function nameOf(bundle) {
    const [one, other] = bundle.systems.map((it) => isKnown(it) ? addressOf(it) : "a system that is not heard");
    return `${one} and ${other}`;
}
