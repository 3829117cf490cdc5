/* Reads what switches print of LACP. These forms are written down from memory of manuals: no device printed them for us, and examples/status has texts that were
 * made by hand. Each is told by its head; what stands in it is read where it stands, and what it lacks is said. A text of the neighbour gives what the port heard
 * of it, and of the switch's own end nothing but that. */

import { bundleOfText, macOf, NO_ADDRESS, numberOf, portOfText, TEXT_BITS } from "./readings.js";

const IN_USE = TEXT_BITS.SYNCHRONIZED | TEXT_BITS.COLLECTING | TEXT_BITS.DISTRIBUTING;
const sum = (bits) => bits.reduce((octet, bit) => octet | bit, 0);
const linesIn = (text) => text.split("\n");
/* A number as it is printed: 0x14, or decimal. */
const printedNumber = (text) => numberOf(text?.trim());

/* That a text has part of what is wanted, and which has more. */
const lacks = (text, what, more) => ({ name: "note", text: `${text} has nothing of ${what}`, advice: more });
const noLacpdus = (text, more) => ({ name: "no-state", text: `${text} lacks the LACPDUs`, advice: more });

/* A port of which the text has what its neighbour says: this end hears it, and all else of this end is not said. */
function ofNeighbour(name, partner, more = {}) {
    const isUsed = (partner.state & IN_USE) === IN_USE, own = TEXT_BITS.ACTIVE | TEXT_BITS.AGGREGATABLE | (isUsed ? IN_USE : 0);
    const actor = { priority: null, system: null, key: null, portPriority: null, port: null, state: own };
    return portOfText({ name, actor, partner, isUsed, isOwnSaid: false, by: "as its neighbor says", ...more });
}

/* A port of which the text has a word alone. */
const ofWord = (name, link, isUsed, says, more = {}) => portOfText({ name, link, isUsed, says, by: "as the text says", ...more });

/* What each word of a summary says of a port. `fact` names what has to be done. */
const SUMMARY_WORDS = new Map([
    ["P", { isUsed: true }], ["U", { isUsed: true }],
    ["s", { isUsed: false, link: true, says: "it is suspended", fact: "suspended" }],
    ["I", { isUsed: false, link: true, says: "it stands alone, in no bundle", fact: "suspended" }],
    ["i", { isUsed: false, link: true, says: "it stands alone, in no bundle", fact: "suspended" }],
    ["w", { isUsed: false, link: true, says: "it waits to be aggregated", fact: "suspended" }],
    ["H", { isUsed: false, link: true, says: "it stands by (hot-standby)", fact: "hot-standby" }],
    ["h", { isUsed: false, link: true, says: "it stands by (hot-standby)", fact: "hot-standby" }],
    ["D", { isUsed: false, link: false, says: "its link is down" }],
    ["r", { isUsed: false, link: false, says: "its module is removed" }],
    ["u", { isUsed: false, link: true, says: "it is unsuitable for bundling", fact: "suspended" }],
    ["f", { isUsed: false, link: true, says: "its aggregator failed", fact: "suspended" }],
    ["M", { isUsed: false, link: true, says: "not in use, since min-links is not met", fact: "suspended" }],
    ["m", { isUsed: false, link: true, says: "not in use, since min-links is not met", fact: "suspended" }],
]);

/* What is to be done where ports are out of their group. */
function factsOfSummary(told, ports) {
    const [out, standing] = ["suspended", "hot-standby"].map((fact) => ports.filter((it) => it.fact === fact)), namesOf = (list) => list.map(({ name }) => name).join(", ");
    return [
        { name: "suspended", ports: out, title: `the switch has ${namesOf(out)} in no bundle`,
            advice: "No LACPDU comes there, or the neighbor has another system or key there than on the other links (or speed, duplex, VLANs differ). show lacp neighbor says which; "
                + "at a Linux host: mode=802.3ad, and all ports in one bond." },
        { name: "hot-standby", ports: standing, title: `${namesOf(standing)} stands by`, advice: `${told} has links enough (lacp max-bundle, or the limit of the switch): it takes over when one in use fails.` },
    ];
}

/* ---- show etherchannel summary, show port-channel summary ---- */

const GROUP_LINE = /^(\d+)\s+(Po\d+|Port-channel\d+)\(([A-Za-z]+)\)\s+(.*)$/;
const MEMBER = /([A-Za-z][\w./-]*\d)\(([A-Za-z]+)\)/g;

/* The groups of a summary, each with the lines that go on with its members. */
function groupsOf(text) {
    const groups = [];
    for (const line of linesIn(text)) {
        const [, , name, flags, rest] = GROUP_LINE.exec(line.trim()) ?? [];
        if (name) groups.push({ name, flags, rest });
        else if (groups.length && /^\s+\S+\([A-Za-z]+\)/.test(line)) groups.at(-1).rest += ` ${line.trim()}`;
        else if (groups.length && line.trim() && !/^[-\s]*$/.test(line)) break;
    }
    return groups;
}

function bundleOfGroup({ name, rest }) {
    const ports = [...rest.matchAll(MEMBER)].map(([, port, flags]) => {
        const said = [...flags].map((it) => SUMMARY_WORDS.get(it)).find(Boolean);
        return ofWord(port, said?.link ?? (said?.isUsed ? true : null), said?.isUsed ?? null, said?.says ?? (said ? "" : `its flag is ${flags}`), { fact: said?.fact ?? "" });
    });
    return bundleOfText(name, `the group ${name}`, ports, { facts: factsOfSummary(`the group ${name}`, ports) });
}

function summary(text) {
    const groups = groupsOf(text), protocolOf = ({ rest }) => /\b(LACP|PAgP|PAGP|NONE|none)\b|(?:^|\s)-(?=\s)/.exec(rest)?.[0].trim().toUpperCase() ?? "";
    const other = groups.filter((it) => protocolOf(it) !== "LACP"), lacp = groups.filter((it) => protocolOf(it) === "LACP");
    const notes = other.map((it) => ({
        name: "no-lacp", text: `the group ${it.name} does not speak LACP: ${protocolOf(it) === "PAGP" ? "it speaks PAgP" : "it is static (mode on)"}`, advice: "LACP is channel-group N mode active.",
    }));
    const more = lacp.length ? [lacks("this text", "what the neighbor says (no system, key, port or state)", "show lacp neighbor has it.")] : [];
    return { form: "switch", bundles: lacp.map(bundleOfGroup), notes: groups.length ? [...notes, ...more] : [{ name: "no-state", text: "no group is in this text" }] };
}

/* ---- show lacp neighbor, show lacp neighbor detail ---- */

const FLAGS = new Map([["A", TEXT_BITS.ACTIVE], ["P", 0], ["F", TEXT_BITS.SHORT], ["S", 0]]);
const DOTTED = "[0-9a-f]{4}\\.[0-9a-f]{4}\\.[0-9a-f]{4}";
/* Port, flags, priority, device, age, keys, number and state of a neighbour; older forms have no administrative key. */
const NEIGHBOUR = new RegExp(`^\\s*(\\S+)\\s+([SFAP]{2})\\s+(\\d+)\\s+(${DOTTED})\\s+\\d+s?\\s+(?:0x[0-9a-f]+\\s+)?(0x[0-9a-f]+)\\s+(0x[0-9a-f]+)\\s+(0x[0-9a-f]+)\\s*$`, "i");
/* Of the detailed form the line of the system, and the one of the key, behind it. */
const SYSTEM_LINE = new RegExp(`^\\s*(\\S+)\\s+(\\d+),\\s*(${DOTTED})\\s+(0x[0-9a-f]+|\\d+)\\s+\\d+s?\\s+([SFAP]{2})\\s*$`, "i");
/* A state of one digit, of two perhaps, at the very end of a text. */
const MAY_GO_ON = / 0x[0-9a-f]$/i;
const KEY_LINE = /^\s*(\d+)\s+(0x[0-9a-f]+)\s+(0x[0-9a-f]+)\s*$/i;

function neighbours(text) {
    const groups = [];
    let name = "", detail = null;
    const put = (port) => {
        if (groups.at(-1)?.name !== name) groups.push({ name, ports: [] });
        groups.at(-1).ports.push(port);
    };
    for (const line of linesIn(text)) {
        const [, group] = /^Channel group (\d+)/.exec(line) ?? [];
        if (group) name = `group ${group}`;
        const [, port, flags, priority, device, key, number, state] = NEIGHBOUR.exec(line) ?? [], far = SYSTEM_LINE.exec(line), keys = KEY_LINE.exec(line);
        if (port) put(ofNeighbour(port, { priority: printedNumber(priority), system: macOf(device), key: printedNumber(key), portPriority: null, port: printedNumber(number), state: printedNumber(state) ?? sum([...flags].map((it) => FLAGS.get(it.toUpperCase()))) }));
        if (far) detail = { port: far[1], partner: { priority: printedNumber(far[2]), system: macOf(far[3]), port: printedNumber(far[4]) } };
        if (keys && detail) put(ofNeighbour(detail.port, { ...detail.partner, portPriority: printedNumber(keys[1]), key: printedNumber(keys[2]), state: printedNumber(keys[3]) }));
        if (keys) detail = null;
    }
    const note = lacks("this text", "this switch's own end", "show lacp internal has it; show etherchannel summary (NX-OS: show port-channel summary) says which ports are bundled.");
    const isCut = !groups.length || detail !== null || MAY_GO_ON.test(text);
    const cut = groups.length ? "its last row may go on" : "it has no row of a neighbor (if it is whole, no LACPDU comes on a port of these groups: look at the other end; a Linux bond has mode=802.3ad)";
    return { form: "switch", bundles: isCut ? [bundleOfText("the group", "the group", [], { isCut, cut })] : groups.map(bundleHeard), notes: isCut ? [] : [note] };
}

/* A bundle of a group with its ports: each group is another key of this end. A neighbour whose system is 0 is none. */
function bundleHeard({ name, ports }) {
    const key = Number(/\d+$/.exec(name)?.[0] ?? 1), isNone = ({ partner: { system } }) => system === NO_ADDRESS;
    const own = ports.map((it) => ({ ...it, actor: { ...it.actor, key }, ...isNone(it) ? { partner: null, isUsed: false, actor: { ...it.actor, key, state: TEXT_BITS.ACTIVE | TEXT_BITS.AGGREGATABLE | TEXT_BITS.DEFAULTED } } : {} }));
    const out = own.filter(({ partner }) => partner && !(partner.state & (TEXT_BITS.SYNCHRONIZED | TEXT_BITS.DEFAULTED | TEXT_BITS.EXPIRED)));
    const facts = [{
        name: "unattached-there", ports: out, title: `the neighbor has not attached ${out.map((it) => it.name).join(", ")}`,
        advice: "It has chosen another aggregator there (another key, speed or system than on its other links), or has links enough. At a Linux host: compare the Aggregator IDs in /proc/net/bonding/bond0.",
    }];
    return bundleOfText(name, `the ${name.startsWith("group") ? "channel " : "group "}${name}`, own, { facts });
}

/* ---- show lacp interfaces, show lacp statistics interfaces (Junos) ---- */

const ROLE = /^\s*(\S+)\s+(Actor|Partner)\s+(Yes|No)\s+(Yes|No)\s+(Yes|No)\s+(Yes|No)\s+(Yes|No)\s+(Yes|No)\s+(Fast|Slow)\s+(Active|Passive)\s*$/i;
const ROLE_BITS = [TEXT_BITS.EXPIRED, TEXT_BITS.DEFAULTED, TEXT_BITS.DISTRIBUTING, TEXT_BITS.COLLECTING, TEXT_BITS.SYNCHRONIZED, TEXT_BITS.AGGREGATABLE];
const PROTOCOL = /^\s*(\S+)\s+(Current|Expired|Defaulted|Initialize|Port disabled|LACP disabled)\s+(.*?)\s*$/i;

const stateOfRole = ([, , , ...words]) => sum([...ROLE_BITS.filter((_, at) => /yes/i.test(words[at])), /fast/i.test(words[6]) ? TEXT_BITS.SHORT : 0, /active/i.test(words[7]) ? TEXT_BITS.ACTIVE : 0]);

function ofJunos(text) {
    const bundles = text.split(/^(?=\s*Aggregated interface: )/m).map((part) => {
        const [, name] = /^\s*Aggregated interface: (\S+)/.exec(part) ?? [], ports = new Map(), partyOf = (state) => ({ priority: null, system: null, key: null, portPriority: null, port: null, state });
        const portAt = (port) => ports.set(port, ports.get(port) ?? { name: port }).get(port);
        for (const line of linesIn(part)) {
            const role = ROLE.exec(line), protocol = PROTOCOL.exec(line);
            if (role) portAt(role[1])[role[2].toLowerCase()] = stateOfRole(role);
            else if (protocol && ports.has(protocol[1])) Object.assign(portAt(protocol[1]), { receive: protocol[2], mux: protocol[3] });
        }
        const made = [...ports.values()].map(({ name: port, actor, partner, receive = "", mux = "" }) => {
            const isDown = /disabled/i.test(receive), isHeard = partner !== undefined && !((actor ?? 0) & TEXT_BITS.DEFAULTED);
            return portOfText({
                name: port, link: isDown ? false : null, actor: actor === undefined ? null : partyOf(actor), partner: isHeard ? partyOf(partner) : null,
                isUsed: mux ? /collecting distributing/i.test(mux) && isHeard : null,
            });
        });
        return name && bundleOfText(name, `the bundle ${name}`, made, { isCut: made.some((it) => !it.actor) });
    }).filter(Boolean);
    return { form: "switch", bundles, notes: [lacks("this text", "systems, keys and numbers of ports", "show lacp interfaces NAME extensive has them.")] };
}

const COUNT_LINE = /^\s*(\S+)\s+(\d+)\s+(\d+)\s+(\d+)\s+(\d+)\s*$/;

function ofCounts(text) {
    const bundles = text.split(/^(?=\s*Aggregated interface: )/m).map((part) => {
        const [, name] = /^\s*Aggregated interface: (\S+)/.exec(part) ?? [];
        const ports = [...linesIn(part)].map((line) => COUNT_LINE.exec(line)).filter(Boolean).map(([, port, received, sent, unknown, illegal]) => ofWord(port, null, null, "", {
            facts: [`${received} LACPDUs came, ${sent} were sent${Number(unknown) + Number(illegal) ? `, ${unknown} of unknown kinds and ${illegal} illegal ones came` : ""}`], received: Number(received), sent: Number(sent),
        }));
        const [deaf, mute] = ["received", "sent"].map((it) => ports.filter((port) => port[it] === 0));
        const facts = [
            { name: "none-came", ports: deaf, title: `no LACPDU came on ${deaf.map((it) => it.name).join(", ")}`, advice: "Is LACP on at the far end, and does the cable lead there? A Linux bond has mode=802.3ad." },
            { name: "none-sent", ports: mute, title: `no LACPDU was sent on ${mute.map((it) => it.name).join(", ")}`, advice: "Set LACP to active here (aggregated-ether-options lacp active), unless the far end is." },
        ];
        return name && bundleOfText(name, `the bundle ${name}`, ports, { facts });
    }).filter(Boolean);
    const words = ["this text has counts alone, and", "show lacp interfaces has the states."], isFound = bundles.some((it) => it.facts.some(({ ports }) => ports.length));
    return { form: "switch", bundles, notes: [isFound ? lacks("this text", "states, systems and keys", words[1]) : noLacpdus(...words)] };
}

/* ---- show lacp peer (Arista EOS) ---- */

const PEER = /^\s*(\S+)\s+(Bundled|\w[\w ]*?)\s*\|\s*([0-9A-F]{4}),((?:[0-9a-f]{2}-){5}[0-9a-f]{2})\s+(\d+)\s+([APSLGIs+\-CXDd]+)\s+(0x[0-9a-f]+)(?:\s+(\d+))?\s*$/i;

/* The octet of letters such as ALGs+CD. */
function octetOfLetters(letters) {
    const has = (it) => letters.includes(it);
    return sum([has("A") ? TEXT_BITS.ACTIVE : 0, has("S") ? TEXT_BITS.SHORT : 0, has("G") ? TEXT_BITS.AGGREGATABLE : 0, has("s+") ? TEXT_BITS.SYNCHRONIZED : 0, has("C") ? TEXT_BITS.COLLECTING : 0, has("D") ? TEXT_BITS.DISTRIBUTING : 0, has("d") ? TEXT_BITS.DEFAULTED : 0, has("X") ? TEXT_BITS.EXPIRED : 0]);
}

function peers(text) {
    const groups = [];
    for (const line of linesIn(text)) {
        const [, name] = /^Port Channel (\S+?):/.exec(line) ?? [], [, port, status, priority, system, number, letters, key] = PEER.exec(line) ?? [];
        if (name) groups.push({ name, ports: [] });
        if (port) groups.at(-1)?.ports.push(ofNeighbour(port, { priority: parseInt(priority, 16), system: macOf(system), key: printedNumber(key), portPriority: null, port: printedNumber(number), state: octetOfLetters(letters) },
            { isUsed: status === "Bundled", says: status === "Bundled" ? "" : `its status is ${status}` }));
    }
    const bundles = groups.map(bundleHeard);
    return { form: "switch", bundles, notes: [lacks("this text", "this switch's own end", "show lacp internal has it.")] };
}

/* ---- net show interface bonds (Cumulus Linux) ---- */

const BOND_LINE = /^\s*(UP|DN|ADMDN)\s+(\S+)\s+.*?Bond Members: (.*)$/;

function bonds(text) {
    const bundles = linesIn(text).map((line) => BOND_LINE.exec(line)).filter(Boolean).map(([, , name, members]) =>
        bundleOfText(name, `the bond ${name}`, [...members.matchAll(/(\S+?)\((UP|DN|ADMDN)\)/g)].map(([, port, word]) => ofWord(port, word === "UP", null, "", { isSetDown: word === "ADMDN" ? true : null }))));
    const more = "It is a Linux bond: sudo cat /proc/net/bonding/NAME on that switch has them.", isFound = bundles.some(({ ports }) => ports.some((it) => !it.link));
    return { form: "switch", bundles, notes: [isFound ? lacks("this text", "LACPDUs", more) : noLacpdus("this text", more)] };
}

/* ---- Any of them ---- */

/* Each form of a switch's text, by what only it has. */
export const SWITCH_FORMS = [
    [/^\s*Port Channel \S+:\s*$|\bPartner\s*$[\s\S]*?\bSys-id\b/m, peers],
    [/^Channel group \d+ neighbors\s*$|^Partner's information:\s*$/m, neighbours],
    [/^Group\s+Port-channel\s+Protocol\s+Ports\s*$|^Group\s+Port-\s+Type\s+Protocol\s+Member Ports\s*$/m, summary],
    [/^\s*LACP state:\s+Role\s+Exp\s+Def\s+Dist\s+Col\s+Syn\s+Aggr\s+Timeout\s+Activity\s*$/m, ofJunos],
    [/^\s*LACP Statistics:\s+LACP Rx\s+LACP Tx\b/m, ofCounts],
    [/\bBond Members: \S+\((?:UP|DN|ADMDN)\)/, bonds],
];
