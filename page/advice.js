/* What a rule says of a text: its title where a status is one moment, what is seen, and what to do, in the words of the program whose text it is. */

import { adviceOnTwoSystems, capitalized, joinedBy, OWN_SYSTEM, TWO_BOXES } from "./keys.js";
import { NO_ROOM } from "./status.js";

/* For each form of a text what to look at where it does not say whether a link is up, how its program counts LACPDUs (of bonding, which counts none, what a
 * capture tells), what sets it to active, what gives its ports one key, and how it uses one link, with a spare, without LACP. */
const BONDING = {
    group: "look at the port at the other end: is it in a channel group with LACP (switch: channel-group, mode active, not on; Linux bonding: mode=802.3ad), and does it send "
        + "(Cisco IOS, Arista: show lacp counters)? If it sends none, LACP is off there. If it does, ",
    told: [
        "LACPDUs of the other end come as often as this end asks for them (lacp_rate fast: each second): they are lost in this end's receiver.",
        "If it asks for one each second, and one comes each 30 s, that end hears nobody, either: what this end sends is lost first.",
        "None comes, though it sends some: look at the path, and whether this card keeps them for an agent of its own.",
    ],
    active: (name) => `This end has lacp_active off. Its bond has to be down for it, which takes routes and IPv6 addresses: ip link set ${name} down; ip link set ${name} type bond lacp_active on; ip link set ${name} up`,
    key: "one speed, and full duplex", backup: "mode=active-backup",
};
const PROGRAMS = new Map([
    ["bonding", BONDING],
    ["ip", BONDING],
    ["teamd", { ...BONDING, active: () => 'This end has "active": false in its runner: true there', key: "one lacp_key, one speed, and full duplex", backup: "the runner activebackup" }],
    ["openvswitch", {
        link: "look at ip link first, for ovs-appctl lacp/show does not say whether the link is up; if it is, ",
        counts: "compare the counts of ovs-appctl lacp/show-stats with those of the other end, or capture",
        active: (name) => `This end has lacp=passive: ovs-vsctl set port ${name} lacp=active`,
        key: "one bond (other_config:lacp-aggregation-key)", backup: "bond_mode=active-backup and lacp=off",
    }],
    ["switch", { counts: "compare the counts of show lacp counters with those of the other end, or capture", active: () => "This end is passive: channel-group N mode active", key: "one channel-group", backup: "" }],
    ["lagd", { counts: "compare its counts with those of the other end, or capture", active: () => "This end has activity=passive in its file: activity=active, and a reload", key: "one key" }],
]);
const COMMANDS_AT = "docs/TROUBLE.md";
/* What sets this end to active, of a bond of this name. */
export const adviceOnPassive = (form, name) => `${PROGRAMS.get(form).active(name)} (each program: ${COMMANDS_AT}). Or set the other end to active.`;
export const isSeveral = (list, valueOf) => new Set(list.map(valueOf).filter((it) => it !== null && it !== undefined)).size > 1;
/* The names of ports; of those of the far end it is said once that they are. */
export function namesIn(list) {
    const [own, far] = [false, true].map((isFar) => [...new Set(list.filter((it) => Boolean(it.isFar) === isFar).map((it) => it.name))].join(", "));
    return [own, far && `the far end's ${far}`].filter(Boolean).join(", ");
}
export const nameOfPort = (port) => namesIn([port]);
export const isLinked = (it) => it.link !== false;
export const dashed = (address) => address.replaceAll(":", "-");
const heardIn = (ports) => ports.filter((it) => it.partner);

/* Each value, and the ports that have it. */
function eachOf(ports, valueOf) {
    const values = new Map();
    for (const it of heardIn(ports)) values.set(valueOf(it), [...values.get(valueOf(it)) ?? [], nameOfPort(it)]);
    return [...values].map(([value, list]) => `${list.slice(0, 3).join(", ")}${list.length > 3 ? ` and ${list.length - 3} more` : ""}: ${value}`).join("; ");
}

/* Which ends have several keys. */
const sidesWithKeys = (ports) => ["actor", "partner"].filter((side) => isSeveral(heardIn(ports), (it) => it[side].key));

/* Whether the keys of ports differ only where their speed or duplex does, as those of Linux bonding do. */
export function keysFollowSpeed(ports) {
    const heard = heardIn(ports), sides = sidesWithKeys(ports);
    return sides.length > 0 && sides.every((side) => heard.every((one) => heard.every((other) => one.speed !== other.speed || one[side].key === other[side].key)));
}

/* What is seen of ports that hear nobody, one of which is in use. */
function aloneSaid(ports, form) {
    const alone = ports.filter((it) => it.isAlone), idle = ports.filter((it) => isLinked(it) && !it.partner && !it.isAlone), isBonding = PROGRAMS.get(form) === BONDING;
    if (!alone.length) return [];
    const lost = isBonding && idle.length ? ` A static channel there (switch: mode on) sends on all links, and what comes on ${namesIn(idle)} is dropped here.` : "";
    return [`without a partner this end uses ${namesIn(alone)} all the same, by itself.${lost}`];
}

/* A start lasts less than 10 s; who churns has been so for 60 s (6.4.17). */
const asLong = ({ isLasting }) => isLasting ? "It has been so for 60 s or more, so it is no start: " : "Look again in 10 s: after a start it ends by itself. If it is still so: ";

/* What the program of the end that has not attached ports says of why; nothing where no text has that. */
function whySaid({ meant, isImplied }) {
    const said = meant.map((it) => isImplied ? [nameOfPort(it), it.says] : [it.far, it.saysThere]).filter(([, why]) => why);
    return { isFull: said.length > 0 && said.length === meant.length && said.every(([, why]) => why === NO_ROOM), text: said.map(([name, why]) => `what ${name} says of it: ${why}`).join("; ") };
}

/* What to do where an end has not attached a port, though the other one has. */
function adviceOnUnattached(it) {
    const { isFull, text } = whySaid(it);
    if (isFull) return `${capitalized(text)} (max-links). It takes over when a link in use fails; to use it beside them, set max-links higher at that end.`;
    if (text) return `${asLong(it)}${text}.`;
    return `${asLong(it)}${it.isImplied ? "this end" : "the other end"} has chosen another aggregator, or has links enough (switch: max links).${it.isImplied ? "" : " Look at its status."}`;
}

/* The partner of a port, with its port there. */
const partnerSaid = ({ partner: { system, port } }) => `${system ? dashed(system) : "a system that is not named"}${port ? ` port ${port}` : ""}`;

/* What a capture says of who is deaf, where the program counts nothing. */
const toldInCapture = (meant, form) => meant.some(({ far }) => far) ? [] : PROGRAMS.get(form).told ?? [];

/* What to do where nobody is heard: by the other end, by this end now, or by it ever. A partner that is known sent an LACPDU, which this end has read. */
function adviceOnUnheard(it) {
    const heard = heardIn(it.meant), named = it.meant.filter(({ far }) => far), path = "Look at its receiver, at a filter, and at the path";
    const deaf = named.map((port) => `${nameOfPort(port)} does not hear ${port.far}`).join("; ");
    const before = heard.map((port) => `${nameOfPort(port)} heard ${partnerSaid(port)} before`).join("; ");
    if (it.isImplied) return `${asLong(it)}the other end sends LACPDUs, so LACP is on there, and it does not hear those of this end. ${path} from here to there.`;
    if (deaf) return `${asLong(it)}both texts have LACP, and ${deaf}. ${path} to it.`;
    if (before) return `${before}: look what changed at that port, or on the path from there. `
        + "It is so for 3 s: if it comes again and again, LACPDUs are lost, or come too seldom.";
    const { link = "", counts, told, group } = PROGRAMS.get(it.form);
    if (told) return `${asLong(it)}${group}capture here, since no status says who is deaf: ${captureCommand(it.meant)}. In it:`;
    return `${asLong(it)}${link}look whether the port at the other end is in a bundle with LACP `
        + "(switch: channel-group, mode active, not on; Linux bonding: mode=802.3ad). "
        + `If it is, no status says who is deaf: ${counts}.`;
}

/* The command that captures the first of these ports, and explains it. */
function captureCommand(ports) {
    const name = ports.find((it) => !it.isFar)?.name ?? "PORT";
    return `timeout 100 tcpdump -i ${name} -w ${name}.pcap 'ether proto 0x8809', and explain ${name}.pcap`;
}

/* The title where no member of a bundle ever heard a partner; null where one did. */
function wholeUnheard({ silent, meant, isOfSeveral }) {
    if (!silent.length || meant.some(({ far }) => far)) return null;
    const ports = silent.flatMap((it) => it.ports), where = ports.length > 1 ? "any link" : ports[0].name;
    return `no LACPDU comes on ${where}${isOfSeveral ? ` of ${joinedBy(silent.map((it) => it.told))}` : ""}: is LACP on at the far end?`;
}

/* Ports whose partners name one port of one system. */
export const portsNamedAlike = (ports) => heardIn(ports).filter((it) => it.partner.port !== null && heardIn(ports).some((other) => other !== it && other.partner.system === it.partner.system && other.partner.port === it.partner.port));

/* Whether these differ in keys, so that no group of one box could hold them. */
export const areTwinsApart = (ports) => isSeveral(portsNamedAlike(ports), (it) => it.partner.key) && !keysFollowSpeed(ports);

/* Numbers of ports that lie so far apart are seldom those of one switch. */
const FAR = 16384;
const areFarApart = ({ partner: one }, { partner: other }) => one.system === other.system && other.port - one.port >= FAR;
const areOfTwoSwitches = (ports) => heardIn(ports).some((one) => heardIn(ports).some((other) => areFarApart(one, other)));

function adviceOnKeys({ ports, form }) {
    if (areTwinsApart(ports)) {
        return `${namesIn(portsNamedAlike(ports))} name one port of one system, so ${TWO_BOXES}`;
    }
    const sides = sidesWithKeys(ports), there = "one group there (switch: one channel-group, at both switches of an MLAG pair one MLAG number; "
        + "bonding: one bond, one speed, duplex and ad_user_port_key; Open vSwitch: one bond; teamd: one lacp_key)";
    const ways = sides.map((side) => side === "actor" ? `give these ports of this end ${PROGRAMS.get(form).key}` : `put the other ends of these ports into ${there}`).join(", and ");
    const pair = "The numbers of the ports there lie far apart, as of two switches that are an MLAG pair: then give both the same MLAG number. Else: ";
    const two = areOfTwoSwitches(ports) ? pair : "";
    return ways ? `${two}${two ? ways : capitalized(ways)}; or these are two bundles, and cables are crossed.` : null;
}

/* Whether the partners of ports have one address, and several priorities. */
const isOfOneAddress = (ports) => !isSeveral(heardIn(ports), (it) => it.partner.system) && isSeveral(heardIn(ports), (it) => it.partner.priority);

/* What names the partner of a port: its address, with the priority where that is what differs. */
const systemSaid = (ports) => ({ partner: { system, priority } }) =>
    system ? `${isOfOneAddress(ports) ? `priority ${priority} of ` : ""}${dashed(system)}` : "a system that is not named";

/* What rules say of texts; what stands not here is said as of a capture. `ports` are those of the text, `isLasting` is whether one of those that
 * are meant churns, `isImplied` whether all are the other ends, and `device` what the bond is called; for these `implied` has the title, and `whole` where `silent`, bundles that never
 * heard a partner, have all that is meant. `meant` are the ports that are meant, and `advice` is
 * the module's. `case` has another title where one is due. */
export const RULES = new Map([
    [5, { title: "both ends are passive", advice: ({ form, device }) => adviceOnPassive(form, device) }],
    [12, {
        title: "a port hears nobody", advice: adviceOnUnheard, whole: wholeUnheard,
        implied: (names) => names.includes(",") ? `the far ends of ${names} do not hear this end` : `the far end of ${names} does not hear this end`,
        said: ({ ports, form, meant, isImplied }) => isImplied || heardIn(meant).length ? [] : [...toldInCapture(meant, form), ...aloneSaid(ports, form)],
    }],
    [14, {
        title: "one end is individual",
        advice: (it) => `Set the port of ${it.isImplied ? "the other end" : "this end"} to full duplex, and let it be aggregated, not individual: `
            + "it may not be aggregated with others.",
    }],
    [15, {
        title: "keys differ within one pair of systems", advice: adviceOnKeys,
        said: ({ ports }) => sidesWithKeys(ports).map((side) => `${side === "actor" ? "this end" : "the other end"} has several keys: ${eachOf(ports, (it) => `key ${it[side].key}`)}`),
    }],
    [17, {
        title: "it distributes, and the other end does not collect",
        advice: (it) => `${asLong(it)}the other end has it in no aggregator, in another one, or beyond its limit (switch: max links). Look at its status.`,
    }],
    [22, {
        title: "it is attached, and the other end has not attached it", implied: (names) => `the partner of ${names} says that it is synchronized, and this end does not`,
        advice: adviceOnUnattached,
    }],
    [29, {
        title: "links lead to two systems", said: ({ ports }) => [eachOf(ports, systemSaid(ports))],
        case: ({ ports }) => isOfOneAddress(ports) ? "links lead to one address with several system priorities" : null,
        advice: ({ ports, form }) => isOfOneAddress(ports)
            ? "These are priorities of one address: give the far end one LACP system priority; of an MLAG pair both switches the same."
            : adviceOnTwoSystems(PROGRAMS.get(form).backup),
    }],
    [30, {
        title: "the partner is this system itself",
        advice: () => "Look for a loop (a cable between two ports of this system, or a port that hears itself); if there are two machines, one has a copied identifier, "
            + `and no LACPDU tells which: give each its own (${OWN_SYSTEM}).`,
    }],
]);
