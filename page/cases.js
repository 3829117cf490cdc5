/* What a finding is in its case: a title, what to do, and lines of what is seen. The findings are the module's; this is the page's. */

import { addressOf, bitsOf, isKnown, isSilent, othersBeside, roundedSeconds, SHORT_TIMEOUT } from "./records.js";
import { adviceOnTwoSystems, areByPartner, BY_PARTNER, capitalized, crossingOf, distinct, groupOf, linkName, meantAsOne, toldOfKeys } from "./keys.js";

/* So many seconds behind its first LACPDU an end may send faster: it starts. A gap between LACPDUs from so many seconds on is slow; where short timeouts
 * are asked for, a smaller one, and an end that keeps it in so few of its gaps. So many seconds the last LACPDUs of two ends may stand apart where a
 * link goes down, and so few two that are one; of an end that is there twice so many of its LACPDUs are the second of two. */
const START = 3, SLOW_GAP = 10, FAST_GAP = 1.4, FEW = 0.25, MARGIN = 1.1, AT_ONCE = 0.01, MOSTLY = 0.4;

export const NOBODY_ANSWERS = "nobody answers";
/* What sets a system to active, in each program. */
const WAYS_ACTIVE = "bonding: lacp_active on, while the bond is down; teamd: \"active\": true of the runner; Open vSwitch: lacp=active; lagd: activity=active";

export const frameOf = (finding) => finding.at.frames.find((it) => it.packet === finding.packet);

const has = (frame, bit) => bitsOf(frame.actor.state).includes(bit);

/* Whether the other end sends nothing either between two LACPDUs of an end. */
function isPause(before, frame, { ends }) {
    const other = ends.find((it) => it && it !== frame.end), [from, to] = [before.seconds + MARGIN, frame.seconds - MARGIN];
    if (!other?.last || before.seconds === null || to - from <= Math.max(other.record?.median ?? 0, 1)) return false;
    const times = other.frames.map((it) => it.seconds), last = Math.max(...times.filter((it) => it <= from)), next = Math.min(...times.filter((it) => it > from));
    return next >= to && Number.isFinite(next) && next - last > SHORT_TIMEOUT;
}

/* When nothing is sent on a link, as far as its first such pause before a time. */
function pauseOf(link, seconds) {
    const times = link.frames.map((it) => it.seconds), at = times.findIndex((it, number) => number && it - times[number - 1] > SHORT_TIMEOUT - MARGIN && it >= seconds - MARGIN);
    return `nothing is sent on ${linkName(link)} from ${roundedSeconds(times[at - 1])} to ${roundedSeconds(times[at])}`;
}

const ofDeadLink = ({ ends, until }) => ({
    isFirst: true, title: "both ends of a link send nothing more",
    lines: [`${ends.map((it) => it.short).join(" and ")} send nothing after ${roundedSeconds(Math.max(...ends.map((it) => it.record.last)))}; the capture goes on to ${roundedSeconds(until)}`],
    advice: "The link went down, or this capture lost it: look at carrier and cable (ip link, show interfaces).",
});

/* That the partner of an end that sends no more hears nobody, and so sends more seldom than that end asks: its status has the one direction as two. */
function slowedSaid(at, other) {
    const [before, last] = other?.frames.filter((it) => it.kind === "lacpdu").slice(-2) ?? [];
    if (!last || !other.isLost || !at.has("short") || last.seconds - before.seconds < SLOW_GAP) return [];
    return [`${other.short} hears nobody since, and sends each ${roundedSeconds(last.seconds - before.seconds)} alone: a status of ${at.short} says that it hears nobody, too, and its receiver need not be at fault`];
}

const ofPassive = () => ({ advice: `Set LACP to active at one end at least (${WAYS_ACTIVE}; switch: mode active). docs/TROUBLE.md has the commands.` });

/* No LACPDU for longer than the timeout: dead from then on, started anew, slower than it is asked to, or frames are lost. */
function ofSilence(finding, { link, records }) {
    if (isOfFileEnd(finding, link, records)) return { isEffect: true, title: "the file of a link ends before others" };
    if (link.ends.every((it) => isSilent(it, link.until))) return ofDeadLink(link);
    const { at } = finding, frame = frameOf(finding), { record } = at, before = at.frames[at.frames.indexOf(frame) - 1];
    const isLast = frame && frame === at.last && record && isSilent(at, link.until);
    const other = link.ends.find((it) => it && it !== at);
    if (isLast && other?.record && other.record.last <= record.last) return {
        isFirst: true, title: "both ends of a link are silent",
        lines: [`${at.short} sends nothing after ${roundedSeconds(record.last)}, ${other.short} nothing after ${roundedSeconds(other.record.last)}; the capture goes on to ${roundedSeconds(link.until)}`],
        advice: `The link went down, or this capture lost it: look at carrier and cable (ip link, show interfaces). Else ${at.short} sends no more: ${other.short} may send each 30 s alone.`,
    };
    if (isLast) return {
        isFirst: true, isEffect: link.findings.some((it) => it.at === at && ofSingle(it, { link }).isFirst), title: "nothing more comes from an end",
        lines: [`nothing comes from ${at.short} after ${roundedSeconds(record.last)}; the capture goes on to ${roundedSeconds(link.until)}`, ...slowedSaid(at, other)],
        advice: "Captured at its partner, two things look alike: it sends no more (its interface, driver or transmit fibre; or the system hangs or is gone), or what it sends is lost on the way "
            + "(the receive fibre here, or a media converter that keeps the link up). Captured at this end itself, it sends no more. Capture at both ends: that says which.",
    };
    if (frame && before && isPause(before, frame, link)) return {
        title: "a link is silent at both ends for a while", lines: [pauseOf(link, frame.seconds)],
        advice: "Its carrier went, or this capture lost it: look at carrier, cable and errors (ip -s link, show interfaces).",
    };
    if (frame && before && has(frame, "defaulted") && !has(before, "expired")) return {
        title: "an end was silent, and starts anew",
        lines: [`${at.short} sends nothing from ${roundedSeconds(before.seconds)} to ${roundedSeconds(frame.seconds)}, and knows no partner then`],
        advice: "If it was restarted, or its port was down, this is right, and no frame is lost. Else look why it starts anew.",
    };
    if (record && record.median !== null && sendsSeldom(at, Boolean(other?.has("short")))) return {
        title: "an end sends less often than its partner asks",
        lines: [`${at.short} sends each ${roundedSeconds(record.median)}`],
        advice: "It does not follow the partner's timeout: set its rate, or ask for long timeouts (bonding: lacp_rate; switch: lacp rate).",
    };
    return { advice: "Look for lost frames: it sends in time else (errors of the link: ethtool -S, show interfaces; a host that was busy, or stood still)." };
}

/* Whether a finding is no more than that the file of its link ends before others. */
export const isOfFileEnd = (finding, { until }, { lacpdus }) => finding.rule === 11 && frameOf(finding) === finding.at.last && isSilent(finding.at, lacpdus.last) && !isSilent(finding.at, until);

/* What is said of links whose files end before others; `rest` says when the others do. It may be no fault, and so comes last. */
export function toldOfEarly(links, rest) {
    const isOne = links.length === 1, [{ early: { isCut } }] = links, lines = links.map((it) => `${linkName(it)}: nothing is ${isCut ? "read" : "there"} after ${roundedSeconds(it.until)}; other files go on to ${roundedSeconds(rest)}`);
    if (isCut) return { title: `the ${isOne ? "file of a link is" : `files of ${links.length} links are`} cut short`, lines, isLast: true, advice: "What came behind the cut is not known: capture again." };
    return {
        title: isOne ? "a link fell silent, or its capture was stopped before the others" : `${links.length} links fell silent, or their captures were stopped before the others`, lines, isLast: true,
        advice: "The files do not say which. Capture all links into one file (docs/TROUBLE.md has commands): a link that stops there has fallen silent. Or look whether the link is up (ip link, show interfaces).",
    };
}

/* Whether a port of a link is taken out of its bundle. */
export const isTakenOut = (link) => link.findings.some((it) => ofSingle(it, { link }).isFirst);

/* Whether all ends speak before and behind a step back in time: then a clock was set back; else files were joined one behind the other. */
function isOneCapture({ packet }, { all }) {
    const ends = all.filter((it) => it.last);
    return ends.length > 0 && ends.every((it) => it.frames[0].packet < packet && it.frames.at(-1).packet > packet);
}

/* Whether the records are of captures that were joined one behind the other. */
export const areJoined = (records) => records.findings.some((it) => it.rule === 28 && !isOneCapture(it, records));

function ofSteps(finding, { records }) {
    if (!isOneCapture(finding, records)) return { advice: "The file joins captures one behind the other: give the page the files themselves, all at once, or sort the packets by reordercap. Till then rules 18 to 21 are left out." };
    return {
        title: "the clock was set back while it was captured",
        lines: ["the same ends speak before and behind it"],
        advice: "Nothing is lost by this: what stands behind it is judged by itself. Do not sort the packets; capture anew if times matter.",
    };
}

const ofUnheard = ({ at, seconds }, { link }) => {
    const other = link.ends.find((it) => it && it !== at);
    if (other?.system && addressOf(other.system) === addressOf(at.system)) return {
        isFirst: true, title: "both ends of a link have one system address", lines: [`${link.ends.map((it) => it.short).join(" and ")} do not hear each other: an end may drop LACPDUs of its own system, as Linux does`],
        advice: "Look for a loop (a cable between two ports of this system); if there are two machines, one has a copied identifier: give each its own.",
    };
    const title = "an end hears nobody for longer than 6 seconds";
    const first = other?.record?.first ?? null;
    if (other && at.hasHeard && !at.isLost && seconds !== null && first !== null && seconds - first < SHORT_TIMEOUT) return {
        title, lines: [`${other.short} sends nothing before ${roundedSeconds(first)}`], advice: "Its partner began later: this ends by itself once both ends have heard each other.",
    };
    if (other) return {
        title, lines: [`LACPDUs of ${other.short} are in this capture, and do not reach ${at.short}`],
        advice: "Captured at the end that hears nobody: its receiver drops them, or a filter there. Captured at the sender: its own card, the path or the receiver of the other end; capture there, too.",
    };
    if (at.hasHeard) return { title, advice: "No LACPDU of its partner is in this capture: set LACP on there (switch: mode active, not on; bonding: mode=802.3ad), or look at the path to here." };
    return { title: NOBODY_ANSWERS, advice: "Look at the port at the other end: is it in a channel group with LACP (switch: channel-group, mode active, not on; bonding: mode=802.3ad)? If it is, look at the path: "
        + "a bridge or switch between drops LACPDUs." };
};

/* Whether an end sends seldom, not now and then: where short timeouts are asked for, few of its gaps are as short. */
function sendsSeldom({ frames, record }, isFast) {
    if (record.median >= SLOW_GAP || !isFast) return record.median >= SLOW_GAP;
    const times = frames.filter((it) => it.kind === "lacpdu").map((it) => it.seconds), gaps = times.slice(1).map((it, number) => it - times[number]);
    return record.median >= FAST_GAP && gaps.filter((it) => it < FAST_GAP).length < FEW * gaps.length;
}

/* Who loses its partner again and again: the partner sends too seldom, or its frames are lost. */
const ofRelapse = ({ at }, { link }) => {
    const other = link.ends.find((it) => it && it !== at), { median } = other?.record ?? {};
    if (median === undefined || median === null) return {};
    const lines = [`${other.short} sends each ${roundedSeconds(median)}`];
    if (!sendsSeldom(other, at.has("short"))) return { lines, advice: "Not all that is sent arrives: look for what loses frames on the way (errors of the link, a filter, a device between)." };
    return {
        title: "an end loses its partner again and again, which sends too seldom", lines,
        advice: "The partner does not follow the timeout that it is asked for: mend it, or ask for long timeouts at the end that loses it (bonding: lacp_rate slow; switch: lacp rate normal).",
    };
};

/* An end that says Individual in its last LACPDU, or before a silence, and did not before: its port is taken out. */
function ofSingle(finding, { link }) {
    const { at } = finding, frame = frameOf(finding), lacpdus = at.frames.filter((it) => it.kind === "lacpdu"), place = lacpdus.indexOf(frame), [before, next] = [lacpdus[place - 1], lacpdus[place + 1]];
    if (finding.rule !== 14) return {};
    if (!before || !has(before, "aggregatable") || (next && next.seconds - frame.seconds <= SHORT_TIMEOUT)) return { lines: [`${at.short} says Individual`] };
    return {
        isFirst: true, title: "a port is taken out of its bundle",
        lines: [`${at.short} says Individual at ${roundedSeconds(frame.seconds)}, and nothing ${next ? `up to ${roundedSeconds(next.seconds)}` : `more on ${linkName(link)}`}: so does a port that leaves its bond`],
        advice: "If that was not meant, put it into its bond again (ip link set PORT master BOND; switch: channel-group), or look whether that system restarts.",
    };
}

/* Whether each LACPDU of an end is there twice, at once: it comes back to its sender, or the capture has it twice. */
function comesTwice({ frames }) {
    const lacpdus = frames.filter((it) => it.kind === "lacpdu" && it.seconds !== null), pairs = lacpdus.filter((it, number) => number && it.seconds - lacpdus[number - 1].seconds < AT_ONCE);
    return lacpdus.length > 3 && pairs.length >= MOSTLY * lacpdus.length;
}

function ofOneWay({ at }) {
    if (isKnown(at.named ?? "")) return { isRemark: true, advice: "It names a partner, so it hears one: the capture has one direction alone. Capture both directions, or at the other end." };
    if (comesTwice(at)) return {
        title: "an end hears itself alone", lines: [`each LACPDU of ${at.short} is there twice, at once`],
        advice: "Look for a loop: a port that is looped back, or a cable that leads back to it. Linux drops LACPDUs of its own system (dmesg: \"An illegal loopback occurred\").",
    };
    return { title: NOBODY_ANSWERS, advice: "It names no partner: look whether LACP runs at the other end (switch: mode active, not on; bonding: mode=802.3ad), and whether the cable leads straight there: "
        + "a bridge or switch between drops LACPDUs. A card may keep them for an LLDP or LACP agent of its own: turn that off, and capture again." };
}

/* Whether a link of these systems, whose ends are both heard and none of which is an end or a partner of this one's ends, does not carry. */
function hasBeside(link, bundles) {
    const parties = link.ends.filter((it) => it?.last).flatMap(({ last: { actor, partner } }) => [actor, partner]), links = bundles.flatMap((it) => it.links);
    const isHere = ({ system, port }) => parties.some((it) => it.system === system && it.port === port);
    return links.some(({ ends, isPast, carries }) => !isPast && !carries && ends.every((it) => it?.last && !isHere(it.last.actor)) && ends.some((it) => parties.some(({ system }) => system === it.system)));
}

const DELAYS = "A port that hears two in turn begins anew each time, and ports of its aggregator that are not up yet wait for it: take this link out of its bundle first.";

/* A third system that ended before the partner of now began is the partner of before. Two ends of one system are told as that (rule 30). */
function ofThird({ at, rule, advice }, { link, bundles, records }) {
    if (rule === 16 && isOfOneSystem(link)) return { isEffect: true };
    const others = othersBeside(link, at, records), ends = link.ends.filter(Boolean), began = Math.max(...ends.map((it) => it.record?.first ?? -Infinity));
    if (others.length && others.every((it) => it.record && it.record.last < began)) return { isEffect: true, title: "another system answers than before" };
    return hasBeside(link, bundles) ? { advice: `${advice} ${DELAYS}` } : {};
}

/* Whether both ends of a link have one system. */
const isOfOneSystem = ({ ends: [one, other] }) => Boolean(one?.system) && one.system === other?.system;

const DOUBLED = { title: "each LACPDU of an end is there twice", advice: "A device between doubles frames, or the capture has each of them twice (a mirror of both directions, or -i any)." };
const ofRate = ({ at, seconds }) => comesTwice(at) ? DOUBLED : at.record && seconds !== null && seconds - at.record.first < START
    ? { isRemark: true, advice: "At its start alone this is harmless (teamd does so). Later it would be a fault: something changes the port again and again." } : {};

/* What keys say where they differ, or cables that cross between more than two systems. */
const ofKeys = (finding, { link, groups }) => toldOfKeys(link, groups) ?? {};

/* What uses one link, and has a spare, in each program. */
const BACKUP = "mode=active-backup of bonding (teamd: the runner activebackup; Open vSwitch: bond_mode=active-backup and lacp=off)";

const ofSplit = (finding, { link, bundles, groups }) => {
    const system = finding.at.system, links = bundles.flatMap((it) => it.links).filter((it) => !it.isPast && it.ends.some((end) => end?.system === system));
    const crossed = crossingOf(link, groups), group = groupOf(link, groups);
    if (crossed) return crossed;
    if (group && areByPartner(group)) return { isRemark: true, title: BY_PARTNER, advice: capitalized(meantAsOne(group)) };
    const own = links.flatMap((it) => it.ends).filter((it) => it?.system === system), partners = distinct(own.map((it) => it.last.partner.system));
    if (partners.length > 1 && distinct(partners.map(addressOf)).length === 1) return {
        title: "links lead to one address with several system priorities", lines: own.map((it) => `${it.name}: ${it.last.partner.system.replace("/", ", ")}`),
        advice: "Give the far end one LACP system priority; of an MLAG pair both switches the same.",
    };
    if (partners.includes(system) && partners.length === 2) return { isEffect: true }; // a loop, which rule 30 tells
    const more = partners.length > 1 && links.every((it) => it.carries) ? " Each of them carries by itself: if they are two bundles on purpose, nothing is wrong." : "";
    return { advice: `${adviceOnTwoSystems(BACKUP)}${more}` };
};

const CASES = new Map([[1, ofRate], [5, ofPassive], [11, ofSilence], [12, ofUnheard], [14, ofSingle], [15, ofKeys], [16, ofThird], [18, ofOneWay], [23, ofRelapse], [26, ofThird], [28, ofSteps], [29, ofSplit]]);

/* What is told of a finding, which stands at `place`: a link of a bundle, of the bundles and records of a capture. */
export const toldOf = (finding, place) => CASES.get(finding.rule)?.(finding, place) ?? {};

/* What several packets of one rule say of a system when they are taken together: links to two systems. */
export function systemsIn(findings) {
    const values = new Map();
    for (const frame of findings.map(frameOf).filter((it) => it?.kind === "lacpdu")) {
        const { actor: { system }, partner } = frame;
        values.set(system, (values.get(system) ?? new Set()).add(addressOf(partner.system)));
    }
    return [...values].filter(([, found]) => found.size > 1).map(([system, found]) => `${addressOf(system)} leads to ${[...found].sort().join(" and ")}`);
}
