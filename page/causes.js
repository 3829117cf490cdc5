/* What is wrong, by causes: the findings of a capture in the order in which they explain each other, each cause with what follows from it; what
 * holds no more stands behind. The findings are the module's; the order is this page's. */

import { isKnown, isRemark, roundedSeconds } from "./records.js";
import { copiesIn, isOfCopied, twinsIn } from "./identities.js";
import { capitalized, distinct, joinedBy, keyGroups, linkName, OWN_SYSTEM, whereOf } from "./keys.js";
import { isOfFileEnd, isTakenOut, systemsIn, toldOf, toldOfEarly } from "./cases.js";
import { untilOf } from "./past.js";

export const FAULT = "fault";
export const EFFECT = "likely effect";
export const PAST = "past cause";
export const REMARK = "remark";
const KINDS = [FAULT, EFFECT, PAST, REMARK];
/* Rules of docs/COMMAND.md whose findings often explain others, and those whose findings often follow from others; of these the faults where
 * there is no other. */
const LEADING = [28, 30, 26, 29], FOLLOWING = [12, 13, 17, 22, 23], UNHEARD = [12, 23];
/* What makes an end of its link send more often, since each LACPDU wants an answer. */
const QUICKENING = [11, 12, 16, 23, 26];
/* All, in the order in which they are told: whoever explains others comes first, what is usual at a start last. */
const ORDER = [...LEADING, 15, 10, 9, 7, 5, 14, 18, 11, 12, 16, 2, 3, 4, 23, 25, 24, 20, 19, 21, 22, 17, 13, 1, 27, 6, 8];
export const TWO_DEVICES = "two devices act as one system";
/* What is said of effects on links of two systems that have no fault. */
export const CAUSELESS = "this capture does not show why: ask both ends, and capture all links for 100 s.";
const AT_START = [13, "Right after a start rule 13 is normal if both ends distribute later."];

/* What compares links of a system, or a partner with the one that answers: of a copied identifier it says nothing. */
const OF_IDENTITY = [2, 3, 4, 15, 16, 26, 29];
/* What an end looks like that sends from two addresses, each of which is seen now and then. */
const OF_ADDRESSES = [1, 2, 3, 4, 11, 12, 16, 18, 22, 23, 26];

const isFault = (finding) => !isRemark(finding) && !FOLLOWING.includes(finding.rule);
const namesOf = (ends) => [...new Set(ends.map((it) => it.short))].join(", ");

/* A cause, or an effect: findings of one rule that are told alike. */
class Item {
    constructor(kind, rule, told, finding) {
        Object.assign(this, { kind, rule, title: told.title ?? finding.name, advice: told.advice ?? finding.advice, lines: [], findings: [], effects: [], isFirst: told.isFirst, isLast: told.isLast });
        this.clause = finding.clause;
        this.until = null;
        this.links = [];
        this.head = "";
    }

    get places() { return this.findings.length; }

    /* All findings, its effects' too. */
    get whole() { return [...this.findings, ...this.effects.flatMap((it) => it.findings)]; }
}

/* The title of a cause, with what it is where it is no fault, or up to when it held. */
export function titleOf({ kind, title, until }) {
    if (kind === PAST) return `until ${roundedSeconds(until)}: ${title}`;
    return kind === FAULT ? title : `${kind}: ${title}`;
}

/* Whether an end that hears nobody now has heard the other one, which never heard it: then that one's is the cause. */
function isDeafFirst({ rule, at }, { ends }) {
    const other = ends.find((it) => it && it !== at);
    return rule === 12 && other?.last && !other.hasHeard && at.hasHeard;
}

/* Looks at what is found, link by link. */
class Looking {
    constructor(records, bundles) {
        Object.assign(this, { records, bundles });
        this.where = new Map(bundles.flatMap((bundle) => bundle.links.flatMap((link) => link.findings.map((it) => [it, { bundle, link }]))));
        this.groups = keyGroups(bundles);
        this.strangers = strangersIn(bundles);
        this.copies = copiesIn(bundles);
        for (const { links } of bundles) for (const link of links) link.isAlone = links.every((it) => it === link || whereOf(it) !== whereOf(link));
    }

    at(finding) { return this.where.get(finding); }

    /* All that is looked at around a finding. */
    placeOf(finding) { return { ...this.at(finding), records: this.records, bundles: this.bundles, groups: this.groups }; }

    /* Whether a finding compares links of a system that is copied. */
    isOfCopy(finding) {
        const parties = this.at(finding).link.ends.filter((it) => it?.last).flatMap(({ last: { actor, partner } }) => [actor, partner]);
        return OF_IDENTITY.includes(finding.rule) && parties.some(({ system, key }) => isOfCopied(this.copies, system, key));
    }

    isOfStranger({ at }) { return this.strangers.some(({ end }) => end === at); }

    /* Whether a finding that often follows from others does: a fault is on its link, of its pair of systems, or where its end hears nobody, on
     * its interface. */
    follows(finding, faults) {
        const { bundle, link } = this.at(finding), isAt = (it) => this.at(it).link === link;
        if (this.isOfStranger(finding) || isDeafFirst(finding, link)) return true;
        if (UNHEARD.includes(finding.rule)) {
            const isSame = (it) => isAt(it) || (it.at.interface === finding.at.interface && !bundle.systems.every(isKnown));
            return faults.some((it) => it.rule !== 1 && isSame(it)) || (finding.rule === 23 && link.findings.some((it) => it.rule === 12));
        }
        return faults.some((it) => this.at(it).bundle === bundle) || link.findings.some((it) => UNHEARD.includes(it.rule));
    }

    kindOf(finding, told, faults) {
        if (told.isRemark || isRemark(finding)) return REMARK;
        if (told.isEffect || this.isOfCopy(finding) || this.isOfStranger(finding) || (finding.rule === 1 && this.at(finding).link.findings.some((it) => QUICKENING.includes(it.rule)))) return EFFECT;
        if (isFault(finding)) return FAULT;
        return UNHEARD.includes(finding.rule) && !this.follows(finding, faults) ? FAULT : EFFECT;
    }
}

/* Ends that hear nobody on an interface where two systems hear each other: whoever is on that link is a third. */
function strangersIn(bundles) {
    const links = bundles.flatMap((it) => it.links), found = [];
    for (const { ends: [end, other] } of links) {
        if (other || !end?.last || isKnown(end.named ?? "")) continue;
        const near = links.filter((it) => it.ends.every((one) => one?.last && one.interface === end.interface));
        if (near.length === 1 && near[0].ends.every((it) => it.system !== end.system)) found.push({ end, link: near[0] });
    }
    return found;
}

function strangerItem({ end, link }) {
    const it = new Item(FAULT, 26, {}, { name: "a third system speaks on the link, and hears nobody", clause: "6.4.9", advice: "" });
    it.lines = [`${end.short} beside ${namesOf(link.ends)}`];
    it.advice = "If this was captured on one link, look for a hub, or a switch that passes the slow protocols on. At a mirror of several links it is the end of another link, "
        + "where nobody answers: set LACP on there.";
    return it;
}

/* Where ends speak: on which interfaces, and from which addresses where these differ. */
function placesSaid(ends) {
    const isOne = distinct(ends.map((it) => it.source)).length === 1;
    return isOne ? `on ${joinedBy(ends.map((it) => it.label))}` : `sent by ${joinedBy(ends.map(({ label, source }) => `${source}${label ? ` on ${label}` : ""}`))}`;
}

/* Two switches that act as one, with one number for two of their ports. */
function twinItem(bundles) {
    const it = new Item(REMARK, null, {}, { name: TWO_DEVICES, clause: "", advice: "" });
    it.lines = twinsIn(bundles).filter(({ isCopy, hasKeys }) => !isCopy && !hasKeys).map(({ ends }) => `${ends[0].short}: ${placesSaid(ends)}`);
    it.advice = `Right if they are an MLAG pair, which should number its ports apart, since a system and a port name one link alone; else one has a copied identifier, and data goes astray: give each its own (${OWN_SYSTEM}).`;
    return it.lines.length ? [it] : [];
}

/* Machines with one system and one port number each, whose partners are of two groups: nothing that compares keys or systems is to be judged there. */
function copyItem(bundles) {
    const twins = twinsIn(bundles).filter(({ isCopy }) => isCopy), isPair = twins.some(({ ends }) => distinct(ends.map((it) => it.source)).length > 1);
    if (!twins.length) return [];
    const it = new Item(FAULT, null, { isFirst: true }, { name: "one identifier is at two places", clause: "", advice: "" }), [{ ends: [one, ...more] }] = twins;
    it.links = bundles.flatMap((bundle) => bundle.links).filter((link) => link.ends.some((end) => twins.some(({ ends }) => ends.includes(end))));
    it.lines = twins.map(({ ends }) => `${ends[0].short}: ${placesSaid(ends)}`);
    it.head = `${it.title}: ${one.short} speaks ${one.label ? `on ${joinedBy([one, ...more].map(({ label }) => label))}` : "twice"}`;
    it.advice = `Two machines have one system, and so one may be taken for the other. Give each its own identifier (${OWN_SYSTEM}), and look again; change no keys or groups before.${isPair
        ? " Only if they are an MLAG pair, whose links are to be one bundle, is the group at their partner wrong." : ""}`;
    return [it];
}

/* An end that sends from several addresses: it is one end, by system and port. */
function addressItems(links) {
    return links.flatMap((link) => link.ends.filter((it) => it?.others.length).map((end) => {
        const it = new Item(REMARK, null, {}, { name: "one end sends from two source addresses", clause: "", advice: "" });
        it.lines = [`${end.short} on ${linkName(link)}: ${joinedBy([end, ...end.others].map(({ source }) => source))}`];
        it.advice = "An end is a system and a port, so this is one link; an LACPDU has the address of its port as its source (6.4.2.2). Look which device has the other address.";
        it.findings = link.findings.filter(({ rule }) => OF_ADDRESSES.includes(rule));
        return it;
    }));
}

/* Links whose files end before others: those that are cut short, and those of which nobody knows why; of a port that is taken out it is an effect. */
function earlyItems({ records, bundles }) {
    const early = bundles.flatMap((it) => it.links).filter((it) => it.early && !it.isPast), kinds = [FAULT, EFFECT].flatMap((kind) => [false, true].map((isCut) => ({ kind, isCut })));
    return kinds.flatMap(({ kind, isCut }) => {
        const links = early.filter((it) => it.early.isCut === isCut && isTakenOut(it) === (kind === EFFECT));
        if (!links.length) return [];
        const told = toldOfEarly(links, records.lacpdus.last), it = new Item(kind, ...isCut ? [null, told, { clause: "" }] : [11, told, { clause: "6.4.13" }]);
        it.lines.push(...told.lines);
        it.findings.push(...links.flatMap((link) => link.findings.filter((one) => isOfFileEnd(one, link, records))));
        return [it];
    });
}

/* Puts what follows from others below the first of them: on its link, else of its pair of systems. */
function folded(items, looking) {
    const causes = items.filter((it) => it.kind === FAULT), rest = [];
    for (const item of items.filter((it) => it.kind === EFFECT)) {
        const near = (test) => causes.find((it) => it.findings.some((one) => item.findings.some((other) => test(looking.at(one), looking.at(other)))));
        const cause = causes.find((it) => item.findings.some((one) => it.links.includes(looking.at(one).link)))
            || (item.findings.some((it) => looking.isOfStranger(it)) && causes.find((it) => it.rule === 26))
            || near((one, other) => one.link === other.link) || near((one, other) => one.bundle === other.bundle)
            || causes.find((it) => it.findings.some((one) => item.findings.some((other) => one.at.interface === other.at.interface)));
        if (cause) cause.effects.push(item);
        else rest.push(item);
    }
    return [...causes, ...rest, ...items.filter((it) => it.kind === REMARK)];
}

/* What is said of an effect where its pair of systems has no fault. */
function unexplained(item) {
    const [rule, said] = AT_START, causeless = capitalized(CAUSELESS);
    return item.rule === rule ? `${causeless} ${said}` : causeless;
}

/* An end that is silent comes before lost frames, which it may look like elsewhere; what may be no fault comes last. */
const rankOf = ({ rule, kind, isFirst, isLast }) => KINDS.indexOf(kind) * 100 + ORDER.indexOf(rule) - (isFirst ? 0.5 : 0) + (isLast ? ORDER.length : 0);
const byRank = (one, other) => rankOf(one) - rankOf(other);

/* Findings that are told alike, as one. */
function itemsOf(findings, looking) {
    const told = new Map(findings.map((it) => [it, toldOf(it, looking.placeOf(it))])), items = new Map();
    const faults = findings.filter((it) => isFault(it) && !told.get(it).isRemark);
    for (const finding of findings) {
        const it = told.get(finding), kind = looking.kindOf(finding, it, faults), place = it.title && it.advice ? `${kind} ${it.title} ${it.advice}` : `${finding.rule} ${kind} ${it.title} ${it.advice}`;
        if (!items.has(place)) items.set(place, new Item(kind, finding.rule, it, finding));
        const item = items.get(place);
        item.findings.push(finding);
        item.lines.push(...(it.lines ?? []).filter((line) => !item.lines.includes(line)));
    }
    for (const it of items.values()) if (it.rule === 29) it.lines.push(...systemsIn(it.findings));
    return [...items.values()];
}

/* Causes that hold no more: with what followed from them, up to when. */
function asPast(causes, until) {
    for (const it of causes) {
        if (it.kind === REMARK) continue;
        Object.assign(it, { wasFault: it.kind === FAULT, kind: PAST, until: Math.max(...it.whole.map((finding) => until.get(finding))) });
    }
    return causes;
}

/* The causes of a capture, the first one first; each has its effects. What holds no more stands behind what does. */
export function causesOf(records, bundles) {
    const looking = new Looking(records, bundles), links = bundles.flatMap((it) => it.links), early = earlyItems(looking), addresses = addressItems(links);
    const findings = links.flatMap((it) => it.findings).filter((it) => ![...early, ...addresses].some((item) => item.findings.includes(it)));
    const until = new Map(findings.map((it) => [it, untilOf(it, looking.placeOf(it))])), isPast = (it) => until.get(it) !== null;
    const now = [...copyItem(bundles), ...looking.strangers.map(strangerItem), ...early, ...itemsOf(findings.filter((it) => !isPast(it)), looking)].sort(byRank);
    const causes = folded(now, looking), past = folded(itemsOf(findings.filter(isPast), looking).sort(byRank), looking);
    for (const it of causes) if (it.kind === EFFECT) it.unexplained = unexplained(it);
    return [...causes, ...twinItem(bundles), ...addresses, ...asPast(past, until)].sort((one, other) => KINDS.indexOf(one.kind) - KINDS.indexOf(other.kind));
}
