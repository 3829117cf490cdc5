/* The keys of links (6.3.6): which links share a system and its key, at one end or the other, and which of them lead astray. */

import { addressOf, isKnown } from "./records.js";
import { copiesIn, isOfCopied } from "./identities.js";

/* Of so many keys at one end it is looked which cables are crossed. */
const MOST_KEYS = 5;

export const counted = (number, word) => `${number} ${word}${number === 1 ? "" : "s"}`;
export const capitalized = (text) => text[0].toUpperCase() + text.slice(1);
/* Several as one text: with commas, and the word before the last. */
export const joinedBy = (list) => list.length > 1 ? `${list.slice(0, -1).join(", ")} and ${list.at(-1)}` : list.join("");
export const distinct = (values) => [...new Set(values)];
const byNumber = (list) => [...list].sort((one, other) => one - other);

/* The keys of a link, of its first and its second system; null where it does not name both. */
function keysAtBothEnds({ ends: [one, other] }) {
    const first = one?.last?.actor.key ?? other?.last?.partner.key, second = other?.last?.actor.key ?? one?.last?.partner.key;
    const isNamed = one && other ? true : isKnown(one?.named ?? "");
    return isNamed && first !== undefined && second !== undefined ? [first, second] : null;
}

/* A link with what it joins: at each end a system and its key; a system that is copied is another one beside each partner. */
function joint(link, { systems }, copies) {
    const keys = link.isPast || systems[0] === systems[1] || !systems.every(isKnown) ? null : keysAtBothEnds(link), names = keys?.map((key, way) => `${systems[way]} ${key}`);
    return keys && { link, systems, keys, joins: names.map((name, way) => isOfCopied(copies, systems[way], keys[way]) ? `${name} beside ${names[1 - way]}` : name) };
}

/* Gives each thing that links join its side, so that each link joins one to the other, and turns the links so; whether that goes. */
function turned(group) {
    const sides = new Map([[group[0].joins[0], 0]]), todo = [group[0].joins[0]];
    while (todo.length) {
        const it = todo.pop();
        for (const { joins } of group.filter((one) => one.joins.includes(it))) {
            const far = joins[joins[0] === it ? 1 : 0], side = 1 - sides.get(it);
            if (sides.has(far) && sides.get(far) !== side) return false;
            if (!sides.has(far)) todo.push(far);
            sides.set(far, side);
        }
    }
    for (const it of group) if (sides.get(it.joins[0])) for (const name of ["systems", "keys", "joins"]) it[name] = [...it[name]].reverse();
    return true;
}

const nameIn = ({ link }) => `${whereOf(link)} ${link.ends.find(Boolean).port}`;
const byName = (one, other) => nameIn(one).localeCompare(nameIn(other), "en", { numeric: true });

/* The groups of links that share a system and its key, at one end or the other, through others too. */
export function keyGroups(bundles) {
    const groups = [], copies = copiesIn(bundles);
    for (const it of bundles.flatMap((bundle) => bundle.links.map((link) => joint(link, bundle, copies))).filter(Boolean)) {
        const near = groups.filter((group) => group.some(({ joins }) => joins.some((one) => it.joins.includes(one))));
        groups.splice(0, groups.length, ...groups.filter((group) => !near.includes(group)), [...near.flat(), it]);
    }
    return groups.map((it) => it.sort(byName)).filter(turned);
}

export const groupOf = (link, groups) => groups.find((group) => group.some((it) => it.link === link)) ?? null;
const side = (group, way) => distinct(group.map(({ joins }) => joins[way]));
/* Whether links cross: at both ends there is more than one system with a key. */
export const isCrossed = (group) => [0, 1].every((way) => side(group, way).length > 1);
const pairOf = (joins) => joins.join(" ");

/* Whether a group is as many bundles as one end of it has partners: the standard splits links of one key by partner. Each of them has two links or more, and one
 * that carries; a bond that has to use one of them leaves all links of the others out. */
export function areByPartner(group) {
    const way = side(group, 0).length === 1 ? 1 : 0, far = side(group, way).map((name) => group.filter(({ joins }) => joins[way] === name));
    const isWhole = (links) => links.length > 1 && links.every(({ link }) => link.ends.every((it) => it?.last)) && links.some(({ link }) => link.carries);
    return !isCrossed(group) && distinct(group.map(({ systems }) => systems[way])).length > 1 && far.every(isWhole);
}

/* Each way to give everything at the one end something of its own at the other, as lists of pairs. */
function matchings(ones, others) {
    if (!ones.length || !others.length) return [[]];
    const [first, ...rest] = ones;
    const taken = others.flatMap((it) => matchings(rest, others.filter((other) => other !== it)).map((more) => [pairOf([first, it]), ...more]));
    return ones.length > others.length ? [...taken, ...matchings(rest, others)] : taken;
}

/* The links of a group that lead astray, where they cross: those outside the pairs that most links make, one to one. Where two such ways are as
 * good, `other` has those of the second. */
export function astrayIn(group) {
    const sides = [0, 1].map((way) => side(group, way));
    if (Math.max(...sides.map((it) => it.length)) > MOST_KEYS) return { astray: [], other: [] };
    const counts = matchings(...sides).map((pairs) => ({ pairs, links: group.filter(({ joins }) => !pairs.includes(pairOf(joins))) }));
    counts.sort((one, other) => one.links.length - other.links.length);
    const [best, second] = counts, isTied = second && second.links.length === best.links.length;
    return { astray: best.links, other: isTied ? second.links : [] };
}

export const whereOf = ({ ends }) => ends.find(Boolean).label;

/* What a link is called among those of two systems: the interface that it was captured on, if it is alone there, and its ports if not. */
export function linkName(link) {
    const ends = link.ends.filter(Boolean), label = whereOf(link);
    return label && link.isAlone ? label : `${label} ${ends.length > 1 ? "ports" : "port"} ${ends.map((it) => it.port).join("-")}`.trim();
}

const listOf = (links) => joinedBy(links.map(({ link }) => linkName(link)));

/* Two links whose far ends are each other's: with those swapped both lead right. */
function swapped(links) {
    const [one] = links, other = links.find((it) => it.joins[0] !== one?.joins[0] && it.joins[1] !== one?.joins[1]);
    return links.length === 2 && other ? `swap the far ends of ${linkName(one.link)} and ${linkName(other.link)}` : "";
}

/* The systems of one side of a group, each with its keys. */
function sideSaid(group, way) {
    const systems = distinct(group.map((it) => it.systems[way]));
    return systems.map((system) => {
        const keys = byNumber(distinct(group.filter((it) => it.systems[way] === system).map((it) => it.keys[way])));
        return `${addressOf(system)} has ${keys.length > 1 ? "keys" : "key"} ${joinedBy(keys)}`;
    }).join(", ");
}

/* What a link joins, as a text: its keys, and of several systems which. */
function joinsSaid(it, group) {
    const said = [0, 1].map((way) => `key ${it.keys[way]}${distinct(group.map(({ systems }) => systems[way])).length > 1 ? ` of ${addressOf(it.systems[way])}` : ""}`);
    return `${linkName(it.link)}: ${said.join(" to ")}`;
}

function ofCables(group) {
    const { astray, other } = astrayIn(group), ways = [astray, other].filter((it) => it.length).map(swapped);
    const swaps = ways.length && ways.every(Boolean) ? ways.join(", or ") : "";
    const which = astray.length ? `${listOf(astray)}${other.length ? `, or ${listOf(other)},` : ""} ${astray.length === 1 ? "leads" : "lead"} astray` : "";
    return {
        title: "cables of two bundles are crossed, or a port is in the group of another link",
        lines: [`${[0, 1].map((way) => sideSaid(group, way)).join(", ")}: ${which}`, ...group.map((it) => joinsSaid(it, group))],
        advice: !astray.length ? "Compare each cable with the groups of both of its ports." : swaps ? `${capitalized(swaps)}; or put the ports there into each other's groups. Leave the other links as they are.`
            : `Look where ${listOf(astray)} ends: it joins a group to one that is another bundle's. Move its far end to a port of the right group, or put that port there.`,
    };
}

export const BY_PARTNER = "links of one key are bundles by partner";
/* What is right where links of one key are several bundles, and what is not. */
export function meantAsOne(group) {
    const way = side(group, 0).length === 1 ? 0 : 1;
    return `if ${addressOf(group[0].systems[way])} is to have one bundle, cable its links to one system (or make the others one: MLAG); else LACP is not your trouble.`;
}

/* What gives a system its identifier, in each program. */
export const OWN_SYSTEM = "bonding: ad_actor_system; Open vSwitch: other_config:lacp-system-id; teamd: hwaddr, the address of the team device";

/* What is said where two boxes have one system, and two keys. */
export const TWO_BOXES = "two boxes have one system: an MLAG pair (give both the same MLAG number: docs/TROUBLE.md has commands; bonding: the same ad_user_port_key), "
    + "or two machines with one system address (give each its own).";

/* What to do where links lead to two systems; `backup` is what uses one link, and has a spare, without LACP. */
export function adviceOnTwoSystems(backup) {
    const without = backup ? ` Or, without MLAG: ${backup}, which needs no LACP, has one link in use and the other as a spare; before, take both ports there out of their LACP groups, since a switch may suspend them else.` : "";
    return `Cable these links to one system, or make the two systems one (MLAG: switches of two vendors usually cannot).${without} Links that are to be two bundles want a bond each. `
        + "LLDP says which switch a link leads to: tcpdump -vi PORT -c 1 ether proto 0x88cc (docs/TROUBLE.md).";
}

/* The links on which two machines speak for one port of a system, each with a key of its own. */
function twinsAmong(group, system) {
    const ends = group.map(({ link }) => link.ends.find((it) => it?.last && it.system === system)).filter(Boolean);
    const isTwin = (one) => ends.some((it) => it.short === one.short && it.source !== one.source && it.last.actor.key !== one.last.actor.key);
    return group.filter(({ link }) => link.ends.some((it) => ends.includes(it) && isTwin(it)));
}

/* What is said of links of two systems where one end has one key, and the other several. */
function ofSeveralKeys(group) {
    const way = side(group, 0).length > 1 ? 0 : 1, keys = byNumber(distinct(group.map((it) => it.keys[way]))), [{ systems, keys: own }] = group, who = addressOf(systems[way]);
    const twins = twinsAmong(group, systems[way]);
    return {
        lines: [`${who} has keys ${joinedBy(keys)}, where ${addressOf(systems[1 - way])} has ${own[1 - way]}`, ...keys.map((key) => `key ${key}: ${listOf(group.filter((it) => it.keys[way] === key))}`)],
        advice: twins.length ? `The far ends of ${listOf(twins)} call themselves one port of one system, so ${TWO_BOXES}`
            : `Give the ports of ${who} on these links one key: put them into one group (switch: same channel-group, of an MLAG pair the same MLAG number; `
            + "bonding: it follows speed, duplex, ad_user_port_key; Open vSwitch: one bond; teamd: lacp_key). Or a cable ends there in a port of another bundle: move it. If they are to be two bundles, give the other end two groups as well.",
    };
}

/* What is said of a link whose group crosses; null where it does not. */
export function crossingOf(link, groups) {
    const group = groupOf(link, groups);
    return group && isCrossed(group) ? ofCables(group) : null;
}

/* What keys say of a link: that cables cross, or that one end of two systems has several; null where its group has one pair of keys. */
export function toldOfKeys(link, groups) {
    const group = groupOf(link, groups);
    if (!group || isCrossed(group)) return group && ofCables(group);
    const { systems } = group.find((it) => it.link === link), own = group.filter((it) => it.systems.every((system, way) => system === systems[way]));
    return distinct(own.map(({ joins }) => pairOf(joins))).length > 1 ? ofSeveralKeys(own) : null;
}
