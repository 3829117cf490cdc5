/* Texts of both ends: which bundles of the second one are of the far end, how these are told, and what is said of those that are not. Two texts that
 * look like both ends of links may be of one host, of two hosts with one identifier, or of two bonds that have nothing to do with each other. */

import { distinct, joinedBy, OWN_SYSTEM } from "./keys.js";
import { dashed } from "./advice.js";

const MOST_TEXTS = 2, NOBODY = "nobody", UNUSED = "The second one is not used.";
/* Why so many texts are not read; nothing where they are. */
export const tooMany = (count) => count <= MOST_TEXTS ? "" : "two texts at most: yours, then the far end's. Bonds of one host are one text: sudo tail -v -n +1 /proc/net/bonding/*";

const actorOf = ({ ports }) => ports.find((it) => it.actor?.system)?.actor ?? null;
const systemOf = (bundle) => actorOf(bundle)?.system ?? null;
const partnersOf = ({ ports }) => ports.map((it) => it.partner).filter((it) => it?.system);
const portsOfText = ({ bundles }) => bundles.flatMap((it) => it.ports);

/* ---- One system ---- */

/* Whether two values are one, as far as both are said. */
const mayBeOne = (one, other) => (one ?? null) === null || (other ?? null) === null || one === other;
const areOneSystem = (one, other) => Boolean(one?.system) && one.system === other?.system && mayBeOne(one.priority, other.priority);
/* Whether two ports call themselves one port of one system; ip has no numbers of ports, and one partner. */
const areNamedAlike = ({ actor: one }, { actor: other }) => areOneSystem(one, other) && mayBeOne(one.portPriority, other.portPriority) && one.port === other.port;
const arePartnersApart = ({ partner: one }, { partner: other }) =>
    one !== null && other !== null && !["system", "key"].every((it) => mayBeOne(one[it], other[it]));

/* Whether two bundles have one system and its ports, and lead to two groups, as no MLAG pair does. Ends of one link are not meant, which name that
 * system. */
function areCopies(one, other) {
    const pairs = one.ports.flatMap((port) => other.ports.filter((it) => areNamedAlike(port, it)).map((it) => [port, it]));
    const isMeant = pairs.length > 0 && [...one.ports, ...other.ports].some(({ partner }) => areOneSystem(pairs[0][0].actor, partner));
    return !isMeant && pairs.some(([port, it]) => arePartnersApart(port, it));
}

/* The first two bundles with one system that is copied, as a fact: with it nothing is said of how one's links differ from the other's. */
function copiedFacts(texts) {
    const all = texts.flatMap((text) => text.bundles.map((bundle) => ({ text, bundle })));
    const pairs = all.flatMap((one, at) => all.slice(at + 1).map((other) => [one, other]));
    const found = pairs.find(([one, other]) => areCopies(one.bundle, other.bundle));
    if (!found) return [];
    const [one, other] = found, ports = [...one.bundle.ports, ...other.bundle.ports], { system } = ports.find((it) => it.actor?.system).actor;
    const who = one.text === other.text ? "two bundles of this text" : "both texts";
    return [{
        name: "copied", ports, title: `${who} are of system ${dashed(system)}: if these are two hosts, give one of them another identifier`,
        advice: `Their partners differ in system or key, so they are no MLAG pair. What gives an identifier: ${OWN_SYSTEM}.`,
    }];
}

/* ---- The far end ---- */

/* Whether two texts have an interface in common, by its address. */
const shareSource = (one, other) => portsOfText(one).some(({ source }) => source && portsOfText(other).some((it) => it.source === source));
/* Whether a bundle names a system as a partner; ip has 0 for its priority. */
const isNamed = (bundle, actor) => partnersOf(bundle).some((it) => areOneSystem({ ...it, priority: it.priority || null }, actor));
/* Whether it names the address alone, with other priorities. */
const isNamedOtherwise = (bundle, actor) => !isNamed(bundle, actor) && partnersOf(bundle).some((it) => it.system === actor?.system);

/* Whether a bundle names the other one as its partner, at one end or the other. */
function areOfOneLink(one, other) {
    const ways = [[one, actorOf(other)], [other, actorOf(one)]];
    return ways.some((way) => isNamed(...way)) && !ways.some((way) => isNamedOtherwise(...way));
}

/* The bundles of the second text that are those of the far end; those that are cut are told as such. */
function farIn(first, second) {
    const own = first.bundles.map(systemOf), isAgain = (it) => own.includes(systemOf(it)) && shareSource(first, second);
    return second.bundles.filter((it) => it.isCut || (systemOf(it) !== null && !isAgain(it) && first.bundles.some((one) => areOfOneLink(one, it))));
}

const addressesOf = (systems) => joinedBy(distinct(systems).map(dashed)) || NOBODY;
const partnersIn = (bundles) => addressesOf(bundles.flatMap(partnersOf).map((it) => it.system));

/* What is said where both texts are of one system: of one host, or of two. */
const ofOneSystem = (system, isOneHost) => isOneHost
    ? { name: "not-far", title: `both texts are of one system, ${dashed(system)}: give the far end's`, advice: UNUSED }
    : { name: "one-system", title: `two texts have one system, ${dashed(system)}`, advice: `They are of two bonds of one host, of an MLAG pair, or of two hosts, one of which has a copied identifier. ${UNUSED}` };

/* What is said where the first text names a system of the second one, with another priority; null where it does not. */
function ofPriorities(first, actors, who) {
    const [found] = first.bundles.flatMap(partnersOf).flatMap((partner) => actors.filter((it) => it.system === partner.system).map((it) => [it.priority, partner.priority]));
    return found ? { name: "not-far", title: `${who} has the system priority ${found[0]}, and the first one names ${found[1]}: not used`, advice: "Read both texts anew, at one time." } : null;
}

/* Whether none of these bundles has an LACPDU, as those of bonding that were not read by root. */
const areMute = (bundles) => bundles.every((it) => systemOf(it) === null);

/* What is said where a text has no LACPDUs, which alone say whose end it is; null where both have some. */
function ofMute(first, second, left) {
    const [here, there] = [first.bundles, left].map(areMute), which = here && there ? "both texts have" : here ? "the first text has" : "the second text has";
    if (!here && !there) return null;
    if (shareSource(first, second)) return {
        name: "not-far", title: "both texts are of one host, as an interface of both says: the second one is not used",
        advice: here && !there ? "It has the LACPDUs, and the first one has none: give it alone." : "Give the far end's.",
    };
    return { name: "not-far", title: `${which} no LACPDUs, so nobody can say whose end the other is: the second one is not used`, advice: "Give texts that have them: of bonding, read by root." };
}

/* What is said of bundles of the second text that are not of the far end, and are not used; `isPart` is whether others of it are. */
function unusedFact(first, second, left, isPart) {
    const mute = ofMute(first, second, left);
    if (mute) return mute;
    const actors = left.map(actorOf).filter(Boolean), same = actors.find(({ system }) => first.bundles.map(systemOf).includes(system)), [here, there] = [first.bundles, left].map(partnersIn);
    if (same) return ofOneSystem(same.system, shareSource(first, second));
    const who = `${isPart ? `${joinedBy(left.map(({ told }) => told.replace(/ of the text$/, "")))} of the second text` : "the second text"} (system ${addressesOf(actors.map((it) => it.system))})`;
    return ofPriorities(first, actors, who) ?? (here === NOBODY && there === NOBODY ? {
        name: "not-far", title: `neither text names a partner: whether ${who} is of the far end is not known, and it is not used`,
        advice: "If it is, LACP is on at both ends, and LACPDUs are lost both ways: look at the path.",
    } : {
        name: "not-far", title: `${who} is not the partner of the first: not used`,
        advice: `The first one names ${here}, the second one ${there}. Give the text of ${here === NOBODY ? "the far end" : "the system that the first one names"}.`,
    });
}

/* The second text as that of the far end. */
function asFar(text, bundles) {
    return {
        ...text, bundles: bundles.map((it) => ({ ...it, isFar: true, told: `the far end's ${it.told.replace(/^the /, "")}`, ports: it.ports.map((port) => ({ ...port, isFar: true })) })),
        notes: text.notes.map((it) => ({ ...it, text: `in the second text: ${it.text}` })),
    };
}

/* A text with the priority of each partner that the other text is of: ip does not say it. */
function withPriorities(text, other) {
    const actors = other.bundles.map(actorOf), priorityOf = (it) => it.priority || (actors.find((actor) => actor?.system === it.system)?.priority ?? it.priority);
    const filled = (it) => it?.system ? { ...it, priority: priorityOf(it) } : it;
    return { ...text, bundles: text.bundles.map((it) => ({ ...it, ports: it.ports.map((port) => ({ ...port, partner: filled(port.partner) })) })) };
}

/* The texts that are explained, of one end or of both, and facts that hold between texts, also one that is not used. Beside a text that is cut nothing is. */
export function bothEnds([first, second]) {
    if (!second || first.bundles.some((it) => it.isCut)) return { texts: [first], facts: copiedFacts([first]) };
    const far = farIn(first, second), left = second.bundles.filter((it) => !far.includes(it) && !it.isCut), copied = copiedFacts([first, second]);
    const facts = copied.length || !left.length ? copied : [{ ports: [], ...unusedFact(first, second, left, far.length > 0) }];
    if (left.length && left.length === second.bundles.length) return { texts: [first], facts };
    const there = asFar(second, second.bundles.filter((it) => !left.includes(it)));
    return { texts: [withPriorities(first, there), withPriorities(there, first)], facts };
}
