/* Who is who: ends of several links that call themselves one port of one system, which names one link alone (6.3.2, 6.3.4). They are a copied
 * identifier, or two switches that act as one. And an end that sends from several source addresses, which is one end all the same. */

import { isKnown } from "./records.js";

const groupNamed = ({ system, key }) => `${system} ${key}`;
const isAtOneTime = (one, other) => !one.record || !other.record || (one.record.first < other.record.last && other.record.first < one.record.last);

/* Whether two ends speak for one port on two interfaces at one time: from two addresses, or with two partners. One frame that two interfaces show is of one. */
function areTwins(one, other) {
    const partnerOf = ({ last: { partner } }) => `${partner.system} ${partner.port}`;
    return one.interface !== other.interface && isAtOneTime(one, other) && (one.source !== other.source || partnerOf(one) !== partnerOf(other));
}

/* Whether their partners are of two groups: another system, or another key, as no link of one bundle has. */
const areOfTwoGroups = ({ last: { partner: one } }, { last: { partner: other } }) => [one, other].every(({ system }) => isKnown(system)) && groupNamed(one) !== groupNamed(other);

/* Ends that call themselves one port of one system, on several interfaces; each list with whether its partners are apart, and whether its keys are. */
export function twinsIn(bundles) {
    const ends = bundles.flatMap((it) => it.links).filter((it) => !it.isPast).flatMap((it) => it.ends).filter((it) => it?.last), names = new Map();
    for (const it of ends) {
        const name = `${it.system} ${it.port}`;
        names.set(name, [...names.get(name) ?? [], it]);
    }
    const hasOther = (list, test) => list.some((one) => list.some((other) => other !== one && areTwins(one, other) && test(one, other)));
    return [...names.values()].filter((list) => hasOther(list, () => true)).map((list) => ({
        ends: list, isCopy: hasOther(list, areOfTwoGroups), hasKeys: hasOther(list, (one, other) => one.last.actor.key !== other.last.actor.key),
    }));
}

/* The systems that are copied, with the key of each copied port. */
export const copiesIn = (bundles) => new Set(twinsIn(bundles).filter(({ isCopy }) => isCopy).flatMap(({ ends }) => ends).map(({ last: { actor } }) => groupNamed(actor)));
export const isOfCopied = (copies, system, key) => copies.has(groupNamed({ system, key }));
