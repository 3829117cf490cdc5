/* Which findings hold no more at the end of a capture, and up to when they did: what is so now is told first. */

import { bitsOf, isKnown, isSilent, othersBeside } from "./records.js";
import { toldOfKeys } from "./keys.js";

/* Rules of a link that is not used: over once it carries again. */
const OVER_BY_CARRYING = [2, 3, 4, 5, 11, 12, 13, 17, 22, 23];
/* So many seconds a link has to carry then; and where it fell again and again, so many times as long as it did between two falls. */
const STEADY = 5, AS_LONG = 2;

/* How long an end distributed between two falls, each time. */
function spellsOf(end) {
    const spells = [];
    let since = null, hasFallen = false;
    for (const { kind, seconds, actor } of end.frames) {
        const isOn = kind === "lacpdu" ? bitsOf(actor.state).includes("distributing") : since !== null;
        if (isOn && since === null) since = seconds;
        if (isOn || since === null) continue;
        if (hasFallen) spells.push(seconds - since);
        hasFallen = true;
        since = null;
    }
    return spells;
}

/* Since when a link carries, if it is so for good, or up to the early end of its file; else null. */
function steadySince({ ends, carries, early, until }) {
    const began = ends.map((it) => it?.record?.distributing.began ?? null);
    if (!(carries || early?.carries) || began.includes(null)) return null;
    const since = Math.max(...began), least = Math.max(STEADY, AS_LONG * Math.max(0, ...ends.flatMap(spellsOf)));
    return until - since > least ? since : null;
}

/* The time of the last of some frames; null where there is none. */
const lastTime = (frames) => frames.reduce((last, { seconds }) => Math.max(last ?? seconds, seconds), null);
const lacpdusOf = (ends) => ends.flatMap((it) => it.frames).filter((it) => it.kind === "lacpdu");
const isSingle = ({ actor }) => !bitsOf(actor.state).includes("aggregatable");

/* Up to when each rule was so that is told by what ends say last, not by whether a link carries; null where it is so still. */
const LASTS = new Map([
    [14, ({ link }) => link.ends.some((it) => !it?.last || isSingle(it.last)) ? null : lastTime(link.frames.filter((it) => it.kind === "lacpdu" && isSingle(it)))],
    [15, ({ link, bundle, groups }) => {
        if (toldOfKeys(link, groups)) return null;
        const ends = bundle.links.filter((it) => !it.isPast).flatMap((it) => it.ends).filter((it) => it?.last), now = new Set(ends.map(({ last: { actor } }) => `${actor.system} ${actor.key}`));
        return lastTime(lacpdusOf(bundle.links.flatMap((it) => it.ends).filter(Boolean)).filter(({ actor }) => !now.has(`${actor.system} ${actor.key}`)));
    }],
    [16, (place) => ofOthers(place)],
    [26, (place) => ofOthers(place)],
    [29, ({ at, bundles }) => {
        const ends = bundles.flatMap((it) => it.links).filter((it) => !it.isPast).flatMap((it) => it.ends).filter((it) => it?.last && it.system === at.system && it.last.actor.key === at.last?.actor.key);
        const now = new Set(ends.map((it) => it.last.partner.system).filter(isKnown));
        return now.size > 1 ? null : lastTime(lacpdusOf(ends).filter(({ partner }) => isKnown(partner.system) && !now.has(partner.system)));
    }],
    [30, ({ at }) => at.last.partner.system === at.system ? null : lastTime(lacpdusOf([at]).filter(({ actor, partner }) => actor.system === partner.system))],
]);

/* Others that spoke with the ends of a link, on its interface: over once all of them are silent. */
function ofOthers({ at, link, records }) {
    const others = othersBeside(link, at, records);
    return others.length && others.every((it) => isSilent(it, records.lacpdus.last)) ? Math.max(...others.map((it) => it.record.last)) : null;
}

/* Up to when a finding held, at its place; null where it holds still. */
export function untilOf(finding, place) {
    const { link } = place, { rule, at, seconds } = finding;
    if (link.isPast) return at.record?.last ?? null;
    if (LASTS.has(rule)) return at.last && seconds !== null ? LASTS.get(rule)({ ...place, at }) : null;
    const since = OVER_BY_CARRYING.includes(rule) ? steadySince(link) : null;
    return since !== null && seconds !== null && seconds <= since ? since : null;
}
