/* What is said before all else: of each link in one line whether it carries, and why not; and a headline. */

import { addressOf, isKnown, isSilent, machinesOf, muxSaid, namesLast, roundedSeconds } from "./records.js";
import { areByPartner, astrayIn, BY_PARTNER, capitalized, counted, distinct, groupOf, isCrossed, joinedBy, keyGroups, linkName } from "./keys.js";
import { NOBODY_ANSWERS } from "./cases.js";
import { CAUSELESS, EFFECT, FAULT, PAST, REMARK, TWO_DEVICES } from "./causes.js";
import { flowSaid } from "./hashes.js";

export const CARRIES = "carries";
export const CARRIES_APART = "carries apart";
const CARRY = "carry";
export const ALONE = "is in use by itself";
export const IDLE = "does not carry";
export const UNKNOWN = "not seen";
/* Of more names the others are counted. */
const MOST_RUNS = 6;
/* Of more bundles a headline does not name the links. */
const MOST_LAGS = 4;
/* Rules of one link: a headline names it. Others compare links, or have their own words. */
const ON_ONE_LINK = [5, 9, 10, 11, 12, 14, 17, 18, 22, 23];
/* So many seconds apart two ends that hear nobody lost each other together. */
const TOGETHER = 2;

/* How the keys of a link differ from those of the other links of its two systems that share one with it, and carry if any does; nothing where they
 * do not. */
function keyDifference(link, groups) {
    const group = groupOf(link, groups), own = group?.find((it) => it.link === link);
    if (own && isCrossed(group)) {
        const { astray, other } = astrayIn(group);
        return [...astray, ...other].includes(own) ? `it joins key ${own.keys[0]} to key ${own.keys[1]}: a cable or a port's group ${other.length ? "may be" : "is"} wrong` : "";
    }
    const others = group?.filter((it) => it !== own && it.systems.every((system, way) => system === own.systems[way])) ?? [], up = others.filter((it) => it.link.carries);
    if (!own || (link.carries && !up.length)) return "";
    const said = (way) => {
        const all = [...new Set((up.length ? up : others).map(({ keys }) => keys[way]))].sort((one, other) => one - other), keys = all.filter((it) => it !== own.keys[way]);
        if (!keys.length || (up.length && all.length > keys.length)) return "";
        const [one, several] = link.carries ? ["other link", "other links"] : ["link that carries", "links that carry"], where = up.length ? `the ${up.length === 1 ? one : several}` : "other links";
        return `${addressOf(own.systems[way])} has key ${own.keys[way]} there, and ${joinedBy(keys)} on ${where}`;
    };
    return [0, 1].map(said).filter(Boolean).join("; ");
}

/* That links which carry, and share a system and its key with this one, lead to another system; nothing where none does. */
function systemDifference(link, groups) {
    const group = groupOf(link, groups), own = group?.find((it) => it.link === link);
    if (own && areByPartner(group)) return "";
    const said = (way) => {
        const others = group.filter((it) => it.link.carries && it.joins[way] === own.joins[way] && it.systems[1 - way] !== own.systems[1 - way]);
        const far = distinct(others.map((it) => it.systems[1 - way])), isOne = (system) => addressOf(system) === addressOf(own.systems[1 - way]);
        const nameOf = (system) => `${addressOf(system)}${isOne(system) ? ` with priority ${system.split("/")[0]}` : ""}`;
        return far.length ? `${addressOf(own.systems[way])} leads to ${joinedBy(far.map(nameOf))} on ${others.length === 1 ? "the other link" : "other links"}` : "";
    };
    return own && link.carries ? [0, 1].map(said).filter(Boolean).join("; ") : "";
}

/* Since when an end says, without a break, that it hears nobody. */
function lostSince({ frames }) {
    const lacpdus = frames.filter((it) => it.kind === "lacpdu"), before = lacpdus.findLastIndex((it) => !["EXPIRED", "DEFAULTED"].includes(machinesOf(it.actor.state).receive));
    return lacpdus[before + 1].seconds ?? 0;
}

/* The ends of a link that hear nobody; where one began earlier, that one: the other hears it too seldom then. */
function deafEnds(ends) {
    const lost = ends.filter((it) => it.isLost), first = Math.min(...lost.map(lostSince));
    return lost.filter((it) => lostSince(it) - first < TOGETHER);
}

/* How a link is, and why; `brief` is the same in a few words, `isVague` that it says no more than the states of both ends, `isSaid` that one end says that it
 * carries, and the other direction was not captured, `isOneWay` that a direction is missing. */
const ONE_WAY = { isOneWay: true };
const idle = (why, brief, more = {}) => ({ how: IDLE, why, brief, ...more });
const unseen = (why, brief, more = {}) => ({ how: UNKNOWN, why, brief, ...more });

/* Why a link with one end in the capture is not seen to carry. An end that nobody answers uses no link alone beside those that carry. */
function ofOneEnd(end, { until }, beside) {
    if (!end.last) return unseen("no LACPDU of it could be read", "not read", ONE_WAY);
    if (end.named === end.system) return idle(`${end.short} hears itself: a loop`, "a loop");
    if (isSilent(end, until)) return idle(`nothing comes from ${end.short} after ${roundedSeconds(end.record.last)}, and nobody else speaks here`, "silent", ONE_WAY);
    if (end.distributes && isKnown(end.named)) return unseen(`${end.short} says that it carries; the other direction is not in this capture`, "one direction captured", { isSaid: true, ...ONE_WAY });
    if (isKnown(end.named)) return unseen(`${end.short} alone is in this capture: it names ${addressOf(end.named)}`, "one direction captured", ONE_WAY);
    const why = end.has("active") ? `nobody answers ${end.short}` : `${end.short} is passive, and nobody answers it`;
    return beside.some((it) => it.carries && it.ends.some((other) => other?.system === end.system)) ? idle(why, "nobody answers", ONE_WAY) : unseen(`${why}; it may use the link alone`, "nobody answers", ONE_WAY);
}

/* Whether a link with both ends carries, and why not. `beside` are the links of its systems. */
function ofBothEnds(link, groups, beside) {
    const { ends, until } = link, silent = ends.filter((it) => isSilent(it, until)), deaf = deafEnds(ends);
    const differs = keyDifference(link, groups), keys = differs || systemDifference(link, groups), brief = differs ? "another key" : "another system";
    if (link.early?.carries) return unseen("it carries", "carries, then ends");
    if (link.carries) return keys ? { how: CARRIES_APART, why: `both ways: ${keys}`, brief } : { how: CARRIES, why: "both ways", brief: "" };
    const [one, other] = ends.map((it) => it.system), isOwn = one === other || (deaf.length > 0 && addressOf(one) === addressOf(other));
    if (isOwn) return idle("both ends have one system: a loop, or a copied identifier", "one system");
    if (ends.every((it) => !it.has("active"))) return idle("both ends are passive", "both passive");
    if (silent.length === 1) return idle(`nothing comes from ${silent[0].short} after ${roundedSeconds(silent[0].record.last)}`, "nothing more comes", ONE_WAY);
    if (silent.length) return idle(`nothing is sent on it after ${roundedSeconds(Math.max(...silent.map((it) => it.record.last)))}`, "silent");
    if (keys && !deaf.length) return idle(keys, brief);
    if (deaf.length) return idle(`${deaf.map((it) => it.short).join(" and ")} ${deaf.length === 1 ? "hears" : "hear"} nobody`, "hears nobody", { isOneWay: deaf.length === 1 });
    const [stray] = ends.filter((it, way) => !namesLast(it, ends[1 - way]));
    if (stray) return idle(`${stray.short} names ${addressOf(stray.named)} port ${stray.last.partner.port.split("/")[1]} as its partner`, "another partner");
    return ofOtherGroup(link, beside) ?? ofStates(ends);
}

/* That a link has other keys at both ends than each one beside it that carries, as links of several speeds have; null of others. */
function ofOtherGroup(link, beside) {
    const keysOf = ({ ends }) => ends.map((it) => it.last.actor.key), own = keysOf(link), up = beside.filter((it) => it !== link && it.carries && it.ends.every((end) => end?.last)).map(keysOf);
    if (!up.length || !up.every((keys) => keys.every((key, way) => key !== own[way]))) return null;
    const said = (keys) => keys[0] === keys[1] ? `key ${keys[0]} at both ends` : `keys ${keys.join(" and ")}`;
    return idle(`it has ${said(own)}, and the ${up.length === 1 ? "link that carries" : "links that carry"} ${said(up[0])}: another group, as a link of another speed or duplex is to Linux bonding`, "another group");
}

/* The same of two ends that hear each other, and have keys that agree. */
function ofStates(ends) {
    const single = ends.filter((it) => !it.has("aggregatable")), waits = ends.filter((it) => !it.has("synchronized"));
    if (waits.length === 1) return idle(`${waits[0].short} has not attached it: another aggregator is in use there, or it has links enough`, "not attached");
    if (single.length === 1) return idle(`${single[0].short} is individual`, "individual");
    return idle(ends.map((it) => `${it.short} ${muxSaid(it.last.actor.state)}`).join("; "), "not attached yet", { isVague: true });
}

/* Up to when that is so, where the file of a link ends before others. */
const upToSaid = ({ early, until }) => early ? `${early.carries ? "" : ","} up to ${roundedSeconds(until)}, where its file ${early.isCut ? "is cut short" : "ends"}` : "";

/* Of a link: its name, its ends, how it is, and why. */
function lineOf(link, groups, beside) {
    const heard = link.ends.filter((it) => it?.last), isWhole = heard.length === 2;
    if (!heard.length) return null;
    const said = isWhole ? ofBothEnds(link, groups, beside) : ofOneEnd(heard[0], link, beside), [{ label }] = heard;
    const far = isWhole ? "" : isKnown(heard[0].named ?? "") ? ` - ${addressOf(heard[0].named)}` : " - nobody", ends = `${heard.map((it) => it.short).join(" - ")}${far}`;
    return { ...said, link, port: heard[0].port, at: linkName(link), name: label ? `${label} (${ends})` : ends, why: `${said.why}${upToSaid(link)}` };
}

/* The lines of all links, those that do not carry first; beside links, each file of them without an LACPDU is one, too. */
export function linesOf(records, bundles) {
    const groups = keyGroups(bundles), ofBundle = ({ links }) => links.filter((it) => !it.isPast).map((it) => lineOf(it, groups, links));
    const lines = bundles.flatMap(ofBundle).filter(Boolean);
    lines.sort((one, other) => one.port - other.port);
    const whyOf = ({ name, where, unless }) => `no LACPDU is ${where} ${name}: if ${unless}, leave it out. Else neither end sends on that link, as where LACP is off, or both ends are passive`;
    if (lines.length) lines.push(...records.silent.map((it) => ({ link: null, at: it.name, name: it.name, ...idle(whyOf(it), "no LACPDU", ONE_WAY) })));
    return [IDLE, CARRIES_APART, UNKNOWN, CARRIES].flatMap((how) => lines.filter((it) => it.how === how));
}

/* A line as a text. */
export const textOfLine = ({ name, how, why }) => `${name}: ${how}${[CARRIES_APART, CARRIES, CARRY].includes(how) ? ", " : ": "}${why}`;

/* Names as one text: of those that number on the first and the last. */
function runsOf(names) {
    const runs = [];
    for (const name of names) {
        const [, stem, number] = /^(.*?)(\d*)$/.exec(name), run = runs.at(-1);
        if (run && number && run.stem === stem && Number(number) === run.next) run.names.push(name);
        else runs.push({ stem, names: [name] });
        runs.at(-1).next = Number(number) + 1;
    }
    const said = runs.flatMap(({ names: all }) => all.length > 2 ? [`${all[0]} to ${all.at(-1)}`] : all);
    return said.length > MOST_RUNS ? `${said.slice(0, MOST_RUNS).join(", ")} and ${said.length - MOST_RUNS} more` : joinedBy(said);
}

/* The lines, with those that carry as one, where one does not: `folded` are the lines that it stands for. */
export function foldedLines(lines) {
    const up = lines.filter(({ how }) => how === CARRIES), isSame = up.every(({ why }) => why === up[0].why);
    if (up.length < 2 || up.length === lines.length || !isSame) return lines;
    return [...lines.filter((it) => !up.includes(it)), { name: runsOf(up.map(({ at }) => at)), how: CARRY, why: up[0].why, folded: up }];
}

/* What a headline says of links. */
export const howManyCarry = (carry, all) => `${carry} of ${counted(all, "link")} ${carry === 1 || all === 1 ? "carries" : "carry"}`;
const ONE = "It is one link: of a bundle capture all links, since keys and partners are compared between them.";

/* The links of each bundle, by the systems and keys of both ends; of lines whose links carry. */
function lagsOf(lines) {
    const lags = new Map();
    for (const { link } of lines) {
        const name = link.ends.map((it) => `${it.system} ${it.last.actor.key}`).sort().join(" ");
        lags.set(name, [...lags.get(name) ?? [], linkName(link)]);
    }
    return [...lags.values()];
}

/* The links whose systems have nothing to do with those of others, apart; of a link that names no second system nothing is known. */
function strangersAmong(lines) {
    const groups = [];
    for (const { link } of lines.filter((it) => it.link)) {
        const systems = link.ends.flatMap((end) => end?.last ? [end.system, end.named] : []).filter(isKnown).map(addressOf), near = groups.filter((it) => systems.some((system) => it.systems.includes(system)));
        if (systems.length > 1) groups.splice(0, groups.length, ...groups.filter((it) => !near.includes(it)), { systems: [...near.flatMap((it) => it.systems), ...systems], links: [...near.flatMap((it) => it.links), link] });
    }
    return groups.map(({ links }) => links.map(linkName));
}

/* That several files are of bundles that share no system; nothing where they do, or where one file has them. */
export function strangersSaid(lines, { places }) {
    const groups = places.size ? strangersAmong(lines) : [], named = groups.length > MOST_LAGS ? "" : ` (${groups.map(joinedBy).join("; ")})`;
    return groups.length > 1 ? `These files are of ${groups.length} bundles that share no system${named}: nothing is compared between these.` : "";
}

const MEANT_AS_ONE = "If they are to be one, give them one key at each end; else LACP is not your trouble.";
const SHARE_NOTHING = "They share no system: if they are to be one, another machine was captured; else LACP is not your trouble.";

/* That all links carry: since when, where it was not so before, and what was the cause; else of one link, of a bundle, or of several. */
function ofHealthy(lines, causes) {
    const all = lines.length, lags = lagsOf(lines);
    const past = causes.filter(({ kind }) => kind === PAST), links = all === 1 ? "The link carries" : `${all} links carry`, cause = past.find((it) => it.wasFault);
    const since = past.length ? `, since ${roundedSeconds(Math.max(...past.map((it) => it.until)))}` : "";
    if (cause) return [`${links}, both ways${since}. Before, ${cause.title}.`, ""];
    const twins = causes.find(({ kind, title }) => kind === REMARK && title === TWO_DEVICES), byPartner = causes.find(({ kind, title }) => kind === REMARK && title === BY_PARTNER);
    if (twins) return [`${links}, both ways${since}. ${capitalized(twins.title)}: right if they are an MLAG pair.`, ""];
    if (lags.length > 1) {
        const named = lags.length > MOST_LAGS ? "" : `: ${lags.map(joinedBy).join("; ")}`, flow = lags.some((it) => it.length > 1) ? ` ${flowSaid([])}` : "";
        const meant = byPartner ? byPartner.advice : strangersAmong(lines).length === lags.length ? SHARE_NOTHING : MEANT_AS_ONE;
        return [`${links}, both ways${since}, as ${lags.length} bundles${byPartner ? ", by partner" : ""}${named}. ${meant}${flow}`, ""];
    }
    return [all === 1 ? `${links}, both ways${since}. ${ONE}` : `${links}, both ways${since}: LACP is not your trouble. ${flowSaid([])}`, "good"];
}

/* How links that carry do so, where some lead to another system or have another key: of these a bond has one group in use. */
function apartSaid(lines, all) {
    const groups = lagsOf(lines).length;
    if (lines.length < all) return `${lines.length} of them apart`;
    return groups < all ? `as ${groups} groups, of which a bond uses one` : "each by itself: a bond uses one of its links";
}

/* The headline, with how it looks: `unknown` says that files were not read, `apart` that the captures are of different times. */
export function headlineOf(lines, causes, unknown, apart) {
    const [said, look] = headlineIn(lines, causes), before = [unknown, apart].filter(Boolean).join(" ");
    return before && said ? [`${before} ${said}`, "bad"] : [said, look];
}

/* Links of which one direction was captured, and its end says that they carry. */
function saidAlone(those, all) {
    const whole = "the other direction was not captured. Capture both (tcpdump without -Q), or at the other end.";
    if (those.length === all) return `this end says that ${all === 1 ? "it carries" : "they carry"}; ${whole}`;
    return `Of ${joinedBy(those.map(({ link }) => linkName(link)))} this end says that ${those.length === 1 ? "it carries" : "they carry"}; ${whole}`;
}

/* A cause as a headline has it: one of a single link of several names that. */
function causeNamed(cause, lines) {
    const links = distinct(cause.findings.map((it) => lines.find(({ link }) => link?.ends.includes(it.at))?.link)), [link] = links;
    if (cause.head) return cause.head;
    return links.length === 1 && link && lines.length > 1 && ON_ONE_LINK.includes(cause.rule) ? `${cause.title}${cause.title === NOBODY_ANSWERS ? " on " : ": "}${linkName(link)}` : cause.title;
}

/* How many links carry, and the first cause; with how it looks. */
function headlineIn(lines, causes) {
    const [cause] = causes.filter(({ kind }) => kind === FAULT), all = lines.length, alone = lines.filter(({ isSaid, link }) => isSaid && !link.early);
    const those = lines.filter(({ how }) => how === CARRIES_APART), apart = those.length;
    const carry = apart + lines.filter(({ how }) => how === CARRIES).length, more = causes.filter(({ kind }) => kind === FAULT).length - 1;
    const head = `${howManyCarry(carry, all)}${apart && carry > 1 ? `, ${apartSaid(those, all)}` : ""}`;
    if (cause) return [`${all ? `${head}. ` : ""}${capitalized(causeNamed(cause, lines))}${more ? `, and ${counted(more, "more cause")}` : ""}.`, "bad"];
    if (!all) return ["", ""];
    if (alone.length === all) return [`${all} of ${counted(all, "link")}: ${saidAlone(alone, all)}`, ""];
    if (alone.length && carry - apart + alone.length === all) return [`${head}. ${saidAlone(alone, all)}`, ""];
    const idle = lines.find(({ how, isVague }) => how === IDLE && !isVague);
    if (idle) return [`${head}. ${capitalized(idle.why)}; ${CAUSELESS}`, ""];
    if (carry - apart < all) return [`${head}. No cause is in this capture: ask both ends, and capture all links for 100 s.`, ""];
    if (causes.some(({ kind }) => kind === EFFECT)) return [`${all === 1 ? "The link carries" : `${all} links carry`}, both ways, at the end.`, ""];
    return ofHealthy(lines, causes);
}

/* How many causes, effects and remarks there are, and at how many places. */
export function countsOf(causes) {
    const effects = causes.flatMap((it) => it.effects), kinds = [FAULT, EFFECT, PAST, REMARK];
    const all = kinds.map((kind) => [[...causes, ...effects].filter((it) => it.kind === kind).length, kind]).filter(([number]) => number);
    const places = causes.reduce((sum, it) => sum + it.whole.length, 0);
    return all.length ? `${all.map(([number, kind]) => counted(number, kind)).join(", ")}${places ? `, at ${counted(places, "place")}` : ""}` : "";
}
