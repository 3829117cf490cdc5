/* What texts of a status say: a line a port, and the causes, the first one first. The findings are those of the rules that want no times, of the
 * LACPDUs that the texts imply; facts that no LACPDU has get their own words. A text is a moment: what is starting looks as what stays so. */

import { bitsOf, muxSaid } from "./records.js";
import { astrayIn, capitalized, counted, crossingOf, distinct, isCrossed, joinedBy, keyGroups } from "./keys.js";
import { EFFECT, FAULT, REMARK } from "./causes.js";
import { ALONE, CARRIES, howManyCarry, IDLE, UNKNOWN } from "./summary.js";
import { flowSaid, hashesSaid } from "./hashes.js";
import { TEXT_BITS } from "./readings.js";
import { isDenied, linksOfTexts } from "./implied.js";
import { adviceOnPassive, areTwinsApart, dashed, isLinked, isSeveral, keysFollowSpeed, nameOfPort, namesIn, RULES, portsNamedAlike } from "./advice.js";

const isHalf = (it) => it.speed.endsWith("half");
/* Whether the device of a port does not report its speed, or its duplex: Linux bonding sends nothing on it. */
const isSpeedless = (it) => it.speed.includes("Unknown");
const speedOf = (it) => parseInt(it.speed, 10);
/* What a virtual card is set to where no other link has a speed, in Mb/s. */
const USUAL_SPEED = 10000;
/* The links that are slower than another, or half duplex. */
const slowIn = (ports) => ports.filter((it) => isHalf(it) || ports.some((other) => speedOf(other) > speedOf(it)));
const hearsNobody = (it) => (it.state & (TEXT_BITS.DEFAULTED | TEXT_BITS.EXPIRED)) !== 0;
const isPassive = (it) => !(it.state & TEXT_BITS.ACTIVE);

/* ---- Facts: a name, ports, a title and what to do; one without ports is none ---- */

/* A command of each port. */
const eachDone = (ports, commandOf) => ports.map(({ name }) => commandOf(name)).join("; ");
/* Bonding reads a speed as a link comes up. */
const setSpeed = (ports, [other]) => eachDone(ports, (name) => `ip link set ${name} down; ethtool -s ${name} speed ${other ? speedOf(other) : USUAL_SPEED} duplex full; ip link set ${name} up`);
const setUp = (ports) => eachDone(ports, (name) => `ip link set ${name} up`);
const OF_CABLE = "look at the cable and at the other end's port.";

function linkFacts({ name, told, ports, hash, isFar, form }) {
    const dead = ports.filter((it) => it.link === false && !it.isWaiting && !it.isOff), setDown = dead.filter((it) => it.isSetDown), down = dead.filter((it) => !it.isSetDown);
    const held = ports.filter((it) => it.isHeld), isSetUp = down.every((it) => it.isSetDown === false);
    const off = ports.filter((it) => it.isOff), waiting = ports.filter((it) => it.isWaiting), up = ports.filter((it) => isLinked(it) && it.aggregator !== null), linked = ports.filter(isLinked);
    const speeds = linked.filter((it) => !isSpeedless(it)), speedless = linked.filter((it) => isSpeedless(it) && !(saysCarry(it) && it.partner));
    const unreported = down.filter(isSpeedless), parts = [...new Set(up.map((it) => it.aggregator))], standing = ports.filter((it) => it.standsBy), away = ports.filter((it) => it.isAway);
    return [
        { name: "link-set-down", ports: setDown, title: `the link of ${namesIn(setDown)} is set down ${isFar ? "there" : "here"}`, advice: setUp(setDown) },
        { name: "link-down", ports: down, title: `the link of ${namesIn(down)} is down`,
            advice: form === "switch" ? `Nothing of LACP is to be judged there: look whether the port is shut (no shutdown), and ${OF_CABLE}` : `Nothing of LACP is to be judged there: ${isSetUp ? "" : `if it is set down ${isFar ? "there" : "here"}, ${setUp(down)}; else `}${OF_CABLE}${unreported.length ? ` If ip link says LOWER_UP of ${namesIn(unreported)}, the device reports no speed, and bonding takes such a link as down: ${setSpeed(unreported, speeds)}` : ""}` },
        { name: "held", ports: held, title: `the host holds ${namesIn(held)} out of use`,
            advice: `${eachDone(held, (name) => `lagd --release ${name}`)}. If the file of the bundle has hold=yes, take that out, too.` },
        { name: "device-down", ports: off, title: `the device of ${told} is down: LACP has ended on ${namesIn(off)}`,
            advice: "Set it up: ip link set DEVICE up (the status names it behind `carry:`)." },
        { name: "away", ports: away, title: `the carrier of ${namesIn(away)} is away, and LACP takes the link as up (delay-down): it passes nothing now`,
            advice: "Read the status again: it comes back within delay-down, or it is down." },
        { name: "waiting", ports: waiting, title: `the link of ${namesIn(waiting)} is back, and waits until its carrier was steady for so long (wait-to-restore): it is not used before`,
            advice: "Nothing is to be done. If it still waits later, its carrier comes and goes: look at the cable." },
        { name: "aggregators", ports: parts.length > 1 ? up : [], title: `${told} is in ${parts.length} parts, of which one is used`,
            advice: `${up.map((it) => `${it.name} in ${it.aggregator}`).join(", ")}: each has another partner, key or speed, or no partner.` },
        { name: "no-speed", ports: speedless, title: `the device of ${namesIn(speedless)} reports no speed, and bonding leaves such a link out`,
            advice: `Look at ${eachDone(speedless, (name) => `ethtool ${name}`)}. On a virtual card set one, that of the other links: ${setSpeed(speedless, speeds)}` },
        { name: "speeds", ports: isSeveral(speeds, (it) => it.speed) ? speeds : [], title: `the links of ${told} differ in speed or duplex`,
            advice: `${speeds.map((it) => `${it.name} ${it.speed}`).join(", ")}: look at ethtool ${distinct(slowIn(speeds).map((it) => it.name)).join(", ")} (what both ends advertise). A link that was faster before has often a cable with two good pairs, or a port with a forced speed: set autonegotiation at both ends, try another cable. All want one speed and full duplex.${speeds.some(isHalf) ? " Linux bonding sends no LACPDUs at half duplex." : ""}` },
        { name: "stands-by", ports: standing, title: `${told} uses one link at a time: its ${hash?.join(" is ")}`,
            advice: `${namesIn(standing)} stands by. For all links: ovs-vsctl set port ${name} bond_mode=balance-tcp` },
    ];
}

function silentFacts(bundle, form) {
    const { ports, isFar } = bundle;
    const silent = ports.filter((it) => it.actor && !it.partner && isLinked(it)), passive = silent.filter((it) => isPassive(it.actor));
    const deaf = ports.filter((it) => it.actor && it.partner && isLinked(it) && it.actor.state & TEXT_BITS.EXPIRED && hearsNobody(it.partner));
    const both = TEXT_BITS.DEFAULTED | TEXT_BITS.EXPIRED, loops = form === "bonding" || form === "ip" ? silent.filter((it) => (it.actor.state & both) === both) : [];
    return [
        { name: "passive-unheard", ports: passive, title: `passive, and hears nobody: ${namesIn(passive)}`, advice: isFar ? "Set that end, or this one, to active." : adviceOnPassive(form, deviceOf([bundle])) },
        { name: "never-heard", ports: loops, title: `no LACPDU was ever accepted on ${namesIn(loops)}`,
            advice: "Linux drops LACPDUs of its own system (dmesg: \"An illegal loopback occurred\"): look for a loop, or for two machines with one system." },
        isFar ? { name: "deaf-there", ports: deaf, title: `this end heard nobody first, as ${namesIn(deaf)} says`, advice: "What the far end sends does not arrive here: look at the path from there." }
            : { name: "deaf-there", ports: deaf, title: `the other end heard nobody first: ${namesIn(deaf)}`,
                advice: "It said so while this end still heard it: what this end sends does not arrive there. Look at the path from here, and capture at the other end." },
    ];
}

function partnerFacts({ name, ports }) {
    const heard = ports.filter((it) => it.partner), apart = heard.filter((it) => isLinked(it) && it.partner.system === null && it.aggregator !== null);
    const alike = heard.filter((it) => it.partner.system === it.actor.system && it.partner.priority !== null && it.partner.priority !== it.actor.priority);
    const twins = areTwinsApart(ports) ? [] : portsNamedAlike(ports);
    return [
        { name: "apart", ports: apart, title: `another aggregator than the one in use has ${namesIn(apart)}`,
            advice: `Both ends speak there: it has another partner, or another key (another speed or duplex). As root, cat /proc/net/bonding/${name} names it.` },
        { name: "own-address", ports: alike, title: `the partner of ${namesIn(alike)} has this end's MAC address, with another priority`,
            advice: "Linux drops such LACPDUs: give each system its own address." },
        { name: "same-partner-port", ports: twins, title: `one port of one system is the partner of ${namesIn(twins)}`,
            advice: "Right with switches that act as one (MLAG); else two machines have one system." },
    ];
}

/* Several bundles in one text: those of one system, or both ends of links, which are counted as more links then. */
function severalFacts(text) {
    const bundles = text.bundles.filter(({ ports }) => ports.length);
    const systemOf = ({ ports }) => ports.find((it) => it.actor)?.actor.system;
    const isOne = bundles.length > 1 && systemOf(bundles[0]) && bundles.every((it) => systemOf(it) === systemOf(bundles[0]));
    const said = bundles.map((it) => `${it.told}${systemOf(it) ? ` is of the system ${dashed(systemOf(it))}` : ""}`);
    const named = (one, other) => other !== one && one.ports.some(({ partner }) => partner?.system && partner.system === systemOf(other));
    const ends = bundles.filter((one) => bundles.some((other) => named(one, other)));
    if (bundles.length < 2) return [];
    const title = ends.length ? "both ends of links are in one text, which is read as of one end" : `${bundles.length} bundles are in one text`;
    const what = ends.length ? "Give the far end's apart" : "If one is the far end's, give it apart";
    const advice = isOne && !ends.length ? `All are of the system ${dashed(systemOf(bundles[0]))}.` : `${capitalized(said.join(", "))}. ${what}, as the second text.`;
    return [{ name: "several", ports: [], title, advice }];
}

/* The facts of texts; `between` are those that hold between them. */
function factsIn(texts, between) {
    const bundles = texts.flatMap((text) => text.bundles.map((it) => ({ ...it, form: text.form })));
    const facts = bundles.flatMap((it) => [...linkFacts(it), ...silentFacts(it, it.form), ...partnerFacts(it), ...it.facts ?? []]), isCopied = between.some(({ name }) => name === "copied");
    return [...between, ...facts.filter((it) => it.ports.length), ...isCopied ? [] : severalFacts(texts[0])];
}

/* ---- Causes ---- */

/* What explains the rest comes first: facts by name, rules by number. */
const RANKS = ["no-lacp", "no-state", "no-root", "set-down", 30, "own-address", "never-heard", "copied", "crossed", 29, 15, "apart", "device-down", "link-set-down", "link-down", "suspended", "none-came", "none-sent", "held", "no-speed", "speeds", "stands-by", 5, "passive-unheard", 14, "deaf-there", 12, 22, "unattached-there", 17, 2, 3, 4, "too-few", "no-links"];
const isUnheard = ({ rank }) => rank === 12;
/* What calls for nothing by itself. */
const ASIDE = ["away", "waiting", "hot-standby", "aggregators", "same-partner-port", "one-system", "not-far", "several", "note", "said"];

const isCutIn = (text) => text.bundles.some((it) => it.isCut);
/* That texts are cut, and where the first one of them is. */
function cutSaid(texts) {
    const [{ cut }] = texts.find(isCutIn).bundles.filter((it) => it.isCut);
    return `The text is cut${cut ? `: ${cut}` : ""}. Nothing is named: give all of it, with the line behind it.`;
}
const causeOf = (given) => ({ kind: FAULT, lines: [], effects: [], ports: [], ...given });

/* Rules by which links are compared: a finding of them may be of several bundles. */
const KEYS_DIFFER = 15, TWO_SYSTEMS = 29, COMPARING = [KEYS_DIFFER, TWO_SYSTEMS, "crossed"];
/* Whether a bundle never heard a partner, on any link. */
const hasNoPartner = ({ ports }) => ports.some((it) => it.actor) && ports.every((it) => it.actor ? !it.partner : it.link === false);
const bundleOf = (port, bundles) => bundles.findIndex(({ ports }) => ports.includes(port.said ?? port));

/* ---- Several bundles of one text ---- */

/* A port as a link of a capture, for its keys. */
function asLink(port) {
    const nameOf = ({ priority, system }) => `${priority}/${dashed(system)}`, end = { label: nameOfPort(port), port: port.actor.port, named: nameOf(port.partner), last: port };
    return { systems: [port.actor, port.partner].map(nameOf), links: [{ of: port, isPast: false, isAlone: true, ends: [end, null] }] };
}

/* The groups of links of several bundles that lead to one system, and cross there. */
function crossedIn(bundles) {
    const isNamed = (it) => isLinked(it) && [it.actor, it.partner].every((party) => party?.system && party.key !== null);
    const groups = bundles.length > 1 ? keyGroups(bundles.flatMap((it) => it.ports).filter(isNamed).map(asLink)) : [];
    return groups.filter((group) => isCrossed(group) && !isSeveral(group, ({ link }) => link.of.partner.system));
}

/* Whether a port is one of a group, or is at the other end of one. */
const isOfGroup = (said, group) => group.some(({ link: { of } }) => of === said || ["system", "key", "port"].every((it) => of.actor[it] === said.partner?.[it]));

/* Where cables cross, as of captures: what rules say of it is one cause. */
function causesOfCrossed(found, groups) {
    return groups.flatMap((group) => {
        const own = found.find(({ rule, port }) => rule === KEYS_DIFFER && isOfGroup(port.said, group)), { astray, other } = astrayIn(group), { title, lines, advice } = crossingOf(group[0].link, [group]);
        const ports = (astray.length ? [...astray, ...other] : group).map(({ link }) => link.of);
        return own ? [causeOf({ rank: "crossed", rule: own.rule, clause: own.clause, title: `${title}: ${namesIn(ports)}`, advice, lines, ports })] : [];
    });
}

/* Whether rule 29 compares links of a bundle that lead to one system with those of another bundle. */
function isBeside({ rule, port }, bundles) {
    const [own] = bundles.filter(({ ports }) => ports.includes(port.said));
    return rule === TWO_SYSTEMS && bundles.length > 1 && own !== undefined && !isSeveral(own.ports.filter((it) => it.partner?.system), ({ partner }) => `${partner.priority}/${partner.system}`);
}

/* That several bundles lead to one group there. */
function causesOfOneGroup(found, bundles) {
    const shared = found.filter((it) => it.isImplied && it.port.said.partner.system && isBeside(it, bundles)), near = distinct(shared.map(({ port }) => bundles[bundleOf(port, bundles)]));
    const ports = near.flatMap((it) => it.ports).filter((it) => shared.some(({ port }) => ["system", "key"].every((name) => it.partner?.[name] === port.said.partner[name])));
    if (near.length < 2) return [];
    return [causeOf({
        rank: TWO_SYSTEMS, rule: TWO_SYSTEMS, clause: shared[0].clause, ports, title: `${joinedBy(near.map(({ name, told }) => name || told))} lead to one group at the other end: ${namesIn(ports)}`,
        advice: "Give each a group of its own there (switch: a channel-group each), or put all these ports into one bundle here.",
    })];
}

/* What a bundle shares with others that are compared with it: a system and its key; of keys that differ, in one pair of systems. */
function sharedIn({ ports }, rule) {
    const both = ports.filter((it) => it.actor && it.partner?.system).map(({ actor, partner }) => [actor, partner]);
    return both.flatMap((ends) => ends.map(({ system, key }, side) => `${side} ${system} ${key} ${rule === KEYS_DIFFER ? ends[1 - side].system : ""}`));
}

/* For each bundle the first one that it is compared with, over others in turn. */
function comparedIn(bundles, rule) {
    const shared = bundles.map((it) => sharedIn(it, rule)), first = bundles.map((_, at) => at);
    shared.forEach((own, at) => shared.slice(0, at).forEach((other, before) => {
        if (first[before] !== first[at] && own.some((it) => other.includes(it))) {
            const [low, high] = [first[before], first[at]].sort((one, another) => one - another);
            first.forEach((it, place) => { if (it === high) first[place] = low; });
        }
    }));
    return first;
}

/* The place of the bundle of a port; of one of the far end that of the links that lead to its system. */
function placeOfPort(port, bundles) {
    const at = bundleOf(port, bundles), { actor, partner } = port.said ?? port;
    return at >= 0 ? at : bundles.findIndex(({ ports }) => ports.some((it) => it.actor && it.partner && it.actor.system === partner?.system && it.partner.system === actor?.system));
}

/* What is told as one: a rule, in a bundle; of who hears nobody (12), the other ends, those whose link has two texts, those that heard somebody before,
 * and the rest are told apart. */
function toldAs({ rule, isImplied, port }, bundles) {
    const at = bundles.every(hasNoPartner) ? "" : COMPARING.includes(rule) ? comparedIn(bundles, rule)[placeOfPort(port, bundles)] : bundleOf(port, bundles);
    return rule === 12 ? `${rule} ${at} ${isImplied} ${Boolean(port.far)} ${port.said.partner !== null}` : `${rule} ${at}`;
}

/* What the device of a bundle is called, in a command; a text of bonding does not say it. */
const deviceOf = (bundles) => bundles.length === 1 && !bundles[0].name.includes(" ") ? bundles[0].name : "BOND";

function causesOfRules(found, { bundles, form, notes }) {
    const isOneOfBonds = bundles.length > 1 || (notes.some((it) => isBesideLacp(it, { bundles })) && !bundles[0].name.startsWith("the "));
    const rules = distinct(found.map((it) => toldAs(it, bundles))).map((told) => found.filter((it) => toldAs(it, bundles) === told));
    return rules.map((list) => {
        const [{ rule, clause, name, advice }] = list, own = RULES.get(rule) ?? {}, here = list.filter((it) => !it.isImplied), meant = list.map((it) => it.port);
        const near = bundles.filter((it) => meant.some((port) => it.ports.includes(port.said)));
        const ports = (near.length ? near : bundles).flatMap((it) => it.ports);
        const who = here.length ? namesIn(here.map((it) => it.port)) : `the other end of ${namesIn(meant)}`;
        const seen = { ports, form, advice, device: deviceOf(near), meant: meant.map(({ said, far, saysThere }) => ({ ...said, far, saysThere })), isLasting: meant.some((it) => it.isLasting), isImplied: !here.length };
        const silent = near.filter(hasNoPartner), isOfSeveral = silent.length < bundles.length;
        const plain = (!here.length && own.implied?.(namesIn(meant))) || `${own.case?.(seen) ?? own.title ?? name}: ${who}`;
        const head = isOneOfBonds && near.length === 1 ? `in ${near[0].name}: ` : "", title = own.whole?.({ ...seen, silent, isOfSeveral }) ?? `${head}${plain}`;
        return causeOf({ rank: rule, rule, clause, title, plain, advice: own.advice?.(seen) ?? advice, lines: own.said?.(seen) ?? [], ports: meant });
    });
}

/* The causes that findings are: of those that compare bundles with each other, in words of these. */
function causesFound(found, text) {
    const crossed = crossedIn(text.bundles), isOfCrossed = ({ rule, port }) => COMPARING.includes(rule) && crossed.some((group) => isOfGroup(port.said, group));
    const rest = found.filter((it) => !isOfCrossed(it));
    return [...causesOfCrossed(found, crossed), ...causesOfOneGroup(rest, text.bundles), ...causesOfRules(rest.filter((it) => !isBeside(it, text.bundles)), text)];
}

/* Whether a cause follows from another one, in its bundles. */
function followsFrom(it, { rank, ports }, bundles, isOfSpeed) {
    const isOfRank = { "no-speed": () => [12, 14].includes(it.rank) && it.ports.every(isSpeedless), speeds: () => (it.rank === 15 && isOfSpeed) || (it.rank === 12 && it.ports.every(isHalf)), "never-heard": isUnheard, "passive-unheard": isUnheard, "deaf-there": isUnheard }[rank];
    const own = ports.map((port) => bundleOf(port, bundles)), isNear = !own.length || !it.ports.length || it.ports.some((port) => own.includes(bundleOf(port, bundles)));
    return isNear && ([17, 22, "unattached-there"].includes(it.rank) || Boolean(isOfRank?.(it)));
}

/* Causes by what explains others: the first one has what follows from it, in its bundles, and so has one that compares links. Where keys differ as speeds
 * do, the speeds explain them. */
function inOrder(all, bundles) {
    const isOfSpeed = all.some((it) => it.rank === "speeds") && keysFollowSpeed(bundles.flatMap((it) => it.ports)), rankOf = ({ rank }) => isOfSpeed && rank === "speeds" ? RANKS.indexOf(15) - 0.5 : RANKS.indexOf(rank);
    const causes = [];
    for (let rest = all.sort((one, other) => rankOf(one) - rankOf(other)); rest.length;) {
        const [cause, ...others] = rest, effects = causes.length && !COMPARING.includes(cause.rank) ? [] : others.filter((it) => followsFrom(it, cause, bundles, isOfSpeed));
        cause.effects = effects.map((it) => ({ ...it, kind: EFFECT, title: it.plain ?? it.title }));
        causes.push(cause);
        rest = others.filter((it) => !effects.includes(it));
    }
    return causes;
}

/* Whether somebody holds the link of a finding, at either end: then it says nothing that it is not attached. */
const isOfHeld = ({ rule, port }) => [17, 22].includes(rule) && (port.said.isHeld || port.isHeldThere);

/* Whether a note is of a bond that does not speak LACP, beside one that does. */
const isBesideLacp = ({ name }, { bundles }) => name === "no-lacp" && bundles.length > 0;

/* The causes of texts, the first one first; of a text that is cut none is named. What the hashes mean is said where all links of a bundle carry. */
export function causesOfTexts({ texts, facts: between }, { found, left }) {
    const bundles = texts.flatMap((it) => it.bundles), aside = (rank) => ASIDE.includes(rank) ? REMARK : FAULT;
    const notes = texts.flatMap((text) => text.notes.map((it) => causeOf({ rank: it.name, title: it.text, advice: it.advice ?? "", kind: isBesideLacp(it, text) ? REMARK : aside(it.name) })));
    const said = bundles.flatMap((it) => it.ports).filter((it) => it.facts.length).map((it) => causeOf({ rank: "said", kind: REMARK, title: `${nameOfPort(it)}: ${it.facts.join("; ")}`, advice: it.advice }));
    const more = left ? [causeOf({ rank: "note", kind: REMARK, title: `${counted(left, "link")} beyond the first 32 are not looked at`, advice: "Give the others alone." })] : [];
    if (texts.some(isCutIn)) return [...notes, ...said];
    const facts = factsIn(texts, between).map((it) => causeOf({ rank: it.name, title: it.title, advice: it.advice, ports: it.ports, kind: aside(it.name) }));
    const isCopied = facts.some(({ rank }) => rank === "copied");
    const rules = causesFound(found.filter((it) => !(it.rule === 17 && isDenied(it.port.said)) && !isOfHeld(it) && !(isCopied && COMPARING.includes(it.rule))), texts[0]);
    const causes = inOrder([...notes, ...facts, ...rules].filter((it) => it.kind === FAULT), texts[0].bundles);
    const whole = causes.length ? [] : texts[0].bundles.filter(({ ports }) => ports.length > 1 && ports.every(saysCarry));
    const hashes = hashesSaid(whole).map((it) => causeOf({ rank: "hash", kind: REMARK, ...it }));
    const meant = new Set(causes.flatMap((it) => it.ports).map(nameOfPort));
    const isExplained = ({ rank, ports }) => rank === "aggregators" && ports.some((it) => meant.has(nameOfPort(it)));
    return [...causes, ...[...notes, ...facts].filter((it) => it.kind === REMARK && !isExplained(it)), ...hashes, ...more, ...said];
}

/* ---- Lines ---- */

/* What keeps a port out of the aggregator that is in use; nothing where the text does not show it. */
function howApart(port, used) {
    if (port.partner.system && used.partner?.system !== port.partner.system) return `its partner is ${dashed(port.partner.system)}`;
    if (port.speed !== used.speed) return `its speed and duplex are ${port.speed}, and those of ${used.name} ${used.speed}`;
    const isOtherPriority = used.partner && isSeveral([port, used], (it) => it.partner.priority);
    if (isOtherPriority) return `its partner has the system priority ${port.partner.priority}, and ${used.partner.priority} on ${used.name}`;
    if (!bitsOf(port.partner.state).includes("aggregatable")) return "the other end is individual";
    const isOtherKey = used.partner && port.partner.key !== null && used.partner.key !== port.partner.key;
    return isOtherKey ? `its partner has key ${port.partner.key}, and ${used.partner.key} on ${used.name}` : "";
}

/* Why Open vSwitch does not use a port: it has no aggregators, and waits for nothing. */
function whyDetached(port, { ports }) {
    const isAttached = ({ actor }) => actor !== null && bitsOf(actor.state).includes("synchronized");
    const used = ports.find((it) => it.isUsed) ?? ports.find((it) => it !== port && it.partner && isAttached(it));
    if (isAttached(port)) return "this end has attached it, and says may_enable: false";
    const differs = used ? howApart(port, used) : "";
    return `this end has not attached it${differs ? `: ${differs}` : ""}`;
}

/* Why a port of a text does not carry. */
function whyIdle(port, bundle) {
    if (port.isOff) return "the device is down";
    if (port.isWaiting) return "its link is back, and waits for wait-to-restore";
    if (port.link === false) return port.isSetDown ? "its link is set down here" : "its link is down";
    if (port.isAway) return "its carrier is away now";
    if (port.standsBy) return `it stands by: ${bundle.hash.join(" is ")}`;
    if (!port.actor) return port.says || "the text has nothing of its LACPDUs";
    if (port.isHeld) return "the host holds it out of use";
    if (!port.partner) return isSpeedless(port) ? "its device reports no speed" : "it hears nobody";
    const used = bundle.ports.find((it) => it.isUsed), state = bitsOf(port.partner.state);
    if (used && used.aggregator !== null && port.aggregator !== null && used.aggregator !== port.aggregator) {
        const differs = howApart(port, used);
        return `it is in aggregator ${port.aggregator}, ${used.aggregator} is in use${differs ? `: ${differs}` : ""}`;
    }
    if (hearsNobody(port.partner)) return "the other end said that it hears nobody";
    if (hearsNobody(port.actor)) return "it hears nobody now";
    if (!state.includes("synchronized")) return "the other end has not attached it";
    if (port.isOwnSaid === false) return port.says || "the other end does not collect and distribute";
    if (bundle.isOfLagd === false) return whyDetached(port, bundle);
    return `this end ${muxSaid(port.actor.state)}`;
}

/* Whether a port says that it carries data; null where nothing says so. */
const saysCarry = (port) => port.isUsed ?? (port.actor ? (port.actor.state & TEXT_BITS.DISTRIBUTING) !== 0 && port.partner !== null : null);

/* How a port is, with the port at the other end where a text has that. */
function stateOfPort(port, bundle, far) {
    const carries = saysCarry(port);
    if (port.isCut) return [UNKNOWN, "the text is cut within its part"];
    if (port.actor && port.partner && port.link !== false && isPassive(port.actor) && isPassive(port.partner)) return [IDLE, "both ends are passive: it falls each few seconds"];
    if (port.isAlone) return [ALONE, "it hears nobody, and this end uses it all the same; data arrives if the other end uses it, too"];
    if (carries && !port.actor) return [CARRIES, port.by];
    if (carries && !port.partner) return [IDLE, "it hears nobody, and this end sends on it alone"];
    if (carries === null && port.link !== false) return [UNKNOWN, whyIdle(port, bundle)];
    if (!carries) return [IDLE, whyIdle(port, bundle)];
    if (!far && port.partner && !(port.partner.state & TEXT_BITS.COLLECTING)) return [IDLE, "one way: this end uses it, and the other end does not collect"];
    if (!far) return [CARRIES, port.by ?? "as this end says"];
    return saysCarry(far) === false ? [IDLE, `this end uses it, and the other, ${far.name}, does not`] : [CARRIES, "both ways"];
}

/* The same in a few words. */
const briefOf = (why) => why.replace(/^(it|this end|the text) (?=hears|has)/, "").split(/[:;,]/)[0];
/* Whether LACPDUs come on a port in one direction alone, or in none. */
const isOneWay = ({ actor, partner, link }) => actor !== null && link !== false && (!partner || hearsNobody(partner) || hearsNobody(actor));

/* The name of the bundle of a port, before it, where there are several; a text of bonding need not have it. */
const bundleSaid = ({ name }, all) => all.length > 1 && !name.endsWith(" of the text") ? `${name} ` : "";

/* A line for each port of the first text, those that do not carry first. */
export function linesOfTexts(texts) {
    const links = linksOfTexts(texts), lines = texts[0].bundles.flatMap((bundle) => bundle.ports.map((port) => {
        const [, far] = links.find(([end]) => end.said === port) ?? [port, null], { partner } = port;
        const who = partner?.system ? ` (partner ${dashed(partner.system)}${partner.port ? ` port ${partner.port}` : ""})` : "", [how, why] = stateOfPort(port, bundle, far);
        const at = `${bundleSaid(bundle, texts[0].bundles)}${port.name}`;
        return { name: `${at}${who}`, at, port, how, why, brief: how === CARRIES ? "" : briefOf(why), isOneWay: isOneWay(port) };
    }));
    return [IDLE, ALONE, UNKNOWN, CARRIES].flatMap((how) => lines.filter((it) => it.how === how));
}

/* How many links carry, and which are in use without a partner; nothing where that is not known. */
function howManySaid(lines, bundles) {
    const ports = bundles.flatMap((it) => it.ports), several = bundles.length > 1 ? `, in ${bundles.length} bundles` : "";
    const [carry, alone] = [CARRIES, ALONE].map((how) => lines.filter((it) => it.how === how).length), all = lines.length;
    if (!all || lines.some(({ how }) => how === UNKNOWN)) return "";
    if (!alone) return `${howManyCarry(carry, all)}${several}. `;
    const who = `${namesIn(ports.filter((it) => it.isAlone))}, without a partner`;
    const [is, itself] = alone === 1 ? ["is", "itself"] : ["are", "themselves"];
    return carry ? `${howManyCarry(carry, all)}, and ${who}, ${is} in use. ` : `${alone} of ${counted(all, "link")} ${is} in use by ${itself}: ${who}. `;
}

const ONE_OF_TEXT = "The one link of this text carries. If the bundle has more, the text is cut: give all of it. If it is to have more, they are not in it "
    + "(bonding: ip link set PORT master BOND).";

/* A title as a sentence. */
const sentenceOf = ({ title }) => `${capitalized(title)}${title.endsWith("?") ? "" : "."}`;
/* Of more bundles a headline has no causes. */
const MOST_NAMED = 3;

/* The causes that a headline has: the first one; of several bundles the first one of each, of the bundle where the fewest links carry first. */
function causesNamed(bundles, causes) {
    const faults = causes.filter(({ kind }) => kind === FAULT), shareOf = ({ ports }) => ports.filter(saysCarry).length / ports.length;
    if (bundles.length < 2 || !faults[0]?.ports.length) return faults.slice(0, 1);
    const worst = [...bundles].filter(({ ports }) => ports.length).sort((one, other) => shareOf(one) - shareOf(other));
    const named = worst.map((bundle) => faults.find(({ ports }) => ports.some((it) => bundleOf(it, [bundle]) === 0))).filter(Boolean);
    return named.length ? distinct([...named, ...faults.filter(({ ports }) => !ports.length)]).slice(0, MOST_NAMED) : faults.slice(0, 1);
}

/* The headline, and how it looks. */
export function headlineOfTexts(texts, lines, causes) {
    const carry = lines.filter(({ how }) => how === CARRIES).length, all = lines.length, named = causesNamed(texts[0].bundles, causes);
    const few = causes.filter(({ kind, rank }) => kind === FAULT && rank === "too-few" && !named.some((it) => it.rank === rank)).map(sentenceOf).join(" ");
    const head = `${howManySaid(lines, texts[0].bundles)}${few ? `${few} ` : ""}`;
    if (texts.some(isCutIn)) return [cutSaid(texts), "bad"];
    if (named.length) return [`${head}${named.map(sentenceOf).join(" ")}`, "bad"];
    if (!all) return ["No port of an LACP bundle is in this text.", "bad"];
    const passing = causes.find(({ rank }) => rank === "away" || rank === "waiting");
    if (passing) return [`${head}${capitalized(passing.title)}.`, ""];
    if (carry < all) return [`${head}The text does not show why: give the text of the other end, or capture.`, ""];
    const twins = causes.find(({ rank }) => rank === "same-partner-port");
    if (twins) return [`${head}${capitalized(twins.title)}: right if switches act as one (MLAG).`, ""];
    if (all === 1) return [ONE_OF_TEXT, ""];
    return [`${head}LACP is not your trouble${texts.length > 1 ? "" : ", if the other end says so, too"}. ${flowSaid(texts[0].bundles)}`, "good"];
}

/* Whether texts have nothing of LACPDUs that could be judged. */
export const areUnread = (texts, causes) => texts.some(isCutIn) || causes.some(({ rank }) => ["no-root", "no-state"].includes(rank))
    || (!causes.some(({ kind }) => kind === FAULT) && !texts[0].bundles.some(({ ports }) => ports.length));

/* What each port of texts says, in words: for a table. */
export function rowsOfTexts(texts) {
    const party = (it) => it ? [it.system ? dashed(it.system) : "not named", it.key ?? "-", it.port ?? "-", bitsOf(it.state).join(", ") || "none"] : ["nobody", "-", "-", "-"];
    return texts.flatMap((text) => text.bundles.flatMap((bundle) => bundle.ports.map((it) => {
        const link = it.link === null ? "not said" : it.isWaiting ? "waiting" : it.link ? "up" : "down";
        return [nameOfPort(it), link, `${it.aggregator ?? "-"}`, it.isOwnSaid === false ? "not said" : it.actor ? bitsOf(it.actor.state).join(", ") : "-", ...party(it.partner).map(String)];
    })));
}
