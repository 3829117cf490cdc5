/* Reads what systems print of LACP: /proc/net/bonding, ip -d link, teamdctl state dump, ovs-appctl lacp/show, lagd --status. Each form was
 * tried with texts of the programs; examples/status has some.
 *
 * A text gives `{ form, bundles, notes }`. A bundle has a name, how it is told, ports, `hash` (what names it, and its words; null: not said), and
 * whether the text is cut in it (`cut` says where, if that is known). A port has `name`, `link` (true, false or null: not said), `source`, `actor`
 * and `partner`, `aggregator`, `isSetDown` (null: not said), `isUsed` (whether the text says that it carries data; null: not said), `isAlone`
 * (whether it does so without a partner), `isLasting` (whether an end has not been synchronized for 60 s), `speed`, `says` (why its program does not
 * use it, in its words), and `facts`, texts of what no LACPDU has, with `advice` on them. A note has what is so, and what to do. A party has `priority`, `system`, `key`, `portPriority`, `port` and `state`; what the text does
 * not have is null; `partner` is null where none is heard. */

import { bundleOfText, macOf, NO_ADDRESS, numberOf, portOfText, TEXT_BITS } from "./readings.js";
import { SWITCH_FORMS } from "./switches.js";

/* What programs call the bits of a state, from the first. */
const WORDS = [
    ["activity", "active"], ["timeout", "short_timeout"], ["aggregation", "aggregating"], ["synchronization", "synchronized", "in_sync"], ["collecting"],
    ["distributing"], ["defaulted"], ["expired"],
];
/* What follows a state in the last line of a text that ends there. */
const LAST_STATE = /(?:partner state|port state): *(.*)$/;
/* Whether such words, or such a number of an octet, may go on. */
const mayGoOn = (state) => /^\d+$/.test(state) ? Number(state) > 0 && Number(state) <= 25 : !state.endsWith("distributing");

/* The octet of such words; null where one is no word of a state. */
function octetOf(words) {
    const bits = words.map((word) => WORDS.findIndex((it) => it.includes(word)));
    return bits.includes(-1) ? null : bits.reduce((octet, bit) => octet | (1 << bit), 0);
}

const wordsIn = (text) => (text ?? "").split(/\s+/).filter((it) => it && it !== "none" && it !== "-");
const isDistributing = (actor) => actor !== null && (actor.state & TEXT_BITS.DISTRIBUTING) !== 0;

/* The last value of each key of lines such as `key: value`. */
function valuesIn(text) {
    return new Map([...text.matchAll(/^[ \t]*([^:\n]+?):[ \t]*(.*?)[ \t]*$/gm)].map(([, key, value]) => [key, value]));
}

/* A partner is known if it has an address, and the end is not Defaulted. */
const knownPartner = (actor, partner) => !partner || partner.system === NO_ADDRESS || (actor && actor.state & TEXT_BITS.DEFAULTED) ? null : partner;

/* That fewer links of a bundle carry than it wants: it passes no data. Each form has its own name of what it wants. */
const tooFew = (told, carrying, least, option) => ({
    name: "too-few", text: `${told} is down: ${carrying} of its links ${Number(carrying) === 1 ? "carries" : "carry"}, and it wants ${least} (${option})`,
    advice: `Mend the other links, or set ${option} lower.`,
});

/* That a whole text of lagd has a bundle without a port. */
const noLinks = (told) => ({ name: "no-links", text: `${told} has no links`, advice: "lagd --add IFACE gives it one; with members=follow: ip link set IFACE master DEVICE." });

const times = (number) => Number(number) === 1 ? "once" : `${number} times`;
/* What to do where a link failed so often; once is seldom a fault. */
const adviceOnFailures = (name, count) => Number(count) > 1 ? `If that count grows, the carrier of ${name} comes and goes: look at journalctl -k, at the errors of ethtool -S ${name}, at optics and cable.` : "";

/* ---- /proc/net/bonding/NAME ---- */

/* What an end says; null where a line of it is missing. */
function partyOfBonding(part, side, keyName) {
    const [, found] = part.split(new RegExp(`^[ \\t]*details ${side} lacp pdu:[ \\t]*\\n`, "m"));
    if (found === undefined) return null;
    const it = valuesIn(found.replace(/^\s*details [\s\S]*/m, ""));
    if (!it.get("system mac address") || ["system priority", keyName, "port priority", "port number", "port state"].some((key) => numberOf(it.get(key)) === null)) return null;
    return {
        priority: numberOf(it.get("system priority")), system: macOf(it.get("system mac address")), key: numberOf(it.get(keyName)),
        portPriority: numberOf(it.get("port priority")), port: numberOf(it.get("port number")), state: numberOf(it.get("port state")),
    };
}

const SIDES = ["Actor", "Partner"];
const isChurned = (it, side) => it.get(`${side} Churn State`) === "churned";

function factsOfBonding(it) {
    const facts = [];
    for (const side of SIDES) {
        const who = side === "Actor" ? "this end" : "the other end", count = Number(it.get(`${side} Churned Count`));
        if (isChurned(it, side)) facts.push(`${who} has not been synchronized for 60 s or more`);
        if (count > (isChurned(it, side) ? 1 : 0)) facts.push(`${who} was not synchronized for 60 s, ${times(count)}`);
    }
    if (Number(it.get("Link Failure Count")) > 0) facts.push(`its link failed ${times(it.get("Link Failure Count"))} since the bond has it`);
    return facts;
}

/* What to do where counts of a member are not 0. */
function adviceOfBonding(it) {
    const churned = SIDES.some((side) => Number(it.get(`${side} Churned Count`)) > 0), failed = it.get("Link Failure Count");
    const lost = churned ? "If a Churned Count grows and the Link Failure Count does not, the carrier stays, and LACPDUs are likely lost: capture." : "";
    return [adviceOnFailures(it.get("Slave Interface"), failed), lost].filter(Boolean).join(" ");
}

/* One member, and whether the text has all of it. Of an active aggregator without a partner the driver uses the one port all the same. */
function memberOfBonding(part, active, isHeard) {
    const it = valuesIn(part.replace(/^\s*details [\s\S]*/m, "")), aggregator = numberOf(it.get("Aggregator ID")), link = it.get("MII Status") === "up";
    const actor = partyOfBonding(part, "actor", "port key"), partner = partyOfBonding(part, "partner", "oper key");
    const isActive = aggregator === active && link, isAlone = active !== null && actor !== null && isActive && !isHeard && !knownPartner(actor, partner);
    const isUsed = active !== null && actor ? isActive && (isAlone || isDistributing(actor)) : null;
    const port = portOfText({
        name: it.get("Slave Interface"), link, source: macOf(it.get("Permanent HW addr")), actor, partner: knownPartner(actor, partner), aggregator, isUsed, isAlone,
        isLasting: SIDES.some((side) => isChurned(it, side)), speed: `${it.get("Speed")} ${it.get("Duplex")}`, facts: factsOfBonding(it), advice: adviceOfBonding(it),
    });
    const isHeardWhole = actor !== null && partner !== null; // the lines of churns may be filtered out, and older drivers have none
    port.isCut = !(it.has("MII Status") && (isHeardWhole || (active === null && it.has("Partner Churned Count"))));
    return { port, isWhole: !port.isCut };
}

/* What each part of a port begins with. */
const SLAVE = "Slave Interface: ";
const noLacp = (text, mode) => ({ name: "no-lacp", text: `${text}: its mode is "${mode}"`, advice: "LACP is mode=802.3ad (802.3ad in sysfs and ip, too)." });

/* That a text of bonding has a bond without a port. */
const noMembers = (told, name) => ({
    name: "no-links", text: `${told} has no member`,
    advice: `ip link set PORT down; ip link set PORT master ${name} (at each start: netplan \`interfaces:\`, ifupdown \`bond-slaves\`). If ${told} has members, this text is cut behind its head: give all of it.`,
});
/* The last lines that a head may have: where nothing stands behind them, no port does. */
const LAST_OF_HEAD = /^(?:Aggregator selection policy \(ad_select\): \S+\n|System MAC address: \S+\n|bond \S+ has no active aggregator|\s*Number of ports: 0\n(?:\s*(?:Actor Key|Partner Key|Partner Mac Address): \S+\n)*)\s*(?![\s\S])/m;

/* Where the text of a bond is cut; nothing where it is whole. The driver says of the active aggregator how many ports it has. */
function cutOf(text, members, active, least) {
    const part = members.find(({ isWhole }) => !isWhole), there = members.filter(({ port }) => port.aggregator === active).length;
    const last = text.trimEnd().split("\n").at(-1);
    if (part) return `the part of ${part.port.name} is not whole`;
    if (!members.length) return "it ends before the first port, if the bond has one";
    if (there < least) return `of the ports in aggregator ${active} it has ${there} of ${least}`;
    return SLAVE.startsWith(last) ? `"${last}" is its last line` : "";
}

/* A bond: its name, if the text has it, and its part of the text. */
function bondOf([, name, text]) {
    const [head, ...parts] = text.split(/^(?=Slave Interface: )/m), said = valuesIn(head), notes = [], mode = said.get("Bonding Mode") ?? "";
    const told = name ? `the bond ${name}` : "the bond", called = name ?? told;
    const early = { isCut: true, cut: "it ends before the mode of the bond" };
    if (!/^Bonding Mode: .*\n/m.test(head)) return { bundles: [bundleOfText(called, told, [], early)], notes };
    if (!mode.includes("802.3ad")) return { bundles: [], notes: [noLacp(`${name ? told : "this bond"} does not speak LACP`, mode)] };
    const found = /Active Aggregator Info:\s*\n\s*Aggregator ID: (\d+)[\s\S]*?Number of ports: (\d+)/.exec(head), active = found ? Number(found[1]) : null;
    const [, own] = /^bond (\S+) has no active aggregator$/m.exec(head) ?? [];
    const hash = /^(\S+)/.exec(said.get("Transmit Hash Policy") ?? "")?.[1], isHeard = macOf(said.get("Partner Mac Address")) !== NO_ADDRESS;
    if (!parts.length && LAST_OF_HEAD.test(head)) return { bundles: [bundleOfText(own ?? called, own ? `the bond ${own}` : told, [])], notes: [noMembers(own ? `the bond ${own}` : told, own ?? name ?? "BOND")] };
    if (!found && !own) notes.push({ name: "no-root", text: "the text lacks the LACPDUs", advice: "Read the file as root (sudo cat /proc/net/bonding/bond0), or take ip -d -j link." });
    if (said.get("MII Polling Interval (ms)") === "0") notes.push({ name: "note", text: "miimon is 0: a link that goes down is not noticed" });
    const members = parts.map((it) => memberOfBonding(it, active, isHeard)), ports = members.map(({ port }) => port);
    const carrying = ports.filter((it) => it.isUsed).length, least = Number(said.get("Min links") ?? 0);
    if (said.get("MII Status") === "down" && carrying && carrying < least) notes.push(tooFew(told, carrying, least, "min_links"));
    const cut = cutOf(text, members, active, found ? Number(found[2]) : 0);
    return { bundles: [bundleOfText(called, told, ports, { isCut: cut !== "", cut, hash: hash ? ["xmit_hash_policy", hash] : null })], notes };
}

/* Several texts of one form, one behind the other, as one; each note once. */
function joinedTexts(form, all) {
    const notes = new Map(all.flatMap((it) => it.notes).map((it) => [`${it.name} ${it.text}`, it]));
    return { form, bundles: all.flatMap((it) => it.bundles), notes: [...notes.values()] };
}

/* Each bond of a text, with the name that tail has in a line before it: ==> /proc/net/bonding/bond0 <==. */
const BONDS = /^(?:==> (?:.*\/)?(.+) <==\n)?(Ethernet Channel Bonding Driver: [\s\S]*?)(?=^==> .* <==$|^Ethernet Channel|(?![\s\S]))/gm;

/* One text, or several one behind the other (tail -v -n +1 /proc/net/bonding/*); without these lines it does not have the names of the bonds. */
function bonding(text) {
    const found = joinedTexts("bonding", [...text.matchAll(BONDS)].map(bondOf)), { bundles } = found;
    if (bundles.length > 1) bundles.forEach((it, number) => { if (it.name === "the bond") it.name = it.told = `bond ${number + 1} of the text`; });
    return found;
}

/* ---- ip -d -j link show, ip -d link show: states, but no numbers of ports ---- */

function memberOfIp(it, { linkinfo: { info_data: said }, address }) {
    const data = it.linkinfo.info_slave_data, active = said.ad_info ?? {}, isActive = data.ad_aggregator_id === active.aggregator && data.mii_status === "UP";
    const isAlone = isActive && data.state === "ACTIVE" && macOf(active.partner_mac) === NO_ADDRESS;
    const own = said.ad_actor_system ?? NO_ADDRESS, state = data.ad_partner_oper_port_state;
    const actor = {
        priority: said.ad_actor_sys_prio ?? 65535, system: macOf(own === NO_ADDRESS ? address : own), key: isActive ? active.actor_key ?? null : null,
        portPriority: 255, port: null, state: data.ad_actor_oper_port_state,
    };
    const partner = isActive ? { priority: 0, system: macOf(active.partner_mac), key: active.partner_key ?? null, portPriority: 0, port: null, state }
        : { priority: null, system: null, key: null, portPriority: 0, port: null, state };
    return portOfText({
        name: it.ifname, link: data.mii_status === "UP", isSetDown: it.flags ? !it.flags.includes("UP") : null, source: macOf(it.address), actor, partner: knownPartner(actor, partner), aggregator: data.ad_aggregator_id,
        isUsed: isActive && (isAlone || isDistributing(actor)), isAlone, facts: data.link_failure_count ? [`its link failed ${times(data.link_failure_count)}`] : [],
        advice: adviceOnFailures(it.ifname, data.link_failure_count),
    });
}

const isMemberWhole = ({ linkinfo: { info_slave_data: data } }) => [data.ad_aggregator_id, data.ad_actor_oper_port_state, data.ad_partner_oper_port_state].every(Number.isInteger);

function ipLink(links) {
    const bonds = links.filter((it) => it.linkinfo?.info_kind === "bond"), lacp = bonds.filter((it) => it.linkinfo.info_data?.mode === "802.3ad");
    const notes = lacp.length ? [{ name: "note", text: "ip has no port numbers, and one partner alone: /proc/net/bonding/NAME, read as root, has more" }]
        : [bonds.length ? noLacp("no bond of this text speaks LACP", bonds[0].linkinfo.info_data?.mode) : { name: "no-state", text: "no bond is in this text" }];
    const bundles = lacp.map((bond) => {
        const members = links.filter((it) => it.master === bond.ifname && it.linkinfo?.info_slave_kind === "bond"), whole = members.filter(isMemberWhole);
        const ports = whole.map((it) => memberOfIp(it, bond)), carrying = ports.filter((it) => it.isUsed).length, least = bond.linkinfo.info_data.min_links ?? 0;
        const told = `the bond ${bond.ifname}`, hash = bond.linkinfo.info_data.xmit_hash_policy;
        if (bond.flags && !bond.flags.includes("UP")) notes.push({ name: "set-down", text: `${told} is set down`, advice: `ip link set ${bond.ifname} up` });
        if (bond.flags?.includes("NO-CARRIER") && carrying && carrying < least) notes.push(tooFew(told, carrying, least, "min_links"));
        return bundleOfText(bond.ifname, told, ports, { isCut: whole.length < members.length || Boolean(bond.isCut), hash: hash ? ["xmit_hash_policy", hash] : null });
    });
    const lost = links.some((it) => it.linkinfo?.info_slave_kind === "bond" && !links.some((bond) => bond.ifname === it.master && bond.linkinfo?.info_kind === "bond"));
    if (lost && !bonds.length) return { form: "ip", bundles: [bundleOfText("the bond", "the bond", [], { isCut: true })], notes: [] };
    return { form: "ip", bundles, notes };
}

/* The links of texts one behind the other, apart: where a bond stands there twice, each interface stands once in a text. */
function ofEachText(links) {
    const texts = [[]], names = links.filter((it) => it.linkinfo.info_kind === "bond").map((it) => it.ifname), isTwice = new Set(names).size < names.length;
    for (const link of links) {
        if (isTwice && texts.at(-1).some((it) => it.ifname === link.ifname)) texts.push([]);
        texts.at(-1).push(link);
    }
    return texts;
}

/* The same of the text for people. */
function ipLinkOfText(text) {
    const links = text.split(/^(?=\d+: )/m).map((part) => {
        const [, ifname] = /^\d+: ([^@:]+)/.exec(part) ?? [], word = (name) => new RegExp(` ${name} (\\S+)`).exec(part)?.[1], number = (name) => numberOf(word(name)) ?? undefined;
        const it = { ifname, flags: /<(.*?)>/.exec(part)?.[1].split(","), master: word("master"), address: /link\/ether (\S+)/.exec(part)?.[1], linkinfo: {} };
        it.isCut = !part.includes(" tlb_dynamic_lb ");
        if (/^\s*bond mode /m.test(part)) it.linkinfo = { info_kind: "bond", info_data: {
            mode: word("bond mode"), ad_actor_sys_prio: number("ad_actor_sys_prio"), ad_actor_system: word("ad_actor_system"), min_links: number("min_links"),
            xmit_hash_policy: word("xmit_hash_policy"), ad_info: { aggregator: number("ad_aggregator"), actor_key: number("ad_actor_key"), partner_key: number("ad_partner_key"), partner_mac: word("ad_partner_mac") },
        } };
        if (/^\s*bond_slave /m.test(part)) Object.assign(it.linkinfo, { info_slave_kind: "bond", info_slave_data: {
            state: word("bond_slave state"), mii_status: word("mii_status"), link_failure_count: number("link_failure_count"), ad_aggregator_id: number("ad_aggregator_id"),
            ad_actor_oper_port_state: number("ad_actor_oper_port_state"), ad_partner_oper_port_state: number("ad_partner_oper_port_state"),
        } });
        return it;
    });
    return joinedTexts("ip", ofEachText(links.filter((it) => it.ifname)).map(ipLink));
}

/* ---- teamdctl TEAM state dump ---- */

function memberOfTeam([name, it]) {
    const partyOf = (info) => ({ priority: info.system_priority, system: macOf(info.system), key: info.key, portPriority: info.port_priority, port: info.port, state: info.state });
    const { runner, link } = it, actor = partyOf(runner.actor_lacpdu_info), watches = Object.values(it.link_watches?.list ?? {});
    const downs = watches.reduce((sum, watch) => sum + (watch.down_count ?? 0), 0);
    return portOfText({
        name, link: link.up, source: macOf(it.ifinfo.dev_addr), actor, partner: knownPartner(actor, partyOf(runner.partner_lacpdu_info)), aggregator: runner.aggregator.id,
        isUsed: runner.aggregator.selected && runner.selected && runner.state === "current" && isDistributing(actor), speed: `${link.speed} ${link.duplex}`,
        facts: [...downs ? [`its link went down ${times(downs)}`] : [], ...link.up && it.link_watches?.up === false ? ["a link watch says that it is down"] : []],
        advice: adviceOnFailures(name, downs),
    });
}

const noRunner = (runner) => ({ name: "no-lacp", text: `this team does not speak LACP: its runner is "${runner}"`, advice: "LACP is the runner lacp." });

/* `hash` is tx_hash of a configuration that stands beside the state, which does not have it. */
function team(json, hash) {
    const runner = json.setup?.runner_name, name = json.team_device?.ifinfo?.ifname ?? "";
    if (runner !== "lacp") return { form: "teamd", bundles: [], notes: [noRunner(runner)] };
    const bundle = bundleOfText(name, `the team ${name}`.trim(), Object.entries(json.ports ?? {}).map(memberOfTeam), { hash: hash ? ["tx_hash", hash.join(", ")] : null });
    return { form: "teamd", bundles: [bundle], notes: [] };
}

/* A state, a configuration (config dump, or the file), or both. */
function teamOf(values) {
    const states = values.filter((it) => it.setup || it.team_device), config = values.find((it) => it.runner?.name);
    if (states.length) return joinedTexts("teamd", states.map((it) => team(it, config?.runner.tx_hash)));
    const note = { name: "no-state", text: "this is the configuration of a team, and its state is wanted", advice: "teamdctl team0 state dump has the state." };
    return config ? { form: "teamd", bundles: [], notes: [note] } : null;
}

/* The text of teamdctl TEAM state, which has nothing of the LACPDUs. */
function teamText(text) {
    const [, runner] = /^setup:\s*\n\s+runner: (\S+)/m.exec(text), isLacp = runner === "lacp";
    const note = isLacp ? { name: "no-state", text: "this text of teamdctl lacks the LACPDUs: give teamdctl team0 state dump", advice: "The dump has what each end says, in JSON." } : noRunner(runner);
    return { form: "teamd", bundles: [], notes: [note] };
}

/* ---- ovs-appctl lacp/show, lagd --status: one grammar ---- */

const COUNTS = ["foreign_received", "elsewhere_received", "tagged_received", "illegal_received", "unknown_received", "failed_sent", "link_losses", "partner_changes"];
const countsSaid = (counts) => COUNTS.filter((it) => Number(counts[it]) > 0).map((it) => `${it} ${counts[it]}`);

function partyOfShow(said, side) {
    const state = said.has(`${side} state`) ? octetOf(wordsIn(said.get(`${side} state`))) : null;
    if (state === null) return null;
    return {
        priority: numberOf(said.get(`${side} sys_priority`)), system: macOf(said.get(`${side} sys_id`)), key: numberOf(said.get(`${side} key`)),
        portPriority: numberOf(said.get(`${side} port_priority`)), port: numberOf(said.get(`${side} port_id`)), state,
    };
}

/* Ticks of 100 ms behind which the next LACPDU is overdue: its period is 1 s or 30 s. */
const overdueIn = (actor) => actor.state & TEXT_BITS.SHORT ? 30 - 15 : 900 - 350;

function factsOfShow(part, said, receive, actor) {
    const counts = Object.fromEntries([...part.matchAll(/(\w+_(?:received|sent|losses|changes)) (\d+)/g)].map(([, key, value]) => [key, value]));
    const rests = numberOf(said.get("current_while")), why = said.get("status"), facts = [];
    const whole = actor && actor.state & TEXT_BITS.SHORT ? 30 : 900;
    if (actor && rests !== null && receive.startsWith("CURRENT") && rests < overdueIn(actor)) facts.push(`its last LACPDU came ${(whole - rests) / 10} s ago: the next is overdue, and the link still counts as heard`);
    if (whyNot(why)) facts.push(`lagd says: ${why}`);
    if (said.has("other system")) facts.push(`another system speaks: ${said.get("other system")}`);
    for (const it of ["actor_churn", "partner_churn"]) if (said.get(it) === "CHURN") facts.push(it);
    return [...facts, ...countsSaid(counts)];
}

const isChurning = (churns) => churns.includes("CHURN");

/* What lagd says of each port while the device that carries its data is down: LACP has ended there. */
const DEVICE_DOWN = "the device is down";
/* What it says of a port that its administrator holds, whose link is up. */
const HELD = "the host holds it";
/* What it says of one that is beyond max-links. */
export const NO_ROOM = "its aggregator has no room for one more link";
/* Why it does not use a port; nothing where it does. */
const whyNot = (status) => !status || status === "it distributes" ? "" : status;

/* The link of a port, as lagd says it: with `away` LACP takes it as up (delay-down), and nothing passes; with `waiting` it is back, and LACP takes it as
 * down (wait-to-restore). */
const linkOfLagd = (said) => ({ link: said === "up" || said === "away", isAway: said === "away", isWaiting: said === "waiting" });

function memberOfShow(part, active) {
    const [, name = "?", receive = ""] = /^(?:member|slave): (.*?): (.*)$/m.exec(part) ?? [], said = valuesIn(part), actor = partyOfShow(said, "actor"), partner = partyOfShow(said, "partner");
    const aggregator = numberOf(said.get("aggregator")), mayEnable = said.get("may_enable");
    const of = said.has("link") ? linkOfLagd(said.get("link")) : {};
    const isUsed = mayEnable === undefined ? null : mayEnable === "true" && !of.isAway && (active === null || aggregator === active), known = knownPartner(actor, partner);
    return portOfText({
        name, ...of, isOff: said.get("status") === DEVICE_DOWN, isHeld: said.get("status") === HELD, source: macOf(said.get("address") ?? said.get("actor sys_id")), actor, partner: known,
        aggregator, isUsed, isAlone: isUsed === true && actor !== null && !known, isLasting: isChurning([said.get("actor_churn"), said.get("partner_churn")]),
        says: whyNot(said.get("status")), facts: factsOfShow(part, said, receive, actor), isWhole: actor !== null && partner !== null,
    });
}

/* What `bond/show` of Open vSwitch says of a bond: how it chooses a link, and, where it uses one at a time, which that is. */
function choiceOf(part) {
    const said = valuesIn(part), [, member] = /^active (?:member|slave) mac: \S+?\((.*)\)/m.exec(part) ?? [];
    return { name: /^---- (.*) ----/.exec(part)[1], mode: said.get("bond_mode"), member, isOff: said.get("lacp_status") === "off" };
}

/* Of a bond that uses one link at a time the others stand by. */
function choosing(bundle, choice) {
    if (!choice) return bundle;
    const isOne = choice.mode === "active-backup" && bundle.ports.some((it) => it.name === choice.member);
    const ports = bundle.ports.map((it) => isOne && it.isUsed && it.name !== choice.member ? { ...it, isUsed: false, isAlone: false, standsBy: true } : it);
    return { ...bundle, ports, hash: choice.mode ? ["bond_mode", choice.mode] : null };
}

function bundleOfShow(part) {
    const [head, ...parts] = part.split(/^(?=(?:member|slave): )/m), said = valuesIn(head), active = numberOf(said.get("aggregator")), isOfLagd = said.has("uptime");
    const ports = parts.map((it) => memberOfShow(it, active)), hash = /^ *carry: .*, hash ([^, ]+),/m.exec(part)?.[1];
    const name = /^---- (.*) ----/.exec(head)[1], carrying = /^down, ([1-9]\d*) of /.exec(said.get("status") ?? "")?.[1], told = `${isOfLagd ? "the bundle" : "the bond"} ${name}`;
    const isEmpty = isOfLagd && !ports.length && said.get("status")?.endsWith(", 0 of 0 links carry");
    const notes = [
        ...isEmpty ? [noLinks(told)] : [],
        ...said.get("status") === "off" ? [{ name: "no-lacp", text: `LACP of ${told} is off`, advice: `ovs-vsctl set port ${name} lacp=active` }] : [],
        ...carrying ? [tooFew(told, carrying, said.get("min_links"), "min-links")] : [],
    ];
    return bundleOfText(name, told, ports, { isOfLagd, isCut: (!ports.length && !isEmpty) || ports.some((it) => !it.isWhole), notes, hash: hash ? ["hash", hash] : null });
}

function showOf(text) {
    const parts = text.split(/^(?=---- .* ----\s*$)/m).filter((it) => it.startsWith("----") && !it.includes(" statistics ----")), isChoice = (it) => /^bond_mode: /m.test(it);
    const choices = parts.filter(isChoice).map(choiceOf), states = parts.filter((it) => !isChoice(it)).map(bundleOfShow);
    const bundles = states.map((it) => choosing(it, choices.find(({ name }) => name === it.name)));
    const notes = choices.filter(({ name }) => !states.some((it) => it.name === name)).map(({ name, isOff }) => isOff
        ? { name: "no-lacp", text: `LACP of the bond ${name} is off`, advice: `ovs-vsctl set port ${name} lacp=active` }
        : { name: "no-state", text: `bond/show has nothing of the LACPDUs of the bond ${name}`, advice: "ovs-appctl lacp/show has them." });
    return { form: bundles.some((it) => it.isOfLagd) ? "lagd" : "openvswitch", bundles, notes: [...bundles.flatMap((it) => it.notes), ...notes] };
}

/* ---- lagd --status --json: a line for each daemon ---- */

function memberOfLagd(bundle, port) {
    const partyOf = (it, system, priority) => ({ priority, system: macOf(system), key: it.key, portPriority: it.port_priority, port: it.port, state: octetOf(it.state) ?? 0 });
    const actor = partyOf(port.actor, bundle.system, bundle.system_priority), known = knownPartner(actor, partyOf(port.partner, port.partner.system, port.partner.system_priority));
    const of = linkOfLagd(port.link), isUsed = port.carries && !of.isAway && port.aggregator === bundle.aggregator;
    return portOfText({
        name: port.interface, ...of, isOff: port.status === DEVICE_DOWN, isHeld: port.status === HELD, source: macOf(port.address), actor, partner: known, aggregator: port.aggregator,
        isUsed, isAlone: isUsed && !known, isLasting: isChurning([port.actor_churn, port.partner_churn]),
        says: whyNot(port.status), facts: [...whyNot(port.status) ? [`lagd says: ${port.status}`] : [], ...port.other_system ? [`another system speaks: ${port.other_system.system}`] : [], ...countsSaid(port.counters ?? {})],
    });
}

const lagdJson = (lines) => ({
    form: "lagd",
    bundles: lines.map((it) => bundleOfText(it.bundle, `the bundle ${it.bundle}`, it.ports.map((port) => memberOfLagd(it, port)), { hash: it.carry?.hash ? ["hash", it.carry.hash] : null })),
    notes: [
        ...lines.filter((it) => !it.ports.length).map((it) => noLinks(`the bundle ${it.bundle}`)),
        ...lines.filter((it) => it.state === "down" && it.carrying > 0).map((it) => tooFew(`the bundle ${it.bundle}`, it.carrying, it.min_links, "min-links")),
    ],
});

/* ---- Any of them ---- */

/* Each form of a text, by what only it has. */
const FORMS = [
    [/^Ethernet Channel Bonding Driver: /m, bonding],
    [/^---- .* ----\s*$/m, showOf],
    [/^setup:\s*\n\s+runner: \S/m, teamText],
    [/^\s*bond(_slave)? .*\b(lacp_rate|ad_aggregator_id|mode) /m, ipLinkOfText],
    ...SWITCH_FORMS,
];

/* A text as people paste it: without carriage returns, colours, marks of a quotation, and indentation that all lines have. */
function plainText(text) {
    const lines = text.replace(/^\uFEFF|\r|\u001b\[[0-9;]*m/g, "").split("\n").map((it) => it.replace(/^(> ?)+/, "")), full = lines.filter((it) => it.trim());
    const least = full.reduce((least, it) => Math.min(least, /^[ \t]*/.exec(it)[0].length), 80);
    return lines.map((it) => it.slice(least)).join("\n");
}

/* The values of a text: one, one a line, or several that each begin and end at the left. */
function valuesOfJson(text) {
    try {
        return [JSON.parse(text)];
    } catch {
        const lines = text.split("\n").filter((it) => it.trim());
        return lines.some((it) => it === "}") ? text.match(/^\{[\s\S]*?^\}/gm).map((it) => JSON.parse(it)) : lines.map((it) => JSON.parse(it));
    }
}

function ofJson(text) {
    const values = valuesOfJson(text);
    if (Array.isArray(values[0])) return joinedTexts("ip", values.filter(Array.isArray).map(ipLink));
    return values[0].lagd ? lagdJson(values) : teamOf(values);
}

/* The text ends within the last line of a bundle. */
function cutBehind(bundle, text) {
    bundle.isCut = true;
    bundle.cut ||= `its last line, "${text.split("\n").at(-1).trim()}", may go on`;
}

/* What a text says; null where it has none of the forms, or is cut so that it has none. */
export function statusIn(text) {
    const plain = plainText(text), json = /^[[{][\s\S]*[\]}]\s*$/m.exec(plain)?.[0].trim() ?? "";
    try {
        if (/^[[{]["\s{[]/.test(json)) return ofJson(json);
        const found = FORMS.find(([shape]) => shape.test(plain))?.[1](plain) ?? null, last = LAST_STATE.exec(plain)?.[1];
        if (found?.bundles.length && last !== undefined && mayGoOn(last)) cutBehind(found.bundles.at(-1), plain);
        return found;
    } catch (error) {
        if (error instanceof SyntaxError || error instanceof TypeError) return null; // JSON that is cut, or another program's
        throw error;
    }
}
