/* What the policy means by which an end chooses the link of a frame: what goes over one link, and what may go over several. Each program has its
 * own word for it. The policy is that of what the end sends. */

import { distinct } from "./keys.js";

const PAIR = "all that it sends to one machine goes over one link", CONNECTION = "each connection goes over one link, and two of one client and one server may go over two";
const POLICIES = new Map([
    ["layer2", `${PAIR}, and all that it sends through one router`],
    ["layer2+3", PAIR],
    ["layer3+4", CONNECTION],
    ["encap2+3", `${PAIR}, also inside of a tunnel`],
    ["encap3+4", `${CONNECTION}, also inside of a tunnel`],
    ["vlan+srcmac", "all that it sends from one address in one VLAN goes over one link"],
    ["balance-tcp", CONNECTION],
    ["balance-slb", "all that one machine sends in one VLAN goes over one link"],
]);
/* What has each connection choose for itself. */
const WIDER = new Map([["xmit_hash_policy", "layer3+4"], ["hash", "layer3+4"], ["tx_hash", "ip, l4"], ["bond_mode", "balance-tcp"]]);
/* Parts of a frame in teamd's list. */
const LAYER_4 = ["l4", "tcp", "udp", "sctp"], LAYER_3 = ["l3", "ip", "ipv4", "ipv6"];

/* What a policy means; nothing where it is not known. */
function meaningOf(option, policy) {
    if (option !== "tx_hash") return POLICIES.get(policy) ?? "";
    const has = (parts) => policy.split(", ").some((it) => parts.includes(it));
    return has(LAYER_4) ? CONNECTION : has(LAYER_3) ? PAIR : POLICIES.get("layer2");
}

const hashesOf = (bundles) => distinct(bundles.map((it) => it.hash).filter(Boolean).map((it) => it.join(" ")));

/* What becomes of a flow in bundles that carry, with the policies that they name. */
export function flowSaid(bundles) {
    const said = hashesOf(bundles).join(", ");
    return `One flow has the speed of one link: the hash${said ? ` (${said})` : ""} chooses it.`;
}

/* What each policy means for one client and one server: a title, and what to do. */
export function hashesSaid(bundles) {
    return hashesOf(bundles).map((it) => [it, ...it.split(/ (.*)/)]).map(([title, option, policy]) => {
        const meaning = meaningOf(option, policy), wider = meaning.startsWith(CONNECTION) ? "" : ` With ${WIDER.get(option)} each connection chooses.`;
        return { title: `the hash of this end is ${title}`, advice: meaning && `By it ${meaning}.${wider} The other end has its own for what it sends.` };
    });
}
