/* What is said first of files: captures, which are read together, or one or two texts of a status. docs/try.html shows it, and `lagtool explain` prints it. */

import { bundlesOf, Records } from "./records.js";
import { capitalized, counted } from "./keys.js";
import { areJoined } from "./cases.js";
import { causesOf, FAULT } from "./causes.js";
import { CARRIES, countsOf, headlineOf, linesOf, strangersSaid } from "./summary.js";
import { captureFrom, saidOf, silentInterfaces, unpacked } from "./files.js";
import { statusIn } from "./status.js";
import { foundIn } from "./implied.js";
import { bothEnds, tooMany } from "./both.js";
import { areUnread, causesOfTexts, headlineOfTexts, linesOfTexts, rowsOfTexts } from "./standing.js";

/* A larger file is no text. */
const MOST_TEXT = 16000000;
/* So many seconds of LACPDUs show each timeout: the longest is 90. */
const ENOUGH = 93;
/* The texts that are known, each by the command that prints it. */
export const KNOWN_TEXTS = "/proc/net/bonding/bond0 (read by root), ip -d link (and -j), teamdctl team0 state dump, ovs-appctl lacp/show, lagd --status; "
    + "of switches show lacp neighbor [detail], show etherchannel summary, show port-channel summary, show lacp interfaces, show lacp statistics, show lacp peer, net show interface bonds";
const FROM_MEMORY = "How switches print this is known from memory of manuals: no device printed it for us. Look whether each port is read rightly.";
const UNKNOWN_TEXT = `no known status is in this text, or it is cut. Known are ${KNOWN_TEXTS}`;
const NO_LACPDU = "No LACPDU is in this capture. If it was taken of the bond (bond0, team0, lag0): capture its members (eth0, eth1), since LACPDUs stand on these alone. "
    + "Else look whether LACP is on, and not passive at both ends: at a switch the mode of the group is active, not on (static); bonding has mode=802.3ad.";
const ALL_EMPTY = "the input is empty: did the command before it fail?";

/* ---- What a file is ---- */

/* The digits of a payload alone: blanks, colons and dashes are for people. */
export const digitsOf = (text) => text.replace(/^\s*0x|[\s:.-]/gi, "");

/* A file with what it is: a capture, unless it is a text that is a status, a script or a payload; of a file that gzip packed what is in it. */
export async function opened(given) {
    const { name } = given, found = await unpacked(given), file = found === given ? given : Object.assign(found, { name }), capture = { kind: "capture", name, file };
    if (file.size > MOST_TEXT) return capture;
    const octets = new Uint8Array(await file.arrayBuffer());
    if (octets.includes(0)) return capture;
    const text = new TextDecoder().decode(octets), of = (kind) => ({ kind, name, file, text });
    if (!text.trim()) return of("empty");
    if (/^\s*\[\[\s*system|^\s*events\s*=/m.test(text) || name.endsWith(".toml")) return of("script");
    if (/^([0-9a-f]{2})+$/i.test(digitsOf(text))) return of("payload");
    if (statusIn(text)) return of("status");
    return /[\u0001-\u0008\ufffd]/.test(text) ? capture : of("text");
}

/* ---- Captures ---- */

/* The records of files, and what came of it: read once more where the files join captures one behind the other. `run` explains a capture. */
async function recordsOf(files, run, isJoined = false) {
    const given = await captureFrom(files, isJoined), records = new Records(), { names, comments, fileEnds, places, numbers } = given;
    Object.assign(records, { names, comments, fileEnds, places, numbers });
    const onStop = (error) => error.message === "stopped" ? error : Promise.reject(error);
    const told = await run(given.capture, (piece) => records.addLines(piece)).catch(onStop), isStopped = told instanceof Error;
    records.silent = given.interfaces ? silentInterfaces(given.interfaces, records.all) : given.silent;
    return !isStopped && !isJoined && areJoined(records) ? recordsOf(files, run, true) : { ...given, records, told, isStopped };
}

/* What is said of frames that could not be read: a capture that cuts frames cuts all LACPDUs alike; rule 7 has those that were short on the link. */
function unreadIn({ unread, frames, all, findings }) {
    if (!unread) return "";
    const isRead = all.some((it) => it.system), isShort = findings.some((it) => it.rule === 7);
    const count = `${isRead ? "" : "No LACPDU could be read: "}${unread} of ${counted(frames, "frame")} of the slow protocols could not be read`;
    if (isShort) return `${count}: see rule 7.`;
    return `${count}: capture whole frames (tcpdump -s 0)${isRead ? ", unless they are of another protocol, as OAM" : ""}.`;
}

/* The headline of captures, and how it looks; `said` is why some could not be read, of which nothing more is said where that is so of all. */
function headlineOfAll(records, lines, causes, said, { unknown, apart }, count) {
    const unread = unreadIn(records), [found, look] = headlineOf(lines, causes, unknown, apart);
    if (unread) return [`${unread} ${lines.length ? found : ""}`.trim(), "bad"];
    if (lines.length || found) return [found, said ? "bad" : look];
    return [said.split("\n").filter(Boolean).length >= count && !records.frames ? "" : `${unknown} ${NO_LACPDU}`.trim(), "bad"];
}

/* How long a capture lasts, as far as its LACPDUs show it; nothing where they show each timeout. */
function lastingOf({ lasts }) {
    if (lasts === null) return "";
    const said = `Its LACPDUs span ${(Math.floor(10 * lasts) / 10).toFixed(1)} s`;
    return lasts < ENOUGH ? `${said}, shorter than ${ENOUGH} s: not each timeout may show.` : `${said}.`;
}

/* Why captures cannot be read, or not to their end, with the names of the files. */
const faultsOf = ([{ name }], faults, said) => [...faults, said.trim().replace(/^cannot read: /, () => `cannot read ${name}: `)].filter(Boolean).join("\n");

async function ofCaptures(given, run) {
    const files = given.map(({ file }) => file), { records, told, isStopped, faults, unknown, apart, note, source } = await recordsOf(files, run);
    const said = isStopped ? told.message : faultsOf(files, faults, await saidOf(told.said, files));
    const bundles = bundlesOf(records), causes = causesOf(records, bundles), lines = linesOf(records, bundles), [headline, look] = headlineOfAll(records, lines, causes, said, { unknown, apart }, files.length);
    const isFound = apart !== "" || causes.some((it) => it.kind === FAULT) || lines.some((it) => it.how !== CARRIES);
    return {
        kind: "captures", headline, look, lines, causes, counts: countsOf(causes), notes: [note, strangersSaid(lines, records)].filter(Boolean), lasts: lastingOf(records),
        said, status: said || !lines.length ? 2 : Number(isFound), records, bundles, source, isStopped, hasFaults: faults.length > 0,
    };
}

/* ---- Texts ---- */

const refusal = (said) => ({ kind: "refused", headline: "", look: "bad", lines: [], causes: [], counts: "", notes: [], lasts: "", said, status: 2 });

/* What texts of a status say: this end's, and that of the other end, if it is there. */
export async function ofTexts(given, run) {
    const texts = given.map(({ text }) => statusIn(text)), unknown = given.find((_, at) => texts[at] === null);
    if (tooMany(given.length)) return refusal(tooMany(given.length));
    if (unknown) return refusal(`${unknown.name ? `cannot read ${unknown.name}: ` : ""}${UNKNOWN_TEXT}`);
    const explain = async (capture) => {
        const records = [];
        await run(capture, (piece) => records.push(...piece.split("\n").filter(Boolean).map((it) => JSON.parse(it))));
        return records;
    };
    const both = bothEnds(texts), all = both.texts, causes = causesOfTexts(both, await foundIn(all, explain)), lines = linesOfTexts(all), [headline, look] = headlineOfTexts(all, lines, causes);
    const isFound = causes.some((it) => it.kind === FAULT) || lines.some((it) => it.how !== CARRIES), isCut = all.some((text) => text.bundles.some((it) => it.isCut));
    const notes = all.some(({ form }) => form === "switch") ? [FROM_MEMORY] : [];
    return {
        kind: "texts", headline, look, lines, causes, counts: "", notes, lasts: "", said: isCut ? headline : "", status: isCut || areUnread(all, causes) ? 2 : Number(isFound),
        rows: rowsOfTexts(all), texts: all,
    };
}

/* ---- Either ---- */

/* Why files are not explained together; nothing where they are. */
function whyApart({ captures, texts, empty, others }) {
    const namesOf = (list) => list.map((it) => it.name).join(" ");
    if (others.length) return `cannot read ${others[0].name}: a ${others[0].kind}: ${others[0].kind === "script" ? "lagtool replay plays it" : "lagtool decode reads it"}`;
    if (captures.length && texts.length) return `captures and texts are explained apart: give ${namesOf(captures)} without ${namesOf(texts)}`;
    if (!captures.length && !texts.length) return ALL_EMPTY;
    return texts.length && empty.length ? `cannot read ${empty[0].name}: it is empty. Give ${namesOf(texts)} alone` : "";
}

/* What is said first of files, as `opened` gives them: how it is headed, a line a link, the causes, what is noted, why files could not be read (`said`), and the status
 * of lagtool explain: 0 where each link carries and no cause holds still, 1 where something is found, or captures are of different times, 2 where a file
 * cannot be read, or has no LACPDU. `run` explains a capture, and hands its records on piece by piece. */
export async function verdict(given, run) {
    const ofKind = (...kinds) => given.filter((it) => kinds.includes(it.kind)), captures = ofKind("capture"), texts = ofKind("status", "text"), empty = ofKind("empty");
    const why = whyApart({ captures, texts, empty, others: ofKind("script", "payload") });
    if (why) return refusal(why);
    return texts.length ? ofTexts(texts, run) : ofCaptures([...captures, ...empty], run);
}

/* A refusal as a sentence. */
export const asSentence = (said) => `${capitalized(said)}${/[.?]$/.test(said) ? "" : "."}`;
