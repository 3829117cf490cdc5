/* lagtool explain FILE..: the first lines of docs/try.html as text (page/verdict.js): a headline, a line a link, then the causes, each with what to do and what
 * follows from it. It reads a capture into memory. The findings are those of the module of docs/try.html; the order, the advice and what is read out of a
 * status are not proved. */
import { accessSync, constants, openAsBlob, readFileSync, statSync, writeSync } from "node:fs";
import { basename } from "node:path";
import { Lagtool } from "../../page/module.js";
import { titleOf } from "../../page/causes.js";
import { foldedLines, textOfLine } from "../../page/summary.js";
import { opened, verdict } from "../../page/verdict.js";

const PAGE = new URL("../../docs/try.html", import.meta.url), MODULE = /<script type="application\/x-base64" id="module">([^<]*)</;
const ERRORS = { ENOENT: "no such file", EACCES: "permission denied (sudo reads it)", EISDIR: "is a folder" };
const USAGE = "lagtool explain FILE..: captures, or what a system prints of LACP, and behind it what the far end prints";
const MOST_PLACES = 3;

/* Causes as text: what, what to do, what is seen, some places, and what follows. */
function* textOfCause(cause, number, placeOf) {
    const rule = cause.rule ? ` (rule ${cause.rule}, ${cause.clause})` : "", { findings = [], effects } = cause;
    yield `${number}. ${titleOf(cause)}${rule}`;
    if (cause.advice) yield `   ${cause.advice}${cause.unexplained ? ` ${cause.unexplained}` : ""}`;
    for (const it of cause.lines) yield `   ${it}`;
    for (const it of findings.slice(0, MOST_PLACES)) yield `   at ${it.at.name}, ${placeOf(it.packet)}${it.seconds === null ? "" : `, ${it.seconds.toFixed(6)} s`}`;
    if (findings.length > MOST_PLACES) yield `   and at ${findings.length - MOST_PLACES} more`;
    if (effects.length) yield `   likely effect${effects.length > 1 ? "s" : ""}: ${effects.map((it) => it.title).join("; ")}`;
}

function textOf({ headline, lines, notes, counts, causes, records }) {
    const placeOf = (packet) => records ? records.placeOf(packet) : `${packet}`;
    return [
        headline, ...foldedLines(lines).map((it) => `  ${textOfLine(it)}`), ...notes.length ? [notes.join(" ")] : [], ...counts ? [counts] : [],
        ...causes.flatMap((it, number) => [...textOfCause(it, number + 1, placeOf)]),
    ].join("\n");
}

/* A file, or for - standard input. */
async function fileAt(path) {
    if (path === "-") return Object.assign(new Blob([readFileSync(0)]), { name: "standard input" });
    accessSync(path, constants.R_OK); // it says which error it is
    const found = statSync(path), isSized = found.isFile() && found.size > 0; // of a file of /proc and of a pipe no size is known before
    return Object.assign(isSized ? await openAsBlob(path) : new Blob([readFileSync(path)]), { name: basename(path) });
}

async function openedAt(path) {
    try {
        return await opened(await fileAt(path));
    } catch (error) {
        throw new Error(`cannot read ${path}: ${ERRORS[error.code] ?? error.message}`);
    }
}

/* Writes all of a text; it waits where nobody takes it yet. */
function put(text) {
    for (let octets = Buffer.from(text); octets.length;) {
        try {
            octets = octets.subarray(writeSync(1, octets));
        } catch (error) {
            if (error.code === "EAGAIN") continue;
            throw error.code === "EPIPE" ? error : new Error("cannot write");
        }
    }
}

async function main(paths) {
    if (!paths.length) throw new Error(USAGE);
    const lagtool = await Lagtool.of(Buffer.from(MODULE.exec(readFileSync(PAGE, "latin1"))[1], "base64")), given = [];
    for (const path of paths) given.push(await openedAt(path));
    const told = await verdict(given, async (capture, take) => {
        const found = lagtool.capture(new Uint8Array(await capture.arrayBuffer()), { json: true });
        take(found.printed);
        return found;
    });
    if (told.headline) put(`${textOf(told)}\n`);
    if (told.said) console.error(told.said.split("\n").map((it) => `lagtool: ${it}`).join("\n"));
    return told.status;
}

main(process.argv.slice(2)).catch((error) => {
    if (error.code === "EPIPE") return 141; // nobody reads on
    console.error(`lagtool: ${error.message}`);
    return 2;
}).then((status) => { process.exitCode = status; });
