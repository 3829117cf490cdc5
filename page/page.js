/* The page: takes a file, lets the module explain it, and shows what it says. */

import { Lagtool } from "./module.js";
import { asSentence, opened, verdict } from "./verdict.js";
import { picturesOf, showCaptures } from "./capture.js";
import { Playing } from "./playing.js";
import { Payload } from "./payload.js";
import { Texts } from "./pasting.js";
import { offer, textOfReport } from "./saving.js";
import { byId } from "./shapes.js";

/* Of a longer text the page keeps so much of its beginning and of its end. */
const MOST_SHOWN = 2000000, MOST_BEHIND = 100000;
const EXAMPLE = "unequal-keys.pcapng, an example";

const octetsIn = (id) => Uint8Array.from(atob(byId(id).textContent), (it) => it.charCodeAt(0));

/* A text that comes in pieces: of a long one the beginning and the end are kept. */
class Text {
    constructor() {
        this.front = this.behind = "";
        this.left = 0;
    }

    add(piece) {
        const room = Math.max(MOST_SHOWN - this.front.length, 0);
        this.front += piece.slice(0, room);
        this.behind += piece.slice(room);
        this.left += Math.max(this.behind.length - MOST_BEHIND, 0);
        this.behind = this.behind.slice(-MOST_BEHIND);
    }

    get whole() {
        const gap = this.left ? `\n(${this.left} characters are left out: lagtool capture prints all)\n` : "";
        return `${this.front}${gap}${this.behind}`;
    }
}

/* What is shown now: the pairs of systems, and the job that runs. */
const now = { pairs: [], job: null };

function put(name, verdict, look, said) {
    byId("name").textContent = name;
    byId("verdict").textContent = verdict;
    byId("verdict").className = look;
    byId("said").textContent = said;
    byId("said").hidden = !said;
    byId("shown").hidden = false;
}

function clear(name, hasFocus = true) {
    now.job?.stop();
    window.shown = null;
    for (const it of ["lines", "findings"]) byId(it).replaceChildren();
    byId("links").replaceChildren();
    byId("picture").replaceChildren();
    byId("picture").hidden = true;
    byId("legend").hidden = true;
    byId("counts").textContent = byId("lasts").textContent = byId("undrawn-frames").textContent = "";
    byId("text").textContent = byId("copied").textContent = "";
    put(name, "It is being read.", "good", "");
    byId("printed").hidden = byId("report").hidden = false;
    if (hasFocus) byId("name").focus();
}

/* Runs one job over a file; shows how far it is where that takes long. */
async function run(lagtool, file, options, printed) {
    const far = byId("far"), job = now.job = lagtool.explain(file, options, { printed, read: (octets) => { far.value = octets; } });
    far.max = Math.max(file.size, 1);
    far.value = 0;
    const late = setTimeout(() => { byId("reading").hidden = false; }, 300);
    try {
        return await job.told;
    } finally {
        clearTimeout(late);
        byId("reading").hidden = true;
    }
}

/* What is said of captures; then the text that lagtool prints of them. */
async function showFound(lagtool, name, found) {
    const { records, source, isStopped, said } = found, shown = showCaptures(found, byId);
    now.pairs = shown.pairs;
    byId("legend").hidden = !shown.pairs.length;
    byId("undrawn-frames").textContent = records.frames > records.kept ? `Of ${records.frames} frames ${records.kept} are drawn.` : "";
    byId("lasts").textContent = [found.lasts, ...found.notes].filter(Boolean).join(" ");
    byId("counts").textContent = found.counts;
    put(name, found.headline, found.look, isStopped ? "Stopped: the findings want the whole capture." : said);
    const text = new Text(), { status = 2 } = isStopped ? {} : await run(lagtool, source, {}, (piece) => text.add(piece));
    byId("text").textContent = text.whole;
    window.shown = { name, status: found.hasFaults ? 2 : status, printed: text.whole, said };
}

/* Why a file cannot be read, and what helps; the browser does not say which of both it was. */
const UNREADABLE = "The browser may not read this file, or it changed while it was read. Of a capture that root made: sudo chmod a+r FILE. "
    + "Of one that still runs: end tcpdump first. Then give it again.";

function refuseFor(name, said) {
    put(name, "", "bad", said);
    window.shown = { name, status: 2, printed: "", said };
}

function refuse(name, error) {
    const isUnread = ["NotReadableError", "NotFoundError", "SecurityError"].includes(error.name) || /could not be read/.test(error.message);
    refuseFor(name, isUnread ? UNREADABLE : `This page could not explain it: ${error.message}. lagtool capture reads files of any size.`);
}

/* Explains what `opened` gave. */
async function show(lagtool, given) {
    const name = given.map((it) => it.name).join(", ");
    clear(name);
    byId("texts").open = false; // what is said of captures stands near the top
    try {
        const found = await verdict(given, (capture, take) => run(lagtool, capture, { json: true }, take));
        if (found.kind === "refused") refuseFor(name, asSentence(found.said));
        else await showFound(lagtool, name, found);
    } catch (error) {
        if (error.message !== "stopped") refuse(name, error);
    }
}

async function copy() {
    const text = window.shown.printed;
    try {
        await navigator.clipboard.writeText(text);
        byId("copied").textContent = "copied";
    } catch {
        getSelection().selectAllChildren(byId("text"));
        byId("copied").textContent = "selected: copy it by the keyboard";
    }
}

function saveReport() {
    /* What is folded is made, and what is folded in it. */
    for (const depth of ["", " details"]) for (const it of document.querySelectorAll(`:is(#findings, #lines) details${depth}`)) it.fill();
    const pictures = picturesOf(now.pairs), title = `${byId("name").textContent}: ${byId("verdict").textContent}`.replace(/[: ]+$/, "");
    offer("report.html", "text/html", textOfReport(title, byId("shown"), pictures, byId("closing").innerHTML));
}

/* Begins to show texts of a status; gives what shows their headline. */
function showTexts(name) {
    clear(name, false);
    byId("printed").hidden = byId("report").hidden = true;
    return ([verdict, look], said) => {
        put(name, verdict, look, said);
        window.shown = { name, status: look === "good" ? 0 : 1, printed: "", said };
    };
}

/* What takes files: scripts and payloads go into their parts, the last of each kind; texts alone go into their boxes; all else is explained. */
function takerOf(lagtool) {
    const playing = new Playing(lagtool, JSON.parse(byId("example-scripts").textContent)), payload = new Payload(lagtool), pasting = new Texts(lagtool, showTexts);
    const loaded = (part, id) => ({ text }) => { part.load(text); byId(id).scrollIntoView(); };
    const load = { script: loaded(playing, "scripts"), payload: loaded(payload, "payloads") };
    return async (files) => {
        const given = [];
        try {
            for (const file of files) given.push(await opened(file));
        } catch (error) {
            const name = files.map((it) => it.name).join(", ");
            clear(name);
            return refuse(name, error);
        }
        for (const it of given) load[it.kind]?.(it);
        const rest = given.filter((it) => !load[it.kind]);
        if (rest.length && rest.every(({ kind }) => ["status", "text"].includes(kind))) return pasting.load(rest.map((it) => it.text));
        return rest.length ? show(lagtool, rest) : undefined;
    };
}

/* Files come by a drop, a paste or a choice. */
function listenForFiles(take) {
    const isOver = (over) => (event) => { event.preventDefault(); byId("drop").classList.toggle("over", over); };
    addEventListener("dragover", isOver(true));
    addEventListener("dragleave", isOver(false));
    addEventListener("drop", (event) => {
        isOver(false)(event);
        if (event.dataTransfer.files.length) take([...event.dataTransfer.files]);
    });
    addEventListener("paste", (event) => {
        const files = [...event.clipboardData.files], text = event.clipboardData.getData("text");
        if (files.length) take(files);
        else if (text && !event.target.closest("textarea, input")) take([new File([text], "what is pasted")]);
    });
    byId("file").addEventListener("change", (event) => {
        if (event.target.files.length) take([...event.target.files]);
        event.target.value = "";
    });
}

function listen(lagtool) {
    listenForFiles(takerOf(lagtool));
    byId("example").addEventListener("click", () => show(lagtool, [{ kind: "capture", name: EXAMPLE, file: new File([octetsIn("capture")], EXAMPLE) }]));
    byId("copy").addEventListener("click", copy);
    byId("stop").addEventListener("click", () => now.job?.stop());
    byId("report").addEventListener("click", saveReport);
}

async function start() {
    const lagtool = await Lagtool.of(octetsIn("module"));
    listen(lagtool);
    byId("unable").hidden = true;
    byId("ask").hidden = byId("more").hidden = false;
    window.lagtool = lagtool;
}

start();
