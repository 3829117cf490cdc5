/* A script: an editor with examples, its diagram, and both ends step by step. */

import { bitsOf, hexadecimal, machinesOf } from "./records.js";
import { cablesIn, entriesIn, lineAndColumn, placeOfFault, portsIn, scriptUntil } from "./script.js";
import { reportIn, Stand } from "./report.js";
import { drawReplay, MOST_DRAWN } from "./diagram.js";
import { offer, textOfPicture } from "./saving.js";
import { byId, made, table } from "./shapes.js";

const WAIT = 400; // milliseconds behind the last key before a script is run
const BEAT = 600; // milliseconds of a step while it plays

const stateOf = (octet) => octet === null ? "none" : hexadecimal(octet);
const bitsSaid = (octet) => bitsOf(octet).filter((it) => ["synchronized", "collecting", "distributing"].includes(it)).join(", ") || "none";

/* A row of a port: what shows of its machines in the LACPDU that it sent last. */
function portRow([number, port]) {
    const { receive, mux } = port.sent === null ? { receive: "none sent", mux: "" } : machinesOf(port.sent);
    return [`${number}`, port.link, stateOf(port.sent), receive, mux, port.sent === null ? "" : bitsSaid(port.sent), stateOf(port.taken), port.said];
}

/* Both systems, and their cables, behind so many entries. */
function tablesOf(stand, agreements) {
    const heads = ["port", "link", "sent", "receive", "mux", "bits", "took", "last reply"];
    const systems = [1, 2].map((system) => {
        const it = table(heads, [...stand.ports[system]].map(portRow), "frames");
        it.createCaption().textContent = `System ${system} after ${stand.ticks[system]} ticks (${stand.ticks[system] / 10} s)`;
        return it;
    });
    const flying = (list) => list.map((it) => it.kind === "lacpdu" ? `LACPDU ${hexadecimal(it.state)}` : it.said).join(", ") || "nothing";
    const rows = stand.cables.map((ends, at) => {
        const { 1: back, 2: forth } = stand.flying[at];
        return [`${at + 1}${stand.whole[at] ? "" : ", cut"}`, ends.join(" and "), flying(forth), flying(back), agreements[at] ?? ".."];
    });
    const cables = table(["cable", "ports", "to system 2", "to system 1", "agreement"], rows, "frames");
    cables.createCaption().textContent = "Cables";
    return [...systems, cables];
}

export class Playing {
    constructor(lagtool, examples) {
        Object.assign(this, { lagtool, examples, step: 0, report: null, known: new Map() });
        byId("examples").append(...Object.keys(examples).map((name) => {
            const it = made("option", name);
            it.value = name;
            return it;
        }));
        this.listen();
    }

    listen() {
        const text = byId("script");
        byId("examples").addEventListener("change", (event) => this.load(this.examples[event.target.value]));
        text.addEventListener("input", () => {
            this.mark(null);
            clearTimeout(this.late);
            this.late = setTimeout(() => this.run(), WAIT);
        });
        text.addEventListener("scroll", () => byId("behind").scrollTo(text.scrollLeft, text.scrollTop));
        byId("scripts").addEventListener("toggle", () => { if (byId("scripts").open && !text.value) this.load(Object.values(this.examples)[0]); });
        byId("step").addEventListener("input", (event) => this.go(Number(event.target.value)));
        byId("back").addEventListener("click", () => this.go(this.step - 1));
        byId("on").addEventListener("click", () => this.go(this.step + 1));
        byId("play").addEventListener("click", () => this.playOrStop());
        byId("replayed").addEventListener("click", (event) => {
            const entry = event.target.closest?.("[data-entry]");
            if (entry) this.go(Number(entry.dataset.entry));
        });
        byId("save-replay").addEventListener("click", () => offer("replay.svg", "image/svg+xml", textOfPicture(byId("replayed").firstChild)));
        byId("save-script").addEventListener("click", () => offer("script.toml", "text/plain", text.value));
    }

    load(text) {
        byId("scripts").open = true;
        byId("examples").selectedIndex = Object.values(this.examples).indexOf(text);
        byId("script").value = text;
        byId("script").scrollTop = 0;
        return this.run();
    }

    /* Runs the script that is in the editor, and shows what came of it. */
    async run() {
        this.stop();
        this.job?.stop();
        const text = byId("script").value, job = this.job = this.lagtool.job("replay", text);
        let told;
        try {
            told = await job.told;
        } catch (error) {
            if (error.message === "stopped") return;
            told = { status: 2, printed: "", said: error.message, fault: { line: null, column: null, text: error.message } };
        }
        if (this.job !== job) return;
        this.text = text;
        this.tellFault(told.fault);
        byId("played").hidden = Boolean(told.fault);
        if (!told.fault) this.show(told.printed);
        window.replayed = { status: told.status, printed: told.printed, said: told.said };
    }

    /* Marks a place in the editor, behind its text. */
    mark(found, kind) {
        const text = byId("script").value, behind = byId("behind");
        const { from, to } = found ?? { from: 0, to: 0 }, marks = found ? [made("mark", text.slice(from, to) || " ", kind)] : [];
        behind.replaceChildren(text.slice(0, from), ...marks, `${text.slice(to)}\n`);
        behind.scrollTo(byId("script").scrollLeft, byId("script").scrollTop);
    }

    /* Says what a fault is, and marks where it stands. */
    tellFault(fault) {
        const text = byId("script").value, found = fault && placeOfFault(text, fault), at = found && lineAndColumn(text, found.from);
        byId("fault").hidden = !fault;
        byId("fault").textContent = fault ? `${at ? `line ${at.line}, column ${at.column}: ` : ""}${fault.text}` : "";
        byId("script").setAttribute("aria-invalid", String(Boolean(fault)));
        this.mark(found, "bad");
    }

    show(printed) {
        this.report = reportIn(printed);
        this.known = new Map();
        [this.ports, this.cables, this.entries] = [portsIn(this.text), cablesIn(this.text), entriesIn(this.text).entries];
        const count = this.report.entries.length;
        byId("replayed").replaceChildren(drawReplay(this.report, this.ports, this.cables));
        byId("undrawn").textContent = count > MOST_DRAWN ? `Of ${count} entries ${MOST_DRAWN} are drawn.` : "";
        byId("replay-text").textContent = printed;
        byId("step").max = count;
        this.go(count, true);
        const box = byId("replayed");
        box.scrollLeft = (box.scrollWidth - box.clientWidth) / 2;
    }

    /* Goes to where so many entries are played. */
    go(step, isQuiet = false) {
        this.step = Math.min(Math.max(step, 0), this.report.entries.length);
        const entry = this.report.entries[this.step - 1], stand = new Stand(this.ports, this.cables);
        for (const it of this.report.entries.slice(0, this.step)) stand.play(it);
        byId("step").value = this.step;
        byId("entry").textContent = `${this.step} of ${this.report.entries.length}: ${entry ? `${entry.text}: ${entry.reply}` : "the beginning"}`;
        byId("step").setAttribute("aria-valuetext", byId("entry").textContent);
        for (const it of byId("replayed").querySelectorAll(".entry")) {
            it.classList.toggle("later", Number(it.dataset.entry) > this.step);
            it.classList.toggle("chosen", Number(it.dataset.entry) === this.step);
        }
        this.mark(this.step < this.report.entries.length ? this.entries[this.step - 1] : null, "");
        if (!isQuiet) this.follow();
        this.tell(stand);
    }

    /* Scrolls to the entry in the diagram, and in the editor where it stands out of sight. */
    follow() {
        byId("replayed").querySelector(".chosen")?.scrollIntoView({ block: "nearest", inline: "nearest" });
        const box = byId("script"), marked = byId("behind").querySelector("mark");
        const at = marked ? marked.offsetTop - box.offsetTop : box.scrollTop, line = marked?.offsetHeight ?? 0;
        if (at < box.scrollTop || at + 2 * line > box.scrollTop + box.clientHeight) box.scrollTop = at - box.clientHeight / 2;
    }

    /* The tables; the agreements are those of the script up to here, which the module runs. */
    async tell(stand) {
        const { step } = this, agreementIn = (line) => line.match(/^cable \d+ agreement (.*)$/)?.[1] ?? [];
        const put = (lines) => byId("tables").replaceChildren(...tablesOf(stand, lines.flatMap(agreementIn)));
        const isWhole = step === this.report.entries.length, until = isWhole ? "" : scriptUntil(this.text, step);
        if (isWhole) this.known.set(step, this.report.ends);
        put(this.known.get(step) ?? []);
        if (this.known.has(step) || until === null) return;
        const told = await this.lagtool.job("replay", until).told.catch(() => null);
        this.known.set(step, told && !told.fault ? reportIn(told.printed).ends : []);
        if (this.step === step) put(this.known.get(step));
    }

    playOrStop() {
        if (this.beat) return this.stop();
        if (this.step === this.report.entries.length) this.go(0);
        byId("play").textContent = "Stop";
        this.beat = setInterval(() => {
            this.go(this.step + 1);
            if (this.step === this.report.entries.length) this.stop();
        }, BEAT);
    }

    stop() {
        clearInterval(this.beat);
        this.beat = null;
        byId("play").textContent = "Play";
    }
}
