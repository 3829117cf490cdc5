/* Texts of a status: what this system prints, and the other end. They are read as one types. */

import { asSentence, ofTexts } from "./verdict.js";
import { causeItem, lineItems, pictureIn } from "./capture.js";
import { byId, table } from "./shapes.js";

const BOXES = ["here", "there"], HEADS = ["port", "link", "aggregator", "says", "partner", "key", "port there", "partner is"];

export class Texts {
    /* `show` clears the page and gives where to put what is said. */
    constructor(lagtool, show) {
        Object.assign(this, { lagtool, show });
        for (const it of BOXES) byId(it).addEventListener("input", () => this.read());
    }

    load(texts) {
        if (texts.length > BOXES.length) return this.say(texts);
        BOXES.forEach((it, number) => { byId(it).value = texts[number] ?? ""; });
        byId("texts").open = true;
        return this.read();
    }

    read() {
        const texts = BOXES.map((it) => byId(it).value).filter((it) => it.trim());
        return texts.length ? this.say(texts) : undefined;
    }

    async run(capture, take) { take(this.lagtool.capture(new Uint8Array(await capture.arrayBuffer()), { json: true }).printed); }

    async say(texts) {
        const turn = this.turn = (this.turn ?? 0) + 1, found = await ofTexts(texts.map((text) => ({ name: "", text })), (...words) => this.run(...words));
        if (turn !== this.turn) return;
        const put = this.show(texts.length > 1 ? "What both ends print" : "What this system prints");
        if (found.kind === "refused") return put(["", "bad"], asSentence(found.said));
        pictureIn(byId("picture"), found);
        byId("lines").replaceChildren(...lineItems(found.lines));
        byId("findings").replaceChildren(...found.causes.map((it) => causeItem(it)));
        byId("links").replaceChildren(table(HEADS, found.rows, "frames"));
        byId("lasts").textContent = ["A status is one moment. What is read out of the text is not proved.", ...found.notes].join(" ");
        return put([found.headline, found.look], "");
    }
}
