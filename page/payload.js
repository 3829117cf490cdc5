/* One payload or one frame, in hexadecimal: what it is, its fields, and what answers it. */

import { ETHERNET } from "./packets.js";
import { fieldsOf, fieldsOfPayload, isFrame } from "./fields.js";
import { octetsBeside } from "./octets.js";
import { byId } from "./shapes.js";
import { digitsOf } from "./verdict.js";

const HEADER = 28; // digits of both addresses and the EtherType

const octetsOf = (digits) => Uint8Array.from(digits.match(/../g) ?? [], (it) => parseInt(it, 16));

export class Payload {
    constructor(lagtool) {
        this.lagtool = lagtool;
        byId("hex").addEventListener("input", () => this.read());
        byId("address").addEventListener("input", () => this.read());
        byId("run-vectors").addEventListener("click", () => {
            byId("vectors").textContent = lagtool.now("vectors").printed;
            byId("vectors").hidden = false;
        });
    }

    load(text) {
        byId("payloads").open = true;
        byId("hex").value = text;
        this.read();
    }

    read() {
        const digits = digitsOf(byId("hex").value), isHex = /^([0-9a-f]{2})+$/i.test(digits), octets = isHex ? octetsOf(digits) : new Uint8Array(0);
        const whole = isFrame(octets), told = this.lagtool.now("decode", whole ? digits.slice(HEADER) : digits);
        const answer = whole ? this.lagtool.now("respond", digitsOf(byId("address").value), digits) : null;
        byId("decoded").textContent = `${told.printed}${told.said}`.trim();
        byId("decoded").className = told.status ? "bad" : "";
        byId("answer").hidden = !answer;
        byId("answered").textContent = answer ? `${answer.printed}${answer.said}`.trim() : "";
        const fields = whole ? fieldsOf(octets, ETHERNET) : fieldsOfPayload(octets);
        byId("payload-octets").replaceChildren(...octets.length ? [octetsBeside(octets, fields)] : []);
        window.decoded = told;
    }
}
