/* Plays scripts by the module of docs/try.html, one after another. Each line of standard input is the text of a script, as JSON; each line of
 * standard output is what `lagtool replay` answers: its status, what it prints and what it says. */
import { readFileSync } from "node:fs";
import { createInterface } from "node:readline";
import { Lagtool } from "../../page/module.js";

const PAGE = new URL("../../docs/try.html", import.meta.url), MODULE = /<script type="application\/x-base64" id="module">([^<]*)</;

const lagtool = await Lagtool.of(Buffer.from(MODULE.exec(readFileSync(PAGE, "latin1"))[1], "base64"));
for await (const line of createInterface({ input: process.stdin })) {
    const { status, printed, said } = lagtool.now("replay", JSON.parse(line));
    process.stdout.write(`${JSON.stringify({ status, printed, said })}\n`);
}
