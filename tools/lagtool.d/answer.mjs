/* Answers the words of lagtool, where node runs this, by the module of docs/try.html: the proved code, compiled by a way that no verdict names.
 * It has each job but `check`. Standard input is read to its end first; of a file a piece at a time. */
import { fstatSync, openSync, readFileSync, readSync } from "node:fs";

const at = (path) => new URL(`../../${path}`, import.meta.url);
const { Lagtool, explained, numbersOf } = await import(`data:text/javascript;base64,${readFileSync(at("page/module.js"), "base64")}`);
const PAGE = /<script type="application\/x-base64" id="module">([^<]*)</, JOBS = { capture: 1, replay: 1, decode: 1, respond: 2, vectors: 0 };
const OPTIONS = ["--explain", "--progress", "--all", "--no-frames", "--json"];
/* The words of the program for errors of the operating system; of others its own text. */
const ERRORS = { ENOENT: "no such file", EACCES: "permission denied", EPERM: "permission denied", EISDIR: "is a folder" };

const words = process.argv.slice(2), options = [];
while (OPTIONS.includes(words[0])) options.push(words.shift());
const [name, ...given] = words, file = given[0] === "-" ? "standard input" : given[0];

/* A file as explained() reads one; the octets of what is no plain file. */
function opened(path) {
    const from = path === "-" ? 0 : openSync(path), found = fstatSync(from);
    if (!found.isFile()) return readFileSync(from);
    globalThis.FileReaderSync = class {
        readAsArrayBuffer({ first, last }) {
            const piece = Buffer.alloc(last - first);
            return piece.subarray(0, readSync(from, piece, 0, piece.length, first));
        }
    };
    return { size: found.size, slice: (first, last) => ({ first, last: Math.min(last, found.size) }) };
}

function* steps(lagtool) {
    if (name === "capture") {
        const [all, hasNoFrames, json] = ["--all", "--no-frames", "--json"].map((it) => options.includes(it));
        return yield* explained(lagtool.module, opened(given[0]), numbersOf({ all, frames: !hasNoFrames, json }));
    }
    const told = lagtool.now(name, ...(name === "replay" ? [readFileSync(given[0] === "-" ? 0 : given[0])] : given));
    yield told;
    return told;
}

/* Why the words are no line of the program; nothing where they are one. */
function misused() {
    const late = given.find((it) => OPTIONS.includes(it));
    if (late && name in JOBS) return `options stand before the subcommand: lagtool ${late} ${name} ..`;
    if (name === "check") return "the module of docs/try.html has no check: tools/lagtool --prove, with the toolchain, makes the program";
    return JOBS[name] === given.length ? "" : `[OPTION..] ${Object.keys(JOBS).join(", ")}, and their words; options: ${OPTIONS.join(" ")}`;
}

/* What the program says of a file that cannot be read. */
function unread(error) {
    const text = error.message.replace(/^[A-Z0-9]+: (.*?)(, \w+.*)?$/, "$1");
    return `${file}: ${given[0] === "-" ? "reading failed" : ERRORS[error.code] ?? text}`;
}

/* Writes to standard output, and waits until it is taken. */
function put(text) {
    return new Promise((done, refuse) => process.stdout.write(text, (error) => error ? refuse(Object.assign(error, { isWrite: true })) : done()));
}

/* The exit status, after all is written. */
async function answered() {
    const wrong = misused();
    if (wrong) throw new Error(wrong);
    const answer = steps(await Lagtool.of(Buffer.from(PAGE.exec(readFileSync(at("docs/try.html"), "latin1"))[1], "base64")));
    let step = answer.next();
    for (; !step.done; step = answer.next()) await put(step.value.printed);
    const [first, ...more] = step.value.said.split("\n").filter(Boolean);
    if (first) console.error(`lagtool: ${first.replace(/^cannot read(?: script$|(?=: ))/, `cannot read ${given[0]}`)}`);
    if (options.includes("--explain")) more.forEach((it) => console.error(`lagtool: ${it.replace(/^script(?=:)/, file)}`));
    return step.value.status;
}

process.stdout.on("error", () => {}); // put() tells it
answered().catch((error) => {
    if (error.isWrite && error.code === "EPIPE") return 141; // nobody reads on
    if (error.isWrite) {
        console.error("lagtool: cannot write");
        return 2;
    }
    console.error(`lagtool: ${error.syscall ? `cannot read ${given[0]}` : error.message}`);
    if (error.syscall && options.includes("--explain")) console.error(`lagtool: ${unread(error)}`);
    return 2;
}).then((status) => { process.exitCode = status; });
