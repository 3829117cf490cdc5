/* Calls the exports of the module. Each job has an instance of its own, so that none is used behind a trap. A job runs in a worker, so
 * that the page stays awake; it is stopped by ending the worker.
 *
 * The functions up to `serve` are those of the worker, too: its text is made of theirs, so they name nothing else. */

/* Room for so many octets in the memory of an instance, which is dropped behind the job. */
function taken(exports, octets) {
    const at = exports.page_alloc(BigInt(Math.max(octets, 1)));
    if (!at) throw new Error("out of memory");
    return at;
}

/* Puts octets into memory. */
function filled(exports, at, octets) { new Uint8Array(exports.memory.buffer).set(octets, Number(at)); }

/* What a call answered: four numbers of 64 bits, and what it wrote at the front of `out`. */
function answerIn(exports, answer, out) {
    const buffer = exports.memory.buffer, view = new DataView(buffer, Number(answer), 32);
    const [outcome, status, printed, said] = [0, 8, 16, 24].map((it) => Number(view.getBigUint64(it, true)));
    if (outcome) return { outcome, room: printed + said };
    return { outcome, status, printed: new Uint8Array(buffer, Number(out), printed), said: new Uint8Array(buffer, Number(out) + printed, said) };
}

/* Calls an export with texts in memory. It asks for room for what is told, and once more where that was too little: the answer says how
 * much it takes. */
function called(module, name, inputs) {
    const NO_ROOM = 1, decoder = new TextDecoder();
    let found = { outcome: NO_ROOM, room: inputs.reduce((sum, it) => sum + 4 * it.length, 65536) };
    while (found.outcome === NO_ROOM) {
        const { exports } = new WebAssembly.Instance(module), { room } = found;
        const given = inputs.flatMap((it) => {
            const at = taken(exports, it.length);
            filled(exports, at, it);
            return [at, BigInt(it.length)];
        });
        const out = taken(exports, room), answer = taken(exports, 32);
        exports[name](...given, out, BigInt(room), answer);
        found = answerIn(exports, answer, out);
    }
    if (found.outcome) throw new Error("out of memory");
    return { status: found.status, printed: decoder.decode(found.printed), said: decoder.decode(found.said) };
}

/* Explains a capture, octets or a file, piece by piece: one piece, and the text of one, is in memory at a time. A file is read as a worker
 * alone can. It yields the text of each piece, whole lines, and how many octets are read; it returns what is told. */
export function* explained(module, given, numbers, most = 1048576) {
    const NO_ROOM = 1, decoder = new TextDecoder(), size = given.size ?? given.length;
    const { exports } = new WebAssembly.Instance(module), reader = given.size === undefined ? null : new FileReaderSync();
    const capture = taken(exports, 32), piece = taken(exports, most), answer = taken(exports, 32); // the handle is 0 before it is opened
    let room = 4 * most, out = taken(exports, room);
    const step = (name, ...words) => {
        exports[name](capture, ...words, out, BigInt(room), answer);
        return answerIn(exports, answer, out);
    };
    const told = (name, ...words) => {
        let found = step(name, ...words);
        if (found.outcome === NO_ROOM) {
            out = taken(exports, room = found.room);
            found = step(name, ...words.map((it, number) => number ? 0n : it)); // the piece is read, so an empty one follows
        }
        if (found.outcome) throw new Error("out of memory");
        return found;
    };
    if (exports.lagpage_open(capture, ...numbers)) throw new Error("out of memory");
    for (let from = 0; from < size; from += most) {
        const part = given.slice(from, from + most), octets = reader ? new Uint8Array(reader.readAsArrayBuffer(part)) : part;
        filled(exports, piece, octets);
        yield { printed: decoder.decode(told("lagpage_feed", piece, BigInt(octets.length)).printed), read: from + octets.length };
    }
    const { status, printed, said } = told("lagpage_end");
    yield { printed: decoder.decode(printed), read: size };
    return { status, printed: "", said: decoder.decode(said) };
}

/* What the worker does: one job, and it tells what came of it; of a capture it tells each piece once it is asked for. */
function serve({ data: { octets, name, inputs, numbers } }) {
    try {
        if (name) return postMessage({ told: called(new WebAssembly.Module(octets), name, inputs) });
        globalThis.steps ??= explained(new WebAssembly.Module(octets), inputs[0], numbers);
        const { done, value } = globalThis.steps.next();
        postMessage(done ? { told: value } : value);
    } catch (error) {
        postMessage({ failed: error.message });
    }
}

const WORKER = `${[taken, filled, answerIn, called, explained, serve].map(String).join("\n")}\nonmessage = serve;`;

/* All steps at once. */
function allOf(steps) {
    for (let printed = ""; ;) {
        const { done, value } = steps.next();
        if (done) return { ...value, printed };
        printed += value.printed;
    }
}

const asOctets = (it) => (typeof it === "string" ? new TextEncoder().encode(it) : it);
export const numbersOf = ({ all = false, frames = true, json = false } = {}) => [all ? 1 : 0, frames ? 0 : 1, json ? 1 : 0];

/* The export of each job but a capture. */
const JOBS = { replay: "lagpage_replay", decode: "lagpage_decode", respond: "lagpage_respond", vectors: "lagpage_vectors" };

/* What came of a job: the exit status of lagtool, what it prints, and what it says on standard error. */
class Told {
    constructor({ status, printed, said }) {
        Object.assign(this, { status, printed, said });
    }

    /* Why a text is no script: a text, and the line and the column, from 1, where the text is no TOML or no UTF-8; null for a script. */
    get fault() {
        if (this.status !== 2) return null;
        const [first, more = first] = this.said.split("\n"), place = more.match(/^script:(\d+):(\d+): (.*)$/s);
        if (place) return { line: Number(place[1]), column: Number(place[2]), text: place[3] };
        return { line: null, column: null, text: more.replace(/^script: /, "") };
    }
}

/* A job in a worker of its own. `told` is a promise of what came of it. */
class Job {
    constructor(task, heard = {}) {
        const url = URL.createObjectURL(new Blob([WORKER], { type: "text/javascript" }));
        this.worker = new Worker(url);
        this.told = new Promise((done, refuse) => {
            const end = (act, it) => { this.worker.terminate(); URL.revokeObjectURL(url); act(it); };
            this.refuse = (why) => end(refuse, new Error(why));
            this.worker.onerror = (event) => { event.preventDefault(); this.refuse(event.message || "the worker failed"); };
            this.worker.onmessage = ({ data: { printed, read, told, failed } }) => {
                if (failed !== undefined) this.refuse(failed);
                if (told) end(done, new Told(told));
                if (read === undefined) return;
                heard.printed?.(printed);
                heard.read?.(read);
                this.worker.postMessage({}); // the next piece
            };
        });
        this.worker.postMessage(task);
    }

    /* Ends it; `told` is refused with the message "stopped", unless it is done. */
    stop() {
        this.refuse("stopped");
    }
}

export class Lagtool {
    static async of(octets) {
        const lagtool = new Lagtool();
        lagtool.octets = octets;
        lagtool.module = await WebAssembly.compile(octets);
        return lagtool;
    }

    /* At once, in this thread. */
    now(name, ...texts) {
        return new Told(called(this.module, JOBS[name], texts.map(asOctets)));
    }

    /* The same in a worker. */
    job(name, ...texts) {
        return new Job({ octets: this.octets, name: JOBS[name], inputs: texts.map(asOctets) });
    }

    /* Explains a file of any size in a worker. `heard.printed` gets the text piece by piece, whole lines each, `heard.read` how many octets
     * are read; what is told has no text of its own. */
    explain(file, options, heard) {
        return new Job({ octets: this.octets, inputs: [file], numbers: numbersOf(options) }, heard);
    }

    capture(octets, options) {
        return new Told(allOf(explained(this.module, octets, numbersOf(options))));
    }
}
