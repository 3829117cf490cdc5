/* A report of `lagtool replay` (docs/COMMAND.md), and how both ends stand behind each of its entries. */

const LACPDU_SENT = /^lacpdu ([0-9a-f]{2}) (sent|lost)$/, MARKER_SENT = /^marker (\d+) (sent|lost)$/, DATA_SENT = /^port (\d+) serial (\d+) (sent|lost)$/;

/* The lines of a report: its entries, and those behind them. */
export function reportIn(printed) {
    const entries = [], ends = [];
    for (const line of printed.split("\n").filter(Boolean)) {
        const [, number, word, rest, reply] = /^(\d+) ([a-z]+) (.*) -> (.*)$/.exec(line) ?? [];
        if (number) entries.push({ number: Number(number), word, words: rest.split(" "), reply, text: `${word} ${rest}` });
        else ends.push(line);
    }
    return { entries, ends };
}

/* How a port stands: its link, the state octets that it sent last and took last, and its last reply. */
const newPort = () => ({ link: "not told", sent: null, taken: null, said: "" });

/* Both ends and their cables, entry after entry. */
export class Stand {
    constructor(ports, cables) {
        this.cables = cables;
        this.ticks = { 1: 0, 2: 0 };
        this.ports = { 1: new Map(), 2: new Map() };
        for (const system of [1, 2]) for (const port of ports[system]) this.ports[system].set(port, newPort());
        this.flying = cables.map(() => ({ 1: [], 2: [] }));
        this.whole = cables.map(() => true);
    }

    port(system, number) {
        if (!this.ports[system].has(number)) this.ports[system].set(number, newPort());
        return this.ports[system].get(number);
    }

    /* The cable of a port; -1 where it has none. */
    cableOf(system, port) { return this.cables.findIndex((it) => it[system - 1] === port); }

    /* The port at an end of a cable, which is counted from 1. */
    portAt(cable, system) { return this.port(system, this.cables[cable - 1]?.[system - 1] ?? cable); }

    send(system, port, frame, kept) {
        const cable = this.cableOf(system, port);
        frame.lost = kept === "lost" || cable < 0;
        if (!frame.lost) this.flying[cable][3 - system].push(frame);
        return { sent: frame };
    }

    lose(cables) {
        const lost = cables.flatMap((it) => [1, 2].flatMap((to) => (this.flying[it]?.[to] ?? []).splice(0).map((frame) => ({ frame, to }))));
        return { lost };
    }

    /* Plays an entry; gives what is to be drawn: a frame that was sent, one that was received or lost, those that were on a cable. */
    play(entry) {
        const [first, second] = entry.words.map(Number);
        if (entry.word === "tick") this.ticks[first] += second;
        if (entry.word === "emit") return this.emit(entry, first, second);
        if (entry.word === "offer") return this.offer(entry, first);
        if (["deliver", "lose", "repeat"].includes(entry.word)) return this.receive(entry, first, second);
        if (entry.word === "sense") this.portAt(first, second).link = entry.reply;
        if (entry.word === "cut" || entry.word === "join") this.whole[first - 1] = entry.word === "join";
        if (entry.word === "cut") return this.lose([first - 1]);
        if (entry.word === "restart") return this.restart(first);
        return {};
    }

    emit(entry, system, number) {
        const port = this.port(system, number), lacpdu = LACPDU_SENT.exec(entry.reply), marker = MARKER_SENT.exec(entry.reply);
        port.said = entry.reply;
        if (lacpdu) {
            port.sent = parseInt(lacpdu[1], 16);
            return this.send(system, number, { kind: "lacpdu", state: port.sent, from: system, port: number }, lacpdu[2]);
        }
        if (marker) return this.send(system, number, { kind: "marker", said: `marker ${marker[1]}`, from: system, port: number }, marker[2]);
        return {};
    }

    offer(entry, system) {
        const data = DATA_SENT.exec(entry.reply);
        if (!data) return {};
        return this.send(system, Number(data[1]), { kind: "data", said: `data #${data[2]}`, from: system, port: Number(data[1]) }, data[3]);
    }

    receive(entry, cable, to) {
        const list = this.flying[cable - 1]?.[to] ?? [], frame = list[0] ?? null, port = this.portAt(cable, to);
        if (frame && entry.word !== "repeat") list.shift();
        if (frame && entry.word !== "lose" && frame.kind === "lacpdu" && entry.reply === "took") port.taken = frame.state;
        port.said = entry.reply;
        const response = /^responded (sent|lost)$/.exec(entry.reply), made = { kind: "marker", said: "marker response", from: to };
        const answer = response ? this.send(to, this.cables[cable - 1]?.[to - 1], made, response[1]) : {};
        return { ...answer, taken: entry.reply === "empty" || entry.reply === "not control" ? null : frame, to };
    }

    restart(system) {
        this.ticks[system] = 0;
        for (const number of this.ports[system].keys()) this.ports[system].set(number, newPort());
        return this.lose(this.cables.map((_, cable) => cable));
    }
}
