/* Where things stand in the text of a script: its entries, its tables, the place of a fault. The module alone says what a script means. */

const QUOTES = ['"', "'"];

/* The text with its comments blanked out, and its strings: where each begins and ends, and what is between. */
function scanned(text) {
    const plain = text.split(""), strings = [];
    for (let at = 0; at < text.length; at += 1) {
        if (text[at] === "#") while (at < text.length && text[at] !== "\n") plain[at++] = " ";
        else if (QUOTES.includes(text[at])) {
            const from = at, quote = text[at];
            for (at += 1; at < text.length && text[at] !== quote && text[at] !== "\n"; at += 1) if (quote === '"' && text[at] === "\\") at += 1;
            strings.push({ from, to: at + 1, text: text.slice(from + 1, at) });
        }
    }
    return { plain: plain.join(""), strings };
}

/* The entries of `events`, and where their array ends. */
export function entriesIn(text) {
    const { plain, strings } = scanned(text), found = /^\s*events\s*=\s*\[/m.exec(plain);
    if (!found) return { entries: [], end: null };
    let at = found.index + found[0].length;
    const entries = [];
    while (at < plain.length) {
        const string = strings.find((it) => it.from >= at), close = plain.indexOf("]", at);
        if (!string || close < string.from) return { entries, end: close < 0 ? null : close };
        entries.push(string);
        at = string.to;
    }
    return { entries, end: null };
}

/* The script with its first entries alone; null where they are not found. */
export function scriptUntil(text, count) {
    const { entries, end } = entriesIn(text);
    if (end === null || count > entries.length) return null;
    return text.slice(0, count ? entries[count - 1].to : entries[0]?.from ?? end) + text.slice(end);
}

/* The tables of a script: [[system]], [[system.port]] and [[cable]], with their number among those of their kind. */
function tablesIn(plain) {
    const counts = { system: 0, port: 0, cable: 0 }, tables = [];
    for (const found of plain.matchAll(/^[ \t]*\[\[\s*(system|system\s*\.\s*port|cable)\s*\]\]/gm)) {
        const kind = found[1].includes("port") ? "port" : found[1];
        counts[kind] += 1;
        if (kind === "system") counts.port = 0;
        tables.push({ kind, system: counts.system, number: counts[kind], from: found.index, to: found.index + found[0].length });
    }
    tables.forEach((it, number) => { it.end = tables[number + 1]?.from ?? plain.length; });
    return tables;
}

/* The two ports of each cable, as the text has them. */
export function cablesIn(text) {
    const { plain } = scanned(text);
    return tablesIn(plain).filter((it) => it.kind === "cable").map((it) => {
        const found = /^\s*ends\s*=\s*\[\s*(\d+)\s*,\s*(\d+)/m.exec(plain.slice(it.to, it.end));
        return found ? [Number(found[1]), Number(found[2])] : [it.number, it.number];
    });
}

/* The ports of each of two systems. */
export function portsIn(text) {
    const { plain } = scanned(text), ports = { 1: [], 2: [] };
    for (const it of tablesIn(plain)) {
        const found = it.kind === "port" && /^\s*number\s*=\s*(\d+)/m.exec(plain.slice(it.to, it.end));
        if (found) ports[it.system]?.push(Number(found[1]));
    }
    return ports;
}

/* The table that a fault names, by the words in front of it. */
function tableOf(tables, words) {
    const [, system, port] = /^system (\d+)(?: port (\d+))?/.exec(words) ?? [], [, cable] = /^cable (\d+)/.exec(words) ?? [];
    if (cable) return tables.find((it) => it.kind === "cable" && it.number === Number(cable));
    if (port) return tables.find((it) => it.kind === "port" && it.system === Number(system) && it.number === Number(port));
    return tables.find((it) => it.kind === "system" && it.number === Number(system));
}

/* From where to where a fault stands in the text; null where that is not found. */
export function placeOfFault(text, fault) {
    if (fault.line !== null) {
        const lines = text.split("\n"), from = lines.slice(0, fault.line - 1).join("\n").length + (fault.line > 1 ? 1 : 0) + fault.column - 1;
        return { from, to: Math.max(from + 1, text.slice(from).search(/\W|$/) + from) };
    }
    const [, event] = /^event (\d+)/.exec(fault.text) ?? [];
    if (event) {
        const found = entriesIn(text).entries[Number(event) - 1];
        return found ? { from: found.from, to: found.to } : null;
    }
    const { plain } = scanned(text), tables = tablesIn(plain), table = tableOf(tables, fault.text);
    const [, name] = /unknown key "([\w-]+)"/.exec(fault.text) ?? /(?:^|: )([a-z_]+)(?: =| is|:|$)/.exec(fault.text) ?? [];
    const from = table?.to ?? 0, end = table?.end ?? tables[0]?.from ?? plain.length;
    const key = name && new RegExp(`^[ \\t]*(${name})\\s*=[^\\n]*`, "m").exec(plain.slice(from, end));
    if (key) return { from: from + key.index + key[0].indexOf(name), to: from + key.index + key[0].trimEnd().length };
    return table ? { from: table.from, to: table.to } : null;
}

/* The line and the column of a place, from 1. */
export function lineAndColumn(text, at) {
    const before = text.slice(0, at).split("\n");
    return { line: before.length, column: [...before.at(-1)].length + 1 };
}
