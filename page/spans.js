/* Captures of different times: which are, and by how much their packets are moved so that all end together, as if they were of one time; and when each
 * file ends. */

/* Files that overlap for less are of different times; seconds. */
const MOST_COMMON = 5;
/* So much later than its next LACPDU an end is silent; it sends each 30 s at least. */
const LATE = 1.5, SELDOM = 31;
/* Of more files the times are not named. */
const MOST_TOLD = 4;

const NANOSECONDS_OF = 1e9;
export const secondsFrom = (time, begin) => Number(time - begin) / NANOSECONDS_OF;
const least = (times) => times.reduce((one, other) => other < one ? other : one);
const most = (times) => times.reduce((one, other) => other > one ? other : one);

/* The longest time between two that follow each other; seconds. */
const longestOf = (times) => times.slice(1).reduce((gap, time, at) => Math.max(gap, secondsFrom(time, times[at])), 0);

/* The longest that an end lets pass between two LACPDUs, of the end that sends most often; seconds. */
function paceOf(lacpdus) {
    const times = new Map();
    for (const { source, number, time } of lacpdus) {
        const end = `${number} ${source}`;
        if (!times.has(end)) times.set(end, []);
        times.get(end).push(time);
    }
    return [...times.values()].filter((it) => it.length > 2).reduce((pace, it) => Math.min(pace, longestOf(it)), SELDOM);
}

/* Files that hold one link, as one: their times, and how often its ends send; of files without LACPDUs these are not known. */
function partsIn(files, linkOf) {
    const parts = [];
    for (const it of files) {
        const links = new Set(it.kept.filter((one) => one.isLacpdu).map(({ number }) => linkOf(number))), near = parts.filter((part) => [...links].some((link) => part.links.has(link)));
        const joined = [...near.flatMap((part) => part.files), it];
        parts.splice(0, parts.length, ...parts.filter((part) => !near.includes(part)), { files: joined, links: new Set([...near.flatMap((part) => [...part.links]), ...links]) });
    }
    return parts.filter(({ files: own }) => own.some(({ kept }) => kept.length)).map((part) => {
        const kept = part.files.flatMap((it) => it.kept), from = least(part.files.map((it) => it.from).filter((it) => it !== null)), to = most(kept.map(({ time }) => time));
        const lacpdus = kept.filter((it) => it.isLacpdu);
        return { ...part, from, to, pace: paceOf(lacpdus), isCut: part.files.some(({ fault }) => fault) };
    });
}

/* Whether two parts are of different times: one begins and ends before the other, and both are hardly there at once. */
function areApart(one, other) {
    if (one.from > other.from) return areApart(other, one);
    const later = secondsFrom(other.from, one.from), longer = secondsFrom(other.to, one.to), common = secondsFrom(one.to, other.from);
    return later > other.pace + LATE && longer > one.pace + LATE && common < MOST_COMMON;
}

/* Parts that may be of one time, together. */
function togetherIn(parts) {
    const groups = [];
    for (const it of parts) {
        const near = groups.filter((group) => group.some((other) => !areApart(it, other)));
        groups.splice(0, groups.length, ...groups.filter((group) => !near.includes(group)), [...near.flat(), it]);
    }
    return groups;
}

const namesOfFiles = (group) => group.flatMap(({ files }) => files.map(({ stem }) => stem)).join(", ");
const beginOf = (group) => least(group.map(({ from }) => from));
const endOf = (group) => most(group.map(({ to }) => to));

/* When each group is there, from the first packet of all. */
function timesSaid(groups) {
    const begin = beginOf(groups.flat()), at = (time) => secondsFrom(time, begin).toFixed(1);
    const said = groups.map((group) => `${namesOfFiles(group)}: ${at(beginOf(group))} to ${at(endOf(group))} s`);
    return `${said.slice(0, MOST_TOLD).join("; ")}${said.length > MOST_TOLD ? `; and ${said.length - MOST_TOLD} more` : ""}`;
}

/* Of files, each with its packets (`kept`), the time of its first one (`from`), and its name: by how much the packets of each have to be moved; what is
 * said first where they are of different times, and what is noted then; and for each link when its file ends, with the moves. `linkOf` gives the link of
 * an interface. */
export function movesOf(files, linkOf) {
    const parts = partsIn(files, linkOf), groups = togetherIn(parts.filter(({ links, from }) => links.size && from)), moves = new Map();
    const said = groups.length < 2 ? { apart: "", note: "" } : ofGroups(parts, groups, moves);
    const ends = parts.flatMap(({ links, files: [{ file }], to, isCut }) => [...links].map((link) => [link, { to: to + (moves.get(file) ?? 0n), isCut }]));
    return { moves, ...said, ends: new Map(ends) };
}

/* The same of files of different times, in groups of one time each. */
function ofGroups(parts, groups, moves) {
    const end = endOf(parts), whole = [...groups, ...parts.filter((it) => !groups.flat().includes(it)).map((it) => [it])];
    for (const group of whole) for (const { files: own } of group) for (const it of own) moves.set(it.file, end - endOf(group));
    groups.sort((one, other) => beginOf(one) < beginOf(other) ? -1 : 1);
    const longest = groups.reduce((one, other) => endOf(other) - beginOf(other) > endOf(one) - beginOf(one) ? other : one);
    return {
        apart: `These captures are of different times (${timesSaid(groups)}): capture all links at once. As if they were of one time:`,
        note: `They are taken as if they ended together: silence behind the end of a file says nothing, and seconds count from the beginning of ${namesOfFiles(longest)}.`,
    };
}
