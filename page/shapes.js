/* Elements of the page and of pictures. */

const SVG = "http://www.w3.org/2000/svg";

export const byId = (id) => document.getElementById(id);

/* An element of the page: its text and its class are set where they are given. */
export function made(name, text, kind) {
    const it = document.createElement(name);
    if (text) it.textContent = text;
    if (kind) it.className = kind;
    return it;
}

/* The same, where no line breaks within a MAC address. */
export function madeWhole(name, text, kind) {
    const it = made(name, "", kind), address = /((?:[0-9a-f]{2}-){5}[0-9a-f]{2})/;
    it.append(...text.split(address).filter(Boolean).map((part) => address.test(part) ? made("span", part, "address") : part));
    return it;
}

export function button(text, act, kind) {
    const it = made("button", text, kind);
    it.type = "button";
    it.addEventListener("click", act);
    return it;
}

/* A table with its heads and rows; a cell is a text or an element. */
export function table(heads, rows, kind) {
    const it = made("table", "", kind), head = it.createTHead().insertRow(), body = it.createTBody();
    for (const text of heads) {
        const cell = made("th", text);
        cell.scope = "col";
        head.append(cell);
    }
    for (const row of rows) body.insertRow().append(...row.map((cell) => {
        const place = made("td");
        place.append(cell);
        return place;
    }));
    return it;
}

export function shape(name, attributes, text) {
    const it = document.createElementNS(SVG, name);
    for (const [key, value] of Object.entries(attributes)) it.setAttribute(key, value);
    if (text !== undefined) it.textContent = text;
    return it;
}
