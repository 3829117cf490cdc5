/* The fields of one frame beside its octets: each field marks its own. */

import { hexadecimal } from "./records.js";
import { made } from "./shapes.js";

/* Marks a field and its octets, and no other. */
function mark(part, number) {
    for (const it of part.querySelectorAll("[data-field]")) it.classList.toggle("marked", it.dataset.field === String(number));
}

/* The keys that go from row to row. */
const ARROW_KEYS = { ArrowDown: 1, ArrowUp: -1 };

function fieldRow(field, number, part) {
    const row = made("tr");
    row.dataset.field = number;
    row.tabIndex = number ? -1 : 0;
    const name = made("th", field.name), to = field.from + field.count - 1;
    name.scope = "row";
    row.append(name, made("td", String(field.value)), made("td", to > field.from ? `${field.from} to ${to}` : `${field.from}`, "quiet"));
    row.addEventListener("mouseenter", () => mark(part, number));
    row.addEventListener("focus", () => mark(part, number));
    row.addEventListener("keydown", (event) => {
        const way = ARROW_KEYS[event.key], next = way && (way > 0 ? row.nextElementSibling : row.previousElementSibling);
        if (!way) return;
        event.preventDefault();
        next?.focus();
    });
    return row;
}

function cellsOf(octets, fields, part) {
    const cells = made("div", "", "octets");
    cells.setAttribute("aria-hidden", "true");
    fields.forEach((field, number) => {
        for (let at = field.from; at < field.from + field.count; at += 1) {
            const cell = made("span", hexadecimal(octets[at]), number % 2 ? "odd" : "");
            cell.dataset.field = number;
            cell.title = `${field.name}: octet ${at}`;
            cell.addEventListener("mouseenter", () => mark(part, number));
            cells.append(cell);
        }
    });
    return cells;
}

/* The octets on the one side, the fields on the other. */
export function octetsBeside(octets, fields) {
    const part = made("div", "", "beside"), rows = made("table", "", "fields"), body = rows.createTBody(), head = rows.createTHead().insertRow();
    for (const it of ["field", "value", "octets"]) {
        const cell = made("th", it);
        cell.scope = "col";
        head.append(cell);
    }
    body.append(...fields.map((it, number) => fieldRow(it, number, part)));
    part.append(cellsOf(octets, fields, part), rows);
    return part;
}
