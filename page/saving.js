/* Saves what is shown as files that stand alone: a picture, and a report that needs no script. */

import { Drawing } from "./timeline.js";
import { shape } from "./shapes.js";

const WIDE = 1000;
const styleOf = () => document.querySelector("style").textContent;
/* The digest of the style, as the policy of this page has it: a report has the same style. */
const digestOf = () => /style-src ('sha256-[^']+')/.exec(document.querySelector("meta[http-equiv]").content)[1];
const plain = (text) => text.replace(/[&<>"]/g, (it) => `&#${it.charCodeAt(0)};`);

/* Offers a text as a file. */
export function offer(name, type, text) {
    const link = document.createElement("a");
    link.href = URL.createObjectURL(new Blob([text], { type }));
    link.download = name;
    link.click();
    setTimeout(() => URL.revokeObjectURL(link.href), 10000);
}

/* The picture of a bundle, of what is in view or of all. */
export function pictureOf(viewing, title, isWhole) {
    const { bundle, axis } = viewing, view = isWhole ? { from: axis.from, to: axis.to, chosen: null } : viewing.view;
    const drawing = new Drawing(bundle, axis, view, WIDE), parts = drawing.draw();
    const size = { viewBox: `0 0 ${WIDE} ${drawing.height}`, width: WIDE, height: drawing.height };
    const picture = shape("svg", { ...size, role: "img", "aria-label": title, class: "picture" });
    picture.append(shape("title", {}, title), ...parts);
    for (const it of picture.querySelectorAll("[tabindex]")) it.removeAttribute("tabindex");
    for (const it of picture.querySelectorAll("[role=button]")) it.setAttribute("role", "img");
    return picture;
}

/* An SVG as a file, with its style. The colours are those of the page as it shows now, since not every viewer of pictures knows variables. */
export function textOfPicture(picture) {
    const whole = picture.cloneNode(true), colours = getComputedStyle(document.documentElement);
    const style = styleOf().replace(/var\((--\w+)\)/g, (_, name) => colours.getPropertyValue(name).trim());
    const [x, y, width, height] = whole.getAttribute("viewBox").split(" ");
    whole.prepend(shape("style", {}, style), shape("rect", { x, y, width, height, class: "ground" }));
    return new XMLSerializer().serializeToString(whole);
}

/* A report: what is shown, with its pictures in place of what a script draws. */
export function textOfReport(title, shown, pictures, closing) {
    const whole = shown.cloneNode(true);
    [...whole.querySelectorAll(".timeline")].forEach((it, number) => it.replaceWith(pictures[number]));
    for (const it of whole.querySelectorAll("button, input, #name, #reading, .tools, .usage, .chosen-frame, [role=status]")) it.remove();
    for (const it of whole.querySelectorAll("[tabindex]")) it.removeAttribute("tabindex");
    const policy = `default-src 'none'; style-src ${digestOf()}; base-uri 'none'; form-action 'none'`;
    return `<!DOCTYPE html>
<html lang="en">
<head>
<meta charset="utf-8">
<meta http-equiv="Content-Security-Policy" content="${plain(policy)}">
<meta name="viewport" content="width=device-width, initial-scale=1">
<meta name="color-scheme" content="light dark">
<title>${plain(title)}</title>
<style>${styleOf()}</style>
</head>
<body>
<h1>${plain(title)}</h1>
<main>${whole.outerHTML}</main>
<footer>${closing}</footer>
</body>
</html>
`;
}
