/* A time axis that mouse and keyboard move: what is in view of a bundle, and which frame is chosen. */

import { axisOf, Drawing } from "./timeline.js";
import { button, made, shape } from "./shapes.js";

const CLOSEST = 1e-5; // of the axis' units, the least stretch in view
const NARROWEST = 280, WIDEST = 4000;

export class Viewing {
    /* `choose` is called with a frame that is chosen, and with whether the keyboard wants to go to its fields. */
    constructor(bundle, title, choose) {
        this.bundle = bundle;
        this.choose = choose;
        this.axis = axisOf(bundle);
        this.view = { from: this.axis.from, to: this.axis.to, chosen: null };
        const frames = bundle.links.flatMap((it) => it.frames);
        this.frames = bundle.links.length === 1 ? frames : frames.sort((one, other) => this.axis.timeOf(one) - this.axis.timeOf(other));
        this.svg = shape("svg", { role: "group", tabindex: 0, "aria-label": `${title}. ${frames.length} frames. Left and right go from frame to frame, `
            + "Enter shows the fields of one, plus and minus zoom, 0 shows all." });
        this.box = made("div", "", "timeline");
        this.told = made("p", "", "quiet");
        this.box.append(this.buttons(), this.svg, this.told);
        this.listen();
        new ResizeObserver(() => this.ask()).observe(this.box);
    }

    buttons() {
        const row = made("p", "", "tools"), span = () => this.view.to - this.view.from;
        const each = [
            ["+", "zoom in", () => this.zoom(0.5)], ["\u2212", "zoom out", () => this.zoom(2)], ["\u25c0", "earlier", () => this.pan(-span() / 4)],
            ["\u25b6", "later", () => this.pan(span() / 4)], ["all", "show all of it", () => this.whole()],
        ];
        for (const [text, label, act] of each) {
            const it = button(text, act);
            it.setAttribute("aria-label", label);
            it.title = label;
            row.append(it);
        }
        return row;
    }

    listen() {
        this.svg.addEventListener("wheel", (event) => this.wheel(event), { passive: false });
        this.svg.addEventListener("keydown", (event) => this.key(event));
        this.svg.addEventListener("click", (event) => {
            const frame = this.frameAt(event.target);
            if (frame && !this.hasMoved) this.take(frame, false);
        });
        this.svg.addEventListener("pointerdown", (event) => this.grasp(event));
    }

    frameAt(element) {
        const packet = element.closest?.("[data-packet]")?.getAttribute("data-packet");
        return packet === undefined || packet === null ? null : this.frames.find((it) => it.packet === Number(packet));
    }

    /* A drag moves the axis; one that goes nowhere is a click. */
    grasp(down) {
        const from = { ...this.view };
        this.hasMoved = false;
        const move = (event) => {
            const way = event.clientX - down.clientX;
            if (Math.abs(way) > 4) this.hasMoved = true;
            if (this.hasMoved) this.show(from.from - way * this.unit(), from.to - way * this.unit());
        };
        const end = () => removeEventListener("pointermove", move);
        addEventListener("pointermove", move);
        addEventListener("pointerup", end, { once: true });
        addEventListener("pointercancel", end, { once: true });
    }

    unit() { return (this.view.to - this.view.from) / Math.max(this.width() - 80, 1); }

    width() { return Math.min(Math.max(this.box.clientWidth, NARROWEST), WIDEST); }

    /* The wheel zooms with the control key, and pans sideways; else the page scrolls. */
    wheel(event) {
        if (!event.ctrlKey && !event.metaKey && !event.shiftKey && !event.deltaX) return;
        event.preventDefault();
        if (event.ctrlKey || event.metaKey) {
            const at = this.view.from + (event.clientX - this.svg.getBoundingClientRect().left - 66) * this.unit();
            this.zoom(event.deltaY > 0 ? 1.25 : 0.8, at);
        } else this.pan((event.deltaX || event.deltaY) * this.unit());
    }

    key(event) {
        const { key } = event, span = this.view.to - this.view.from, frame = this.view.chosen;
        if (event.ctrlKey || event.metaKey || event.altKey) return;
        const acts = {
            "+": () => this.zoom(0.5), "=": () => this.zoom(0.5), "-": () => this.zoom(2), 0: () => this.whole(),
            ArrowLeft: () => event.shiftKey ? this.pan(-span / 8) : this.go(-1), ArrowRight: () => event.shiftKey ? this.pan(span / 8) : this.go(1),
            Home: () => this.take(this.frames[0], false), End: () => this.take(this.frames.at(-1), false),
            Enter: () => this.take(frame ?? this.frames[0], Boolean(frame)), " ": () => this.take(frame ?? this.frames[0], Boolean(frame)),
        };
        if (!acts[key] || !this.frames.length) return;
        event.preventDefault();
        acts[key]();
    }

    go(way) {
        const at = this.frames.indexOf(this.view.chosen), next = Math.min(Math.max(at < 0 ? 0 : at + way, 0), this.frames.length - 1);
        this.take(this.frames[next], false);
    }

    /* Chooses a frame, brings it into view, and gives it the focus. */
    take(frame, isEntered) {
        this.view.chosen = frame;
        const time = this.axis.timeOf(frame), { from, to } = this.view;
        if (time < from || time > to) this.show(time - (to - from) / 2, time + (to - from) / 2);
        this.draw();
        this.svg.querySelector(".chosen")?.focus({ preventScroll: true });
        this.choose(frame, isEntered);
    }

    zoom(factor, at) {
        const { from, to, chosen } = this.view, chosenAt = chosen ? this.axis.timeOf(chosen) : NaN;
        const about = at ?? (chosenAt >= from && chosenAt <= to ? chosenAt : (from + to) / 2);
        this.show(about - (about - from) * factor, about + (to - about) * factor);
    }

    pan(way) { this.show(this.view.from + way, this.view.to + way); }

    whole() { this.show(this.axis.from, this.axis.to); }

    show(from, to) {
        const least = this.axis.from, most = this.axis.to, span = Math.min(Math.max(to - from, CLOSEST), most - least);
        this.view.from = Math.min(Math.max(from, least), most - span);
        this.view.to = this.view.from + span;
        this.ask();
    }

    /* Draws before the browser shows the next picture. */
    ask() {
        this.asked ??= requestAnimationFrame(() => this.draw());
    }

    draw() {
        if (this.asked) cancelAnimationFrame(this.asked);
        this.asked = null;
        if (!this.box.isConnected) return;
        const hadFocus = this.svg.contains(document.activeElement) && document.activeElement !== this.svg, width = this.width();
        const drawing = new Drawing(this.bundle, this.axis, this.view, width);
        this.svg.replaceChildren(...drawing.draw());
        const size = { viewBox: `0 0 ${width} ${drawing.height}`, width, height: drawing.height };
        for (const [key, value] of Object.entries(size)) this.svg.setAttribute(key, value);
        this.told.textContent = drawing.hidden ? `${drawing.hidden} frames stand too near to others to be drawn: zoom in.` : "";
        if (hadFocus) (this.svg.querySelector(".chosen") ?? this.svg).focus({ preventScroll: true });
    }
}
