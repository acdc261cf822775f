// The bytes of a message, coloured by part. The mouse or the focus on a part shows its name, its range and its meaning.
"use strict";

/** Parts longer than this are shown by their first and last bytes. */
const LONGEST_SHOWN = 1024;
const KEPT_AT_ENDS = 256;
/** The rows have so many bytes, on wide and on narrow screens: both divide what is left out. */
const ROWS = [16, 8];

/**
 * What of a part is shown: ranges of bytes, between which bytes are left out.
 * @param {Part} part
 * @param {number | undefined} marked a place that has to be shown
 * @returns {{from: number, to: number}[]}
 */
function shownRanges({ from, to }, marked) {
    if (to - from <= LONGEST_SHOWN) return [{ from, to }];
    const ends = [
        { from, to: Math.ceil((from + KEPT_AT_ENDS) / ROWS[0]) * ROWS[0] },
        { from: Math.floor((to - KEPT_AT_ENDS) / ROWS[0]) * ROWS[0], to },
    ];
    if (marked === undefined || marked < ends[0].to || marked >= ends[1].from) return ends;
    const start = Math.max(ends[0].to, (Math.floor(marked / ROWS[0]) - 1) * ROWS[0]);
    const end = Math.min(ends[1].from, start + 3 * ROWS[0]);
    return [ends[0], { from: start, to: end }, ends[1]].filter((it) => it.to > it.from);
}

/** @param {number} place */
const placeText = (place) => place.toString(16).padStart(4, "0");

/** The view of a message's bytes. */
class BytesView {
    /**
     * @param {HTMLElement} host
     * @param {Uint8Array} message
     * @param {Picture} picture
     * @param {{place: number, what: string} | undefined} fault the place that is marked, and what is at fault there
     */
    constructor(host, message, picture, fault) {
        this.message = message;
        this.parts = picture.parts;
        this.fault = fault;
        this.current = Math.max(0, this.indexAt(fault?.place ?? 0));
        const isOneKind = new Set(this.parts.map((it) => it.group));
        const list = this.list();
        this.detail = element("div", { class: "detail", id: "detail", "data-group": "rest" });
        host.replaceChildren(
            legend(isOneKind, Boolean(fault)),
            element("div", { class: "dump" }, ...ROWS.map((width) => this.gutter(width)), list),
            this.detail,
        );
        this.show(this.current);
    }

    /**
     * The part of a place; the last one for the end of the bytes.
     * @param {number} place
     */
    indexAt(place) {
        const index = this.parts.findIndex((it) => it.from <= place && place < it.to);
        return index < 0 ? this.parts.length - 1 : index;
    }

    /**
     * The places of the rows.
     * @param {number} width
     */
    gutter(width) {
        const rows = new Set();
        let [gaps, last] = [0, 0];
        for (const part of this.parts) {
            for (const { from, to } of shownRanges(part, this.fault?.place)) {
                if (from > last) rows.add(`gap ${(gaps += 1)}`);
                for (let at = Math.floor(from / width) * width; at < to; at += width) rows.add(placeText(at));
                last = to;
            }
        }
        if (this.fault?.place === this.message.length && this.message.length % width === 0) rows.add(placeText(this.message.length));
        const lines = [...rows].map((it) => (it.startsWith("gap") ? "⋮" : it));
        return element("div", { class: `gutter rows${width}`, "aria-hidden": "true" }, lines.join("\n"));
    }

    list() {
        const list = element("div", { class: "bytes", role: "listbox", "aria-label": "The bytes by part", "aria-describedby": "detail" });
        this.options = this.parts.map((part, index) => this.option(part, index));
        list.append(...this.options);
        if (this.fault?.place === this.message.length) list.append(element("span", { class: "byte end fault", title: "the end of the bytes" }, "end"));
        list.addEventListener("keydown", (event) => this.onKey(event));
        list.addEventListener("pointerover", (event) => this.onPointer(event));
        list.addEventListener("pointerleave", () => this.show(this.current));
        list.addEventListener("focusin", (event) => this.onFocus(event));
        list.addEventListener("click", (event) => this.onPointer(event));
        return list;
    }

    /**
     * @param {Part} part
     * @param {number} index
     */
    option(part, index) {
        const attributes = { role: "option", class: "part", "data-index": String(index), "data-group": part.group, tabindex: "-1" };
        const option = element("span", { ...attributes, "aria-label": this.label(part), "aria-selected": "false" });
        let last = part.from;
        for (const { from, to } of shownRanges(part, this.fault?.place)) {
            if (from > last) option.append(element("span", { class: "gap" }, `${bytesCount(from - last)} more`));
            for (let at = from; at < to; at += 1) option.append(this.byte(at));
            last = to;
        }
        return option;
    }

    /** @param {number} at */
    byte(at) {
        const isFault = this.fault?.place === at;
        return element("span", isFault ? { class: "byte fault" } : { class: "byte" }, hexOf(this.message.subarray(at, at + 1)));
    }

    /** @param {Part} part */
    label(part) {
        const isAtFault = this.fault && part.from <= this.fault.place && this.fault.place < part.to;
        const mark = isAtFault ? `. Refused at byte ${this.fault?.place}: ${this.fault?.what}` : "";
        return `${part.name}, ${rangeText(part)}${part.value ? `, ${part.value.slice(0, 100)}` : ""}${part.note ? `, ${part.note}` : ""}. ${part.meaning}${mark}`;
    }

    /** @param {Event} event */
    indexOf({ target }) {
        const option = target instanceof Element ? target.closest("[data-index]") : null;
        return option instanceof HTMLElement ? Number(option.dataset.index) : undefined;
    }

    /** @param {Event} event */
    onPointer(event) {
        const index = this.indexOf(event);
        if (index === undefined) return;
        this.show(index);
        if (event.type === "click") this.options?.[index].focus();
    }

    /** @param {Event} event */
    onFocus(event) {
        this.current = this.indexOf(event) ?? this.current;
        this.show(this.current);
    }

    /** @param {KeyboardEvent} event */
    onKey(event) {
        const last = this.parts.length - 1;
        const steps = new Map([
            ["ArrowRight", this.current + 1],
            ["ArrowDown", this.current + 1],
            ["ArrowLeft", this.current - 1],
            ["ArrowUp", this.current - 1],
            ["Home", 0],
            ["End", last],
        ]);
        const next = steps.get(event.key);
        if (next === undefined) return;
        event.preventDefault();
        this.options?.[Math.min(last, Math.max(0, next))].focus();
    }

    /**
     * Shows what a part is.
     * @param {number} index
     */
    show(index) {
        const part = this.parts[index];
        if (!part) return;
        this.options?.forEach((it, at) => {
            it.setAttribute("aria-selected", String(at === index));
            it.tabIndex = at === this.current ? 0 : -1;
        });
        this.detail.dataset.group = part.group;
        this.detail.replaceChildren(
            element("p", { class: "name" }, part.name),
            element("p", { class: "range" }, `${rangeText(part)}, ${bytesCount(part.to - part.from)}, phase ${part.phase}`),
            ...(part.value ? [element("p", { class: "value" }, code(part.value), ...(part.note ? [` ${part.note}`] : []))] : []),
            element("p", {}, part.meaning),
            ...this.faultLine(part),
        );
    }

    /** @param {Part} part */
    faultLine(part) {
        const place = this.fault?.place;
        const isEnd = place === this.message.length && part === this.parts.at(-1);
        if (place === undefined || !(isEnd || (part.from <= place && place < part.to))) return [];
        return [element("p", { class: "fault" }, `Refused at byte ${place}: ${this.fault?.what}`)];
    }
}

/** @param {Part} part */
const rangeText = ({ from, to }) => (to - from === 1 ? `byte ${from}` : `bytes ${from} to ${to - 1}`);

const GROUP_NAMES = new Map([
    ["tag", "tags"],
    ["array", "array"],
    ["protected", "protected header"],
    ["unprotected", "unprotected header"],
    ["payload", "payload"],
    ["auth", "tag or signature"],
    ["rest", "no part"],
]);

/**
 * @param {Set<string>} groups
 * @param {boolean} isFaulty
 */
function legend(groups, isFaulty) {
    const items = [...GROUP_NAMES].filter(([group]) => groups.has(group));
    const keys = items.map(([group, name]) => element("li", { "data-group": group }, name));
    const fault = isFaulty ? [element("li", { class: "fault" }, "refused here")] : [];
    return element("ul", { class: "legend", "aria-label": "Colours" }, ...keys, ...fault);
}
