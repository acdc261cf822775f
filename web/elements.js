// Elements of the page. Text is only ever set as text.
"use strict";

/**
 * The element with an identifier.
 * @template {HTMLElement} T
 * @param {string} id
 * @returns {T}
 */
function byId(id) {
    const found = document.getElementById(id);
    if (!found) throw new Error(`there is no element ${id}`);
    return /** @type {any} */ (found);
}

/**
 * A new element with attributes and children. Texts become text.
 * @param {string} name
 * @param {Record<string, string>} attributes
 * @param {(Node | string)[]} children
 * @returns {HTMLElement}
 */
function element(name, attributes, ...children) {
    const made = document.createElement(name);
    for (const [attribute, value] of Object.entries(attributes)) made.setAttribute(attribute, value);
    made.append(...children);
    return made;
}

/**
 * A table with a caption for screen readers. Each row's first cell is its header.
 * @param {string} caption
 * @param {string[]} columns
 * @param {(Node | string)[][]} rows
 */
function table(caption, columns, rows) {
    const head = element("tr", {}, ...columns.map((it) => element("th", { scope: "col" }, it)));
    const body = rows.map(([first, ...others]) =>
        element(
            "tr",
            {},
            element("th", { scope: "row" }, first),
            ...others.map((it, index) => element("td", { "data-column": columns[index + 1] }, it)),
        ),
    );
    return element(
        "table",
        {},
        element("caption", { class: "unseen" }, caption),
        element("thead", {}, head),
        element("tbody", {}, ...body),
    );
}

/** @param {string} text */
const code = (text) => element("code", {}, text);
