"use strict";
// What the tests of the page's scripts in node share: a document that is no browser's, and a worker that answers what a test says, when it
// says so. The scripts are those of the page, in its order.
const fs = require("node:fs");
const path = require("node:path");
const vm = require("node:vm");
const { pathToFileURL } = require("node:url");

const FOLDER = path.dirname(__dirname);

function text_of(name) {
    return fs.readFileSync(path.join(FOLDER, name), "utf8");
}

// Runs scripts of the page, each by its own name, so that node counts which branches of it are taken.
function run_scripts(context, ...names) {
    for (const name of names) vm.runInContext(text_of(name), context, { filename: pathToFileURL(path.join(FOLDER, name)).href });
}

// An element, as far as the page's script looks at one.
class Element {
    constructor(name, document) {
        Object.assign(this, { name, document, textContent: "", value: "", children: [], attributes: {}, style: {}, dataset: {}, hidden: false });
        Object.assign(this, { disabled: false, tabIndex: 0, clientWidth: 400, isConnected: false, seen: 0, classes: new Set() });
        this.classList = { add: (it) => this.classes.add(it), remove: (it) => this.classes.delete(it) };
    }
    get tHead() { return (this.head ??= new Element("thead", this.document)); }
    get tBodies() { return (this.bodies ??= [new Element("tbody", this.document)]); }
    get id() { return this.attributes.id ?? this.name; }
    append(...children) { this.children.push(...children); }
    replaceChildren(...children) { this.children = children; }
    setAttribute(key, value) { this.attributes[key] = String(value); }
    getAttribute(key) { return this.attributes[key] ?? null; }
    // The one of a class among all that is in it.
    querySelector(wanted) { return inside(this).find((it) => `.${it.attributes.class}` === wanted) ?? null; }
    scrollIntoView() { this.seen++; }
    focus() { this.document.activeElement = this; }
    after(other) { Object.assign(other, { isConnected: true }); this.next = other; }
    remove() { this.is_removed = true; }
}

// The elements in one, at any depth.
function inside(element) {
    const children = [...(element.bodies ?? []), ...element.children].filter((it) => it instanceof Element);
    return children.flatMap((it) => [it, ...inside(it)]);
}

// All words of an element and of those in it.
function words_in(element) {
    return element.textContent + element.children.map((it) => (it instanceof Element ? words_in(it) : it)).join("");
}

// The page: `script` runs in it, and `asked` has what it asks of the worker and what awaits an answer.
function made_page() {
    const elements = new Map();
    const document = { getElementById: (id) => by_id(id), createElement: (name) => new Element(name, document), title: "", activeElement: null };
    document.body = document.createElement("body");
    const by_id = (id) => elements.get(id) ?? elements.set(id, document.createElement(id)).get(id);
    const asked = [];
    class Worker {
        constructor() { context.worker_of_page = this; }
        postMessage(message) { "ask" in message ? asked.push(message) : (context.given = message); }
    }
    const window = { innerWidth: 1200 };
    const context = vm.createContext({ document, window, Worker, URL: { createObjectURL: () => "" }, Blob: class {}, atob, TextDecoder, console,
        setTimeout, clearTimeout, RELOCATION_TYPES: {}, RULES: {}, LAYOUT: {}, MODULE: "AGFzbQ==" });
    const script = (text) => vm.runInContext(text, context);
    run_scripts(context, "names.js", "declared.js", "words.js", "refused.js", "draw.js");
    // Answers the question that was asked first, and lets the page go on.
    const answer = async (value) => {
        const { id } = asked.shift();
        context.worker_of_page.onmessage({ data: { id, value } });
        await settled();
    };
    // The same by an error of the worker; and what it says of a file that it reads.
    const fail = async (fault) => {
        const { id } = asked.shift();
        context.worker_of_page.onmessage({ data: { id, fault } });
        await settled();
    };
    const progress = (part) => context.worker_of_page.onmessage({ data: { progress: part } });
    // Answers all questions, those that the answers lead to as well, each by the function of its name.
    const answer_all = async (answers) => {
        await settled();
        while (asked.length) {
            const [{ ask, words }] = asked;
            await answer(answers[ask](...words));
        }
    };
    const labels = (id) => by_id(id).children.map((it) => it.getAttribute("aria-label"));
    return { script, asked, answer, answer_all, fail, progress, by_id, labels, window, document };
}

// What was begun has gone on as far as it can without an answer.
function settled() {
    return new Promise((go_on) => setImmediate(go_on));
}

// The scripts of the worker, whose functions a test calls, and what it posts.
function made_worker(...names) {
    const memory = new WebAssembly.Memory({ initial: 1 });
    const layout = Object.fromEntries(["fault", "file", "table", "extent"].map((it) => [`elfmap_${it}`, { size: 64, fields: [] }]));
    // The fields of a section header, of 4 and of 8 bytes each (gABI, chapter 4).
    const fields = [["sh_name", 4], ["sh_type", 4], ["sh_flags", 8], ["sh_addr", 8], ["sh_offset", 8], ["sh_size", 8], ["sh_link", 4], ["sh_info", 4],
        ["sh_addralign", 8], ["sh_entsize", 8]];
    let at = 0;
    layout.elfmap_section = { size: 64, fields: fields.map(([name, width]) => ({ name, width, at: (at += width) - width })) };
    // A module of memory, and no calls.
    const module = { compile: (code) => ({ code }), instantiate: async (module) => ({ module, exports: { memory, __heap_base: { value: 1024 } } }) };
    const posted = [];
    const context = vm.createContext({ TextDecoder, performance, setTimeout, console, LAYOUT: layout,
        RELOCATION_TYPES: { 62: { 4: "PLT32" } }, WebAssembly: module, postMessage: (it) => posted.push(it) });
    run_scripts(context, "names.js", "declared.js", "words.js", "reader.js", "tables.js", "archive.js", "parts.js", "worker.js");
    return { ...vm.runInContext(`({ ${names.join(", ")} })`, context), posted };
}

module.exports = { inside, made_page, made_worker, run_scripts, settled, text_of, words_in };
