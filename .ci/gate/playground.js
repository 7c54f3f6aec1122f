// Runs tools/playground.html in node, which has no window: a few stand-ins here hold what the page
// reads and writes. The words are the page's file and its address. Each line on standard input is a
// command with its arguments, as a JSON list, and what it found is printed as a line of JSON.
"use strict";
const fs = require("fs"), http = require("http"), readline = require("readline");
const vm = require("vm");

const html = fs.readFileSync(process.argv[2], "utf8"), address = new URL(process.argv[3]);
const script = /<script>([^]*?)<\/script>/.exec(html)[1];
const storage = new Map();

/** An element: of a `select`, the value is that of an option. */
class Element {
  constructor(tag, value = "") {
    Object.assign(this, {tag, text: "", children: [], listeners: {}, className: "", kept: value});
  }
  append(...inner) { this.children.push(...inner); }
  replaceChildren(...inner) { [this.children, this.text] = [inner, ""]; }
  setAttribute() {}
  remove() {}
  addEventListener(name, listener) { this.listeners[name] = listener; }
  getTotalLength() { return 1; }
  getPointAtLength() { return {x: 0, y: 0}; }
  get textContent() { return this.text + this.children.map(it => it.textContent ?? it).join(""); }
  set textContent(text) { [this.text, this.children] = [`${text}`, []]; }
  get value() {
    if (this.tag !== "select") return this.kept;
    const options = this.children.map(it => it.value);
    return options.includes(this.kept) ? this.kept : options[0] ?? "";
  }
  set value(value) { this.kept = `${value}`; }
}

/** A request as a browser makes it, with the page's origin. */
function fetched(path, {method, headers, body}) {
  return new Promise((done, failed) => {
    const {hostname, port, origin} = address, from = {...headers, Origin: origin};
    const request = http.request({hostname, port, path, method, headers: from}, async answer => {
      let text = "";
      for await (const part of answer) text += part;
      const status = answer.statusCode;
      done({status, ok: status === 200, json: async () => JSON.parse(text)});
    });
    request.on("error", failed);
    request.end(body);
  });
}

/** The page, loaded in a window of its own that has the storage of the one before it. */
class Window {
  constructor() {
    this.ids = {};
    for (const [tag, name, id] of html.matchAll(/<(\w+)[^>]*? id="([^"]+)"[^>]*>/g)) {
      this.ids[id] = new Element(name, /value="([^"]*)"/.exec(tag)?.[1]);
    }
    const buttons = Object.values(this.ids).filter(it => it.tag === "button");
    vm.runInNewContext(script, {
      document: {
        getElementById: id => this.ids[id] ?? (this.ids[id] = new Element("path")),
        createElement: tag => new Element(tag), createElementNS: (_, tag) => new Element(tag),
        querySelectorAll: () => buttons,
      },
      sessionStorage: {
        getItem: name => storage.get(name) ?? null, clear: () => storage.clear(),
        setItem: (name, value) => storage.set(name, value),
      },
      location: {search: address.search}, addEventListener() {}, fetch: fetched,
      requestAnimationFrame: step => setTimeout(step, 1, Infinity), performance: {now: () => 0},
      crypto, setTimeout, URLSearchParams,
    });
  }

  /** Waits until the page has done what it was asked for. */
  async rest() {
    do await new Promise(done => setTimeout(done, 5));
    while (this.ids.load.disabled !== false);
  }

  async press(name) {
    this.ids[name].listeners.click();
    await this.rest();
  }

  text(id) { return this.ids[id].textContent; }
  value(id) { return this.ids[id].value; }
  set(id, value) { this.ids[id].value = value; }

  /** The rows of the fields that are marked as changed. */
  changed() {
    return this.ids.fields.children.filter(it => it.className === "changed")
      .map(it => it.textContent);
  }
}

async function obey() {
  let page;
  for await (const line of readline.createInterface({input: process.stdin})) {
    const [name, ...given] = JSON.parse(line);
    if (name === "load") page = new Window();
    const found = name === "load" ? await page.rest() : await page[name](...given);
    console.log(JSON.stringify(found ?? null));
  }
}

obey();
