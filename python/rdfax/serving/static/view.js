"use strict";
// What a page says, beside its source: the same for the page that is served and for a report.
// Nothing of a page becomes markup: all is put in as text, or as an attribute that isn't run.

const rdfax = {};

(() => {
  const SVG = "http://www.w3.org/2000/svg";
  const ROWS = 100;
  // After a change of a longer page its places are asked for once nothing more was changed for a while.
  const LONG = 50_000;
  const QUIET = 300;
  const TABS = [
    ["triples", "Triples"],
    ["turtle", "Turtle"],
    ["nested", "Nested Turtle"],
    ["jsonld", "JSON-LD"],
    ["nquads", "N-Quads"],
    ["items", "Items"],
    ["graph", "Graph"],
    ["statistics", "Statistics"],
  ];
  const FILES = { turtle: "ttl", nested: "ttl", jsonld: "jsonld", nquads: "nq", items: "json" };
  const DRAWN = new Set(["svg", "g", "polygon", "polyline", "ellipse", "path", "text"]);
  const DRAWN_BY = new Set(
    "id class viewBox transform points cx cy rx ry d x y text-anchor font-size".split(" "),
  );

  // An element with its attributes and children; a text is put in as text.
  function make(name, attributes = {}, ...children) {
    const made = document.createElement(name);
    for (const [key, value] of Object.entries(attributes)) {
      if (key.startsWith("on")) made.addEventListener(key.slice(2), value);
      else if (value === true) made.setAttribute(key, "");
      else if (value !== false && value !== null && value !== undefined) made.setAttribute(key, value);
    }
    made.append(...children.filter((child) => child !== null));
    return made;
  }

  function button(label, act, attributes = {}) {
    return make("button", { type: "button", onclick: act, ...attributes }, label);
  }

  function download(name, content) {
    const link = make("a", { href: URL.createObjectURL(new Blob([content])), download: name });
    link.click();
    setTimeout(() => URL.revokeObjectURL(link.href), 10_000);
  }

  async function copy(text) {
    try {
      await navigator.clipboard.writeText(text);
    } catch {
      const held = make("textarea", { "aria-hidden": "true" });
      held.value = text;
      document.body.append(held);
      held.select();
      document.execCommand("copy");
      held.remove();
    }
  }

  function shortened(iri, prefixes) {
    let best = null;
    for (const [name, start] of Object.entries(prefixes)) {
      if (iri.startsWith(start) && (best === null || start.length > prefixes[best].length)) best = name;
    }
    return best === null || iri === prefixes[best] ? iri : `${best}:${iri.slice(prefixes[best].length)}`;
  }

  function termElement(term, prefixes) {
    if ("iri" in term) return make("span", { class: "iri", title: term.iri }, shortened(term.iri, prefixes));
    if ("blank" in term) return make("span", { class: "blank" }, `_:${term.blank}`);
    const kind = term.language ? ` @${term.language}` : term.datatype ? ` ${shortened(term.datatype, prefixes)}` : "";
    return make("span", { class: "literal" }, `\u201c${term.text}\u201d`, make("span", { class: "faint" }, kind));
  }

  // A sentence in which code stands between backquotes.
  function sentence(text) {
    return text.split("`").map((piece, at) => (at % 2 ? make("code", {}, piece) : piece));
  }

  function count(number, noun) {
    return `${number.toLocaleString("en")} ${noun}${number === 1 ? "" : "s"}`;
  }

  // The editor, with what is marked in it.
  class Source {
    constructor(holder, readOnly, moved) {
      this.holder = holder;
      this.editor = CodeMirror(holder, {
        lineNumbers: true,
        lineWrapping: true,
        mode: { name: "xml", htmlMode: true },
        readOnly,
        screenReaderLabel: "Source of the page",
        extraKeys: { Tab: false, "Shift-Tab": false },
      });
      this.marks = [];
      this.quiet = false;
      this.editor.on("cursorActivity", () => {
        if (!this.quiet) moved(this.editor.getCursor());
      });
    }

    mark(from, to, name) {
      const [start, end] = [{ line: from[0], ch: from[1] }, { line: to[0], ch: to[1] }];
      this.marks.push(this.editor.markText(start, end, { className: name }));
    }

    note(at, words) {
      const widget = make("span", { class: "fault decides" }, words);
      this.marks.push(this.editor.setBookmark({ line: at[0], ch: at[1] }, { widget }));
    }

    clear() {
      for (const mark of this.marks) mark.clear();
      this.marks = [];
    }

    show(from, focused = false) {
      const place = { line: from[0], ch: from[1] };
      this.quiet = true;
      this.editor.setCursor(place, undefined, { scroll: false });
      this.quiet = false;
      this.editor.scrollIntoView(place, 80);
      if (focused) this.editor.focus();
    }
  }

  // The source at the left, the tabs at the right. `provider.ask(view, most)` answers what is told of
  // the page, of its triples the first ones; `provider.whole()`, where it is there, all triples that are shown.
  class Workbench {
    constructor(root, provider, { readOnly = false } = {}) {
      this.provider = provider;
      this.tab = "triples";
      this.told = null;
      this.origins = null;
      this.chosen = null;
      this.rows = [];
      this.ticket = 0;
      this.build(root);
      this.source = new Source(this.holder, readOnly, (cursor) => this.chooseAt(cursor));
    }

    build(root) {
      this.holder = make("div", { class: "source", role: "region", "aria-label": "Source" });
      this.refusal = make("div", { class: "refusal", role: "alert", hidden: true });
      this.copyNote = make("div", { class: "copy", role: "note", hidden: true });
      this.tabs = make("div", { role: "tablist", "aria-label": "What the page says" });
      this.tabs.append(...TABS.map(([name, label]) => this.tabButton(name, label)));
      this.tabs.addEventListener("keydown", (event) => this.tabKeys(event));
      this.panel = make("div", { role: "tabpanel", id: "panel", tabindex: "0" });
      this.status = make("div", { class: "status", role: "status", "aria-live": "polite" });
      root.append(
        make("section", { class: "pane", "aria-label": "Source of the page" }, this.holder),
        make("section", { class: "pane", "aria-label": "What it says" }, this.refusal, this.copyNote, this.tabs, this.panel, this.status),
      );
      this.selectTab(this.tab);
    }

    tabButton(name, label) {
      return button(label, () => this.open(name), { role: "tab", id: `tab-${name}`, "aria-controls": "panel", "data-tab": name });
    }

    tabKeys(event) {
      const names = TABS.map(([name]) => name);
      const at = names.indexOf(this.tab);
      const to = { ArrowRight: at + 1, ArrowLeft: at - 1, Home: 0, End: names.length - 1 }[event.key];
      if (to === undefined) return;
      event.preventDefault();
      this.open(names[(to + names.length) % names.length]);
      document.getElementById(`tab-${this.tab}`).focus();
    }

    selectTab(name) {
      this.tab = name;
      for (const tab of this.tabs.children) {
        const selected = tab.dataset.tab === name;
        tab.setAttribute("aria-selected", String(selected));
        tab.tabIndex = selected ? 0 : -1;
      }
      this.panel.setAttribute("aria-labelledby", `tab-${name}`);
    }

    selectKnown(name) {
      if (TABS.some(([known]) => known === name)) this.selectTab(name);
    }

    open(name) {
      this.selectTab(name);
      this.provider.opened?.(name);
      this.refresh();
    }

    // Asks anew, and shows what comes, unless something newer was asked meanwhile.
    async refresh() {
      const ticket = ++this.ticket;
      this.busy(true);
      this.source.clear();
      this.chosen = null;
      this.origins = null;
      if (this.provider.isEmpty?.()) return this.showEmpty();
      const view = this.tab === "statistics" ? "triples" : this.tab;
      const told = await this.provider.ask(view, ROWS);
      if (ticket !== this.ticket || told === null) return;
      this.told = told;
      this.show(view);
      this.showAwaited();
      this.busy(false);
      if (told.bytes > LONG && this.provider.isEmpty) await new Promise((done) => setTimeout(done, QUIET));
      if (ticket !== this.ticket) return;
      const places = "count" in told || told.items?.length ? await this.provider.places() : {};
      if (ticket !== this.ticket || places === null) return;
      this.showPlaces(places);
      this.panel.dataset.placed = "true";
    }

    // A place of the source that was asked for before the source was there.
    showAwaited() {
      if (!this.awaited) return;
      const [from, to] = this.awaited;
      this.awaited = null;
      this.source.clear();
      this.source.mark(from, to, "said");
      this.source.show(from, true);
    }

    busy(on) {
      this.panel.setAttribute("aria-busy", String(on));
      if (on) delete this.panel.dataset.placed;
    }

    showEmpty() {
      this.busy(false);
      this.refusal.hidden = this.copyNote.hidden = true;
      this.status.textContent = "";
      this.panel.replaceChildren(
        make(
          "div",
          { class: "empty" },
          make("h2", {}, "What does a page say?"),
          make(
            "ul",
            {},
            make("li", {}, "Paste or write HTML into the source, or drop a file on it."),
            make("li", {}, "Or choose an example, or fetch a page from its address."),
            make("li", {}, "Here is shown what the page says in RDFa and Microdata, as you write."),
            make("li", {}, "A page that isn't one by the grammar is refused, and its first fault is marked."),
          ),
          make("p", {}, make("kbd", {}, "Ctrl"), " ", make("kbd", {}, "Enter"), " in the source goes to the results, ", make("kbd", {}, "Esc"), " goes back."),
        ),
      );
    }

    show(view) {
      const told = this.told;
      this.refusal.hidden = true;
      this.copyNote.hidden = !this.provider.note?.();
      if (!this.copyNote.hidden) this.copyNote.replaceChildren(...this.provider.note());
      const problem = told.failed || told.wrong;
      if (problem) return this.showProblem(problem);
      if (told.refused) return this.showRefusal(told.refused);
      const shows = { triples: () => this.showTriples(), items: () => this.showItems(), graph: () => this.showGraph() };
      if (this.tab === "statistics") this.showStatistics(null);
      else (shows[view] ?? (() => this.showText(view)))();
      const said = "count" in told ? `${count(told.count, "triple")}, ` : "";
      this.status.textContent = `${said}${count(told.bytes, "byte")}, ${view === "graph" ? "drawn" : "read"} in ${told.milliseconds} ms`;
    }

    showProblem(problem) {
      this.status.textContent = "";
      this.panel.replaceChildren(make("p", {}, problem));
    }

    showRefusal(fault) {
      const head = `Refused: ${fault.kind} in line ${fault.line}, column ${fault.column}`;
      const where = `The token begins at byte ${fault.token}; byte ${fault.at} decides.`;
      this.refusal.replaceChildren(
        make("h2", {}, head),
        ...(fault.wrong.toLowerCase() === `${fault.told}.`.toLowerCase() ? [] : [make("p", {}, make("code", {}, `${fault.told}.`))]),
        make("p", {}, fault.wrong),
        make("p", {}, make("strong", {}, "How it is mended: "), ...sentence(fault.mended)),
        make(
          "div",
          { class: "tools" },
          button("Show it in the source", () => this.source.show(fault.start, true)),
          this.provider.mend ? button("What a browser's reading gives", () => this.provider.mend()) : null,
        ),
        make("p", { class: "faint" }, where),
      );
      this.refusal.hidden = false;
      this.status.textContent = head;
      const what = this.tab === "items" ? "items" : "triples";
      this.panel.replaceChildren(make("p", {}, `A refused page has no ${what}: nothing is guessed.`));
      this.markFault(fault);
    }

    // The token from its first byte to the one that decides, and the place behind the last where the page ends too early.
    markFault(fault) {
      const same = fault.start[0] === fault.end[0] && fault.start[1] === fault.end[1];
      if (same || fault.at >= this.told.bytes) this.source.note(fault.end, "\u25c2 the page ends here");
      if (!same) {
        this.source.mark(fault.start, fault.end, "fault");
        if (fault.at < this.told.bytes) this.source.mark([fault.end[0], Math.max(0, fault.end[1] - 1)], fault.end, "decides");
      }
      this.source.show(fault.start);
    }

    tools(view) {
      return make(
        "div",
        { class: "tools" },
        button("Copy", async () => this.said(copy(await this.provider.text(view)), "Copied.")),
        button("Download", async () => download(`${this.provider.name?.() ?? "page"}.${FILES[view]}`, await this.provider.text(view))),
      );
    }

    async said(work, words) {
      await work;
      this.status.textContent = words;
    }

    showText(view) {
      const { text, characters } = this.told;
      const cut = characters > text.length ? make("p", {}, `The first ${text.length.toLocaleString("en")} of ${characters.toLocaleString("en")} characters; the download has all.`) : null;
      this.panel.replaceChildren(this.tools(view), ...(cut ? [cut] : []), make("pre", { tabindex: "0", "aria-label": "The text" }, text || "The page has no triples."));
    }

    showTriples() {
      const { triples, shown: most, count: all } = this.told;
      this.rows = [];
      if (!triples.length) return this.panel.replaceChildren(make("p", {}, "The page has no triples. Look at the items, too: Microdata is shown there."));
      this.body = make("tbody", { onkeydown: (event) => this.rowKeys(event) });
      const shown = all > most ? `The first ${most.toLocaleString("en")} of ${count(all, "triple")}` : count(all, "triple");
      const heads = ["Place", "Subject", "Predicate", "Object"].map((name) => make("th", { scope: "col", class: name.toLowerCase() }, name));
      const table = make("table", { role: "grid" }, make("caption", {}, `${shown}. Choose a row to see where it is said.`), make("thead", {}, make("tr", {}, ...heads)), this.body);
      this.origin = make("div", { class: "origin", "aria-live": "polite", hidden: true });
      this.panel.replaceChildren(this.tools("nquads"), table, this.origin);
      this.addRows(ROWS);
    }

    // The triples that are shown beyond the first ones, once they are wanted. Whether they are there.
    async hasAll() {
      const told = this.told;
      if (told.triples.length < told.shown && this.provider.whole) {
        const whole = await this.provider.whole();
        if (whole?.triples && this.told === told) told.triples = whole.triples;
      }
      return this.told === told && Boolean(told.triples);
    }

    async addAllRows(to) {
      if (await this.hasAll()) this.addRows(to);
    }

    addRows(to) {
      const { triples, prefixes, shown } = this.told;
      for (const [number, triple] of triples.slice(0, to).entries()) {
        if (number < this.rows.length) continue;
        const cells = triple.map((term) => make("td", {}, termElement(term, prefixes)));
        const row = make("tr", { tabindex: number ? "-1" : "0", "data-row": number, "aria-selected": "false" }, make("td", { class: "place" }, this.placeOf(number)), ...cells);
        row.addEventListener("click", () => this.choose(number));
        this.rows.push(row);
      }
      const more = shown > to ? [make("tr", {}, make("td", { colspan: "4" }, button(`Show all ${shown.toLocaleString("en")}`, () => this.addAllRows(shown))))] : [];
      this.body.replaceChildren(...this.rows, ...more);
    }

    rowKeys(event) {
      const row = event.target.closest("[data-row]");
      if (!row) return;
      const at = Number(row.dataset.row);
      const to = { ArrowDown: at + 1, ArrowUp: at - 1, Home: 0, End: this.rows.length - 1, Enter: at, " ": at }[event.key];
      if (to === undefined || !this.rows[to]) return;
      event.preventDefault();
      this.choose(to, true);
      if (event.key === "Enter") this.source.editor.focus();
    }

    placeOf(number) {
      const origin = this.origins?.origins[number];
      if (!origin) return "";
      const span = this.origins.spans[origin.span];
      return `${span[2] + 1}:${span[3] + 1}`;
    }

    showPlaces(places) {
      this.places = places;
      if (this.tab === "items" && places.items) return this.showItems(places);
      this.origins = places.origins?.length ? places : null;
      if (!("count" in this.told)) return;
      if (this.tab === "statistics") return this.showStatistics(places);
      if (places.none && this.tab === "triples") {
        this.panel.prepend(make("p", { role: "note" }, places.none));
      }
      if (this.tab === "triples") for (const [number, row] of this.rows.entries()) row.cells[0].textContent = this.placeOf(number);
    }

    // A triple: its row, its element and what it was made by, marked.
    choose(number, focused = false) {
      this.chosen = number;
      for (const row of this.rows) {
        const chosen = Number(row.dataset.row) === number;
        row.setAttribute("aria-selected", String(chosen));
        row.tabIndex = chosen ? 0 : -1;
      }
      if (focused) this.rows[number]?.focus();
      this.markOrigin(number, true);
    }

    markOrigin(number, scrolled) {
      const origin = this.origins?.origins[number];
      this.source.clear();
      if (!origin) return;
      const { spans } = this.origins;
      const span = spans[origin.span];
      this.source.mark(span.slice(2, 4), span.slice(4, 6), "said");
      for (const term of origin.terms) {
        const declared = term?.name?.declared ?? null;
        if (declared !== null) this.source.mark(spans[declared].slice(2, 4), spans[declared].slice(4, 6), "named");
      }
      if (scrolled) this.source.show(span.slice(2, 4));
      if (this.tab === "triples") this.showOrigin(origin);
    }

    showOrigin(origin) {
      const roles = ["Subject", "Predicate", "Object", "Datatype"];
      const rows = origin.terms.flatMap((term, at) => (term ? [make("dt", {}, roles[at]), make("dd", {}, ...this.howOf(term))] : []));
      const list = make("dl", {}, make("dt", {}, "Element"), make("dd", {}, make("code", {}, `<${origin.element}>`), " ", this.jump(origin.span)), ...rows);
      const copyOf = this.provider.original?.(this.origins.spans[origin.span][0]);
      if (copyOf) list.append(make("dt", {}, "In the original"), make("dd", {}, this.leap(copyOf)));
      if (origin.copied !== null) list.append(make("dt", {}, "Copied"), make("dd", {}, "from a pattern, as ", this.jump(origin.copied), " asks"));
      this.origin.replaceChildren(
        make("h2", {}, "Where it comes from"),
        list,
        make("p", { class: "faint" }, "By a second reading of the page, in Python, which agrees with the library on all of its triples."),
      );
      this.origin.hidden = false;
    }

    howOf(term) {
      const parts = [term.says];
      if (term.span !== null) parts.push(" ", this.jump(term.span));
      if (term.name) parts.push(...this.nameOf(term.name));
      return parts;
    }

    nameOf(name) {
      const means = name.iri === null ? [] : [", which is ", make("span", { class: "iri" }, name.iri)];
      const from = name.declared === null ? [", of the standard context"] : [", declared in ", this.jump(name.declared)];
      if (name.by === "prefix") return name.word ? [`; prefix ${name.word}`, ...means, ...from] : ["; the empty prefix", ...means];
      if (name.by === "vocabulary") return ["; the default vocabulary", ...means, ...from];
      return [`; term ${name.word}, of the standard context`];
    }

    jump(number) {
      const span = this.origins.spans[number];
      const act = () => this.source.show(span.slice(2, 4), true);
      return button(`${span[2] + 1}:${span[3] + 1}`, act, { class: "jump", title: `Bytes ${span[0]} to ${span[1] - 1}`, "aria-label": `Go to line ${span[2] + 1}, column ${span[3] + 1}` });
    }

    // From a mended copy to the page that was mended, at this place.
    leap([, line, ch, endLine, endCh]) {
      const act = () => {
        this.awaited = [[line, ch], [endLine, endCh]];
        this.provider.unmend();
      };
      return button(`${line + 1}:${ch + 1}`, act, { class: "jump original", "aria-label": `Go back to the page, to line ${line + 1}, column ${ch + 1}` });
    }

    // The other way: the triples that are said where the cursor stands.
    async chooseAt(cursor) {
      if (!this.origins || this.told?.refused) return;
      const { origins, spans } = this.origins;
      const before = (span) => span[2] < cursor.line || (span[2] === cursor.line && span[3] <= cursor.ch);
      let best = -1;
      for (const [number, origin] of origins.entries()) {
        const span = spans[origin.span];
        if (before(span) && (best < 0 || span[0] > spans[origins[best].span][0])) best = number;
      }
      if (best < 0 || !this.reaches(spans[origins[best].span], cursor)) return;
      if (this.tab === "triples" && best >= this.rows.length) await this.addAllRows(best + 1);
      if (this.origins?.origins !== origins) return;
      this.markOrigin(best, false);
      this.markRows(origins, origins[best].span);
    }

    // Nothing but text stands between the tag and the cursor.
    reaches(span, cursor) {
      const end = { line: span[4], ch: span[5] };
      if (CodeMirror.cmpPos(cursor, end) <= 0) return true;
      return cursor.line - end.line < 200 && !this.source.editor.getRange(end, cursor).includes("<");
    }

    markRows(origins, span) {
      let first = true;
      for (const row of this.rows) {
        const number = Number(row.dataset.row);
        const chosen = origins[number]?.span === span;
        row.setAttribute("aria-selected", String(chosen));
        if (chosen && first && this.tab === "triples") row.scrollIntoView({ block: "nearest" });
        first = first && !chosen;
      }
      if (this.tab === "graph") this.markEdges(origins, span);
    }

    // Once their places are known, each item leads to its start tag.
    showItems(places = null) {
      const items = this.told.items ?? [];
      const placed = (at) => (places ? [places.items[at], places.spans] : []);
      const list = items.length ? make("ul", {}, ...items.map((item, at) => make("li", {}, this.itemElement(item, ...placed(at))))) : make("p", {}, "The page has no items.");
      this.panel.replaceChildren(this.tools("items"), make("div", { class: "items" }, list));
    }

    itemElement(item, place = null, spans = null) {
      const name = (item.type ?? []).join(" ") || "an item";
      const inner = (key, at) => (place ? [place.properties[key][at], spans] : []);
      const lines = Object.entries(item.properties).flatMap(([key, values]) =>
        values.map((value, at) =>
          make("li", {}, make("strong", {}, key), ": ", typeof value === "string" ? make("span", { class: "literal" }, value) : this.itemElement(value, ...inner(key, at))),
        ),
      );
      const id = item.id ? [make("p", {}, make("span", { class: "iri" }, item.id))] : [];
      const summary = make("summary", {}, name);
      if (place) summary.append(...this.itemPlaces(spans[place.span]));
      return make("details", { open: true }, summary, ...id, make("ul", {}, ...lines));
    }

    itemPlaces(span) {
      const act = () => {
        this.source.clear();
        this.source.mark(span.slice(2, 4), span.slice(4, 6), "said");
        this.source.show(span.slice(2, 4), true);
      };
      const here = button(`${span[2] + 1}:${span[3] + 1}`, act, { class: "jump", "aria-label": `Go to line ${span[2] + 1}, column ${span[3] + 1}` });
      const copyOf = this.provider.original?.(span[0]);
      return copyOf ? [" ", here, " in the original ", this.leap(copyOf)] : [" ", here];
    }

    showGraph() {
      if (!this.told.svg) return this.panel.replaceChildren(make("p", {}, this.told.none));
      const { drawn, count: all } = this.told;
      const note = drawn < all ? make("span", {}, `The first ${drawn} of ${count(all, "triple")} are drawn.`) : make("span", { class: "faint" }, "An arrow leads to its place in the source, a node to its rows.");
      const svg = this.drawn(this.told.svg);
      svg.setAttribute("role", "group");
      svg.setAttribute("aria-label", "The graph of the page");
      const holder = make("div", { class: "drawing whole" }, svg);
      const size = button("Actual size", () => {
        size.textContent = holder.classList.toggle("whole") ? "Actual size" : "Whole";
      });
      this.panel.replaceChildren(make("div", { class: "tools" }, size, note), holder);
    }

    drawn([name, attributes, text, children]) {
      if (!DRAWN.has(name)) return document.createTextNode("");
      const made = document.createElementNS(SVG, name);
      for (const [key, value] of Object.entries(attributes)) if (DRAWN_BY.has(key)) made.setAttribute(key, value);
      if (name === "svg") this.size(made, attributes);
      if (name === "text") made.textContent = text;
      for (const child of children) made.append(this.drawn(child));
      if (name === "g") this.link(made, attributes.id ?? "");
      return made;
    }

    size(svg, attributes) {
      const [, , width, height] = (attributes.viewBox ?? "0 0 1 1").split(" ").map(Number);
      svg.setAttribute("width", width * 1.33);
      svg.setAttribute("height", height * 1.33);
    }

    link(group, id) {
      const edge = /^(?:edge|literal)(\d+)$/.exec(id);
      if (!edge && !/^node\d+$/.test(id)) return;
      const words = [...group.querySelectorAll("text")].map((text) => text.textContent).join(" ");
      const act = edge ? () => this.chooseEdge(Number(edge[1])) : () => this.showRowsOf(words);
      group.setAttribute("tabindex", "0");
      group.setAttribute("role", "link");
      group.setAttribute("aria-label", words);
      group.addEventListener("click", act);
      group.addEventListener("keydown", (event) => {
        if (event.key === "Enter") act();
      });
    }

    chooseEdge(number) {
      this.markOrigin(number, true);
      this.markOnly([number]);
    }

    markOnly(numbers) {
      for (const group of this.panel.querySelectorAll(".marked")) group.classList.remove("marked");
      for (const number of numbers) for (const name of ["edge", "literal"]) document.getElementById(`${name}${number}`)?.classList.add("marked");
    }

    markEdges(origins, span) {
      this.markOnly([...origins.keys()].filter((number) => origins[number].span === span));
    }

    // A node's rows: the table, at the first row in which its label stands.
    async showRowsOf(words) {
      this.selectTab("triples");
      this.provider.opened?.("triples");
      await this.refresh();
      if (!this.told.triples || !(await this.hasAll())) return;
      const label = words.replace(/\u2026$/, "");
      const { triples, prefixes } = this.told;
      const found = triples.findIndex((triple) => triple.some((term) => termElement(term, prefixes).textContent.startsWith(label)));
      if (found < 0) return;
      if (found >= this.rows.length) this.addRows(found + 1);
      this.choose(found, true);
      this.rows[found].scrollIntoView({ block: "nearest" });
    }

    showStatistics(places) {
      const rows = [
        ["Bytes", this.told.bytes.toLocaleString("en")],
        ["Triples", this.told.count.toLocaleString("en")],
        ["Read by the library", `${this.told.milliseconds} ms`],
        ["Elements", places?.elements?.toLocaleString("en") ?? "\u2013"],
        ["Levels of elements", places?.depth?.toLocaleString("en") ?? "\u2013"],
        ["Second reading, for the places", places?.milliseconds === undefined ? "\u2013" : `${places.milliseconds} ms`],
      ];
      const body = rows.map(([name, value]) => make("tr", {}, make("th", { scope: "row" }, name), make("td", {}, value)));
      const note = places?.none ? [make("p", { role: "note" }, places.none)] : [];
      this.panel.replaceChildren(make("table", {}, make("caption", {}, "The page in figures"), make("tbody", {}, ...body)), ...note);
    }
  }

  Object.assign(rdfax, { Workbench, make, button, copy, download, TABS });
})();
