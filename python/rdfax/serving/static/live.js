"use strict";
// The page that is served: where its source comes from, and what the server is asked.

(() => {
  const { Workbench, make, button, copy } = rdfax;
  const WAIT = 40;
  const LONGEST_SHOWN = 2_000_000;
  const LONGEST_LINK = 100_000;
  const at = (id) => document.getElementById(id);

  // base64url of bytes, and back
  function encoded(bytes) {
    let text = "";
    for (let start = 0; start < bytes.length; start += 8192) text += String.fromCharCode(...bytes.subarray(start, start + 8192));
    return btoa(text).replaceAll("+", "-").replaceAll("/", "_").replace(/=+$/, "");
  }

  function decoded(text) {
    return Uint8Array.from(atob(text.replaceAll("-", "+").replaceAll("_", "/")), (letter) => letter.charCodeAt(0));
  }

  async function through(bytes, stream) {
    return new Uint8Array(await new Response(new Blob([bytes]).stream().pipeThrough(stream)).arrayBuffer());
  }

  const packed = async (text) => encoded(await through(new TextEncoder().encode(text), new CompressionStream("deflate-raw")));
  const unpacked = async (text) => new TextDecoder().decode(await through(decoded(text), new DecompressionStream("deflate-raw")));

  class Live {
    constructor() {
      this.raw = null;
      this.charset = null;
      this.mendedOf = null;
      this.asking = null;
      this.timer = null;
      this.workbench = new Workbench(at("workbench"), this);
      this.editor = this.workbench.source.editor;
      this.hint = make("p", { class: "hint", "aria-hidden": "true" }, "Paste HTML here, drop a file, or choose an example.");
      this.workbench.holder.append(this.hint);
      this.listen();
    }

    // ---- what the workbench asks

    isEmpty() {
      return this.raw === null && this.editor.getValue() === "";
    }

    bytes() {
      return this.raw ?? new TextEncoder().encode(this.editor.getValue());
    }

    words(more = {}) {
      return new URLSearchParams({ base: at("base").value, syntax: at("syntax").value, ...more });
    }

    async post(path, words, body = null) {
      return fetch(`/api/${path}?${words}`, { method: "POST", body, headers: { "X-Rdfax": "1", "Content-Type": "application/octet-stream" }, signal: this.asking?.signal });
    }

    async json(path, words, body = null) {
      try {
        const response = await this.post(path, words, body);
        return response.status === 413 ? { failed: "The page has more bytes than the server takes." } : await response.json();
      } catch (error) {
        return error.name === "AbortError" ? null : { failed: "The server doesn't answer: is it still running?" };
      }
    }

    ask(view, most) {
      this.asking?.abort();
      this.asking = new AbortController();
      return this.json("read", this.words({ view, most }), this.bytes());
    }

    whole() {
      return this.json("read", this.words({ view: "triples" }), this.bytes());
    }

    places() {
      return this.json("places", this.words(), this.bytes());
    }

    async text(view) {
      const text = await (await this.post("text", this.words({ view }), this.bytes())).text();
      const marked = this.mendedOf !== null && ["turtle", "nested", "nquads"].includes(view);
      return marked ? `# Of a mended copy: a browser's reading of the page, and not what its author wrote.\n${text}` : text;
    }

    name() {
      return this.mendedOf === null ? "page" : "mended-page";
    }

    opened() {
      this.remember();
    }

    note() {
      if (this.mendedOf === null) return null;
      const { charset, changes } = this.mendedOf;
      const counts = Object.entries(changes).map(([kind, number]) => `${kind} ${number}`);
      return [
        make("p", {}, make("strong", {}, "A mended copy. "), "This is what a browser's reading of the page gives, and not what its author wrote: it was guessed."),
        make("p", { class: "faint" }, `Read as ${charset}; changed: ${counts.join(", ") || "nothing"}.`),
        button("Back to the page", () => this.unmend()),
      ];
    }

    async mend() {
      const charset = this.raw === null ? "utf-8" : this.charset;
      const told = await this.json("mended", this.words(charset ? { charset } : {}), this.bytes());
      if (told === null) return;
      if (told.none || told.failed) {
        this.workbench.panel.prepend(make("p", { role: "note" }, told.none ?? told.failed));
        return;
      }
      this.mendedOf = { raw: this.raw, text: this.editor.getValue(), charset: told.charset, changes: told.changes, places: told.places };
      this.setSource(told.page, null, true);
    }

    // Where the page that was mended has what made the element whose start tag begins at this byte of the copy.
    original(start) {
      const places = this.mendedOf?.places ?? [];
      let [low, high] = [0, places.length];
      while (low < high) {
        const middle = (low + high) >> 1;
        if (places[middle][0] <= start) low = middle + 1;
        else high = middle;
      }
      return low ? places[low - 1] : null;
    }

    unmend() {
      const { raw, text } = this.mendedOf;
      this.setSource(text, raw);
    }

    // ---- where the source comes from

    setSource(text, raw = null, mended = false) {
      if (!mended) this.mendedOf = null;
      at("redirects")?.remove();
      at("example").value = "";
      this.setting = true;
      this.editor.setValue(text);
      this.setting = false;
      this.raw = raw;
      this.changed();
    }

    take(bytes) {
      if (bytes.length > LONGEST_SHOWN) {
        this.setSource(`(A page of ${bytes.length.toLocaleString("en")} bytes: it is too long to be shown here, and is read all the same.)`, bytes);
        return;
      }
      try {
        this.setSource(new TextDecoder("utf-8", { fatal: true }).decode(bytes));
      } catch {
        this.setSource(new TextDecoder().decode(bytes), bytes);
      }
    }

    async takeFile(file) {
      this.charset = null;
      at("syntax").value = /\.xht(ml)?$/i.test(file.name) ? "xhtml" : "html";
      this.take(new Uint8Array(await file.arrayBuffer()));
    }

    async fetchPage() {
      const status = this.workbench.status;
      status.textContent = "Fetching\u2026";
      const told = await this.json("fetch", new URLSearchParams({ address: at("address").value }));
      if (told === null) return;
      if (told.none || told.failed) {
        status.textContent = told.none ?? told.failed;
        this.workbench.panel.prepend(make("p", { role: "alert" }, told.none ?? told.failed));
        return;
      }
      at("base").value = told.address;
      at("syntax").value = told.syntax;
      this.charset = told.charset;
      this.take(decoded(told.page.replace(/=+$/, "")));
      const led = [...told.redirects, told.address];
      if (led.length > 1) this.workbench.panel.before(this.redirected(led));
    }

    redirected(led) {
      at("redirects")?.remove();
      return make("p", { id: "redirects", class: "copy", role: "note" }, `Redirected: ${led.join(" \u2192 ")}`);
    }

    async loadExamples() {
      const told = await (await fetch("/api/examples")).json();
      this.examples = new Map(told.examples.map((example) => [example.name, example]));
      at("example").append(...told.examples.map((example) => make("option", { value: example.name }, example.title)));
    }

    openExample(name) {
      const example = this.examples.get(name);
      if (!example) return;
      at("base").value = example.base;
      at("syntax").value = "html";
      this.setSource(example.source);
      at("example").value = name;
    }

    // ---- what changes

    changed() {
      this.hint.hidden = !this.isEmpty();
      this.workbench.busy(true);
      clearTimeout(this.timer);
      this.timer = setTimeout(() => {
        this.workbench.refresh();
        this.remember();
      }, WAIT);
    }

    listen() {
      this.editor.on("change", () => {
        if (this.setting) return;
        this.raw = null;
        this.mendedOf = null;
        at("example").value = "";
        this.changed();
      });
      this.editor.setOption("extraKeys", { Tab: false, "Shift-Tab": false, "Ctrl-Enter": () => this.workbench.panel.focus() });
      this.workbench.panel.addEventListener("keydown", (event) => {
        if (event.key === "Escape") this.editor.focus();
      });
      at("example").addEventListener("change", (event) => this.openExample(event.target.value));
      at("file").addEventListener("change", (event) => event.target.files[0] && this.takeFile(event.target.files[0]));
      at("sources").addEventListener("submit", (event) => {
        event.preventDefault();
        this.fetchPage();
      });
      for (const id of ["base", "syntax"]) at(id).addEventListener("input", () => this.changed());
      at("link").addEventListener("click", () => this.copyLink());
      window.addEventListener("hashchange", () => this.restore());
      this.listenToDrops();
    }

    listenToDrops() {
      const holder = this.workbench.holder;
      const over = (on) => (event) => {
        event.preventDefault();
        event.stopPropagation();
        holder.classList.toggle("dropping", on);
      };
      holder.addEventListener("dragover", over(true), true);
      holder.addEventListener("dragleave", over(false), true);
      holder.addEventListener(
        "drop",
        (event) => {
          over(false)(event);
          const file = event.dataTransfer.files[0];
          if (file) this.takeFile(file);
          else if (event.dataTransfer.getData("text/plain")) this.setSource(event.dataTransfer.getData("text/plain"));
        },
        true,
      );
    }

    // ---- the state, in the fragment of the address

    async state() {
      const words = this.words({ tab: this.workbench.tab });
      // (a link to a mended copy leads to the page itself: nothing would mark the copy there)
      const { text, raw } = this.mendedOf ?? { text: this.editor.getValue(), raw: this.raw };
      if (at("address").value) words.set("address", at("address").value);
      if (text && raw === null && text.length <= LONGEST_LINK) words.set("page", await packed(text));
      return words.toString();
    }

    async remember() {
      const state = await this.state();
      this.remembered = `#${state}`;
      history.replaceState(null, "", this.remembered);
    }

    async copyLink() {
      await this.remember();
      await copy(location.href);
      const whole = this.raw === null && this.editor.getValue().length <= LONGEST_LINK;
      this.workbench.status.textContent = whole ? "The link is copied: it has the page in it." : "The link is copied, without the page, which is too long.";
    }

    async restore() {
      if (location.hash === this.remembered) return;
      const words = new URLSearchParams(location.hash.slice(1));
      if (words.has("base")) at("base").value = words.get("base");
      if (["html", "xhtml"].includes(words.get("syntax"))) at("syntax").value = words.get("syntax");
      if (words.has("address")) at("address").value = words.get("address");
      if (words.has("tab")) this.workbench.selectKnown(words.get("tab"));
      let text = "";
      try {
        text = words.has("page") ? await unpacked(words.get("page")) : "";
      } catch {
        this.workbench.status.textContent = "The link is broken: its page can't be read.";
      }
      this.setSource(text);
    }
  }

  const live = new Live();
  rdfax.live = live;
  live.loadExamples().then(() => live.restore());
})();
