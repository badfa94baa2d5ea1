"use strict";
// A report: the pages and what is told of them stand in the file itself.

(() => {
  const { Workbench, make } = rdfax;
  const pages = JSON.parse(document.getElementById("told").textContent);
  let page = pages[0];

  const provider = {
    ask: async (view) => page.views[view],
    places: async () => page.places,
    text: async (view) => page.texts[view],
  };
  const workbench = new Workbench(document.getElementById("workbench"), provider, { readOnly: true });
  const chooser = document.getElementById("page");

  function open(number) {
    page = pages[number];
    workbench.source.editor.setValue(page.source);
    workbench.refresh();
  }

  const label = ({ name, views }) => `${name}: ${views.triples.refused ? `refused (${views.triples.refused.kind})` : `${views.triples.count ?? 0} triples`}`;
  chooser.append(...pages.map((one, number) => make("option", { value: number }, label(one))));
  chooser.addEventListener("change", () => open(Number(chooser.value)));
  open(0);
})();
