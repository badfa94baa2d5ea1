"""Hostile pages: none of what they hold runs or becomes markup."""

from __future__ import annotations

import html

import pytest
from looking import TABS, Page

# What each of them would do, if it ran.
MARK = "window.ran=1"
PAYLOADS = [
    f"<script>{MARK}</script>",
    f"<img src=x onerror={MARK}>",
    f'"><svg onload="{MARK}">',
    f"javascript:{MARK}",
    f"</script></textarea></style></title><script>{MARK}</script>",
]


def _quoted(payload: str) -> str:
    return html.escape(payload)


# Each shown place: texts, languages, IRIs, prefixes, vocabularies, datatypes, blank nodes, items, names of tags, and refusals.
PAGES = {
    "a literal": lambda p: f'<html><p property="schema:name">{_quoted(p)}</p></html>',
    "a subject": lambda p: f'<html><p about="{_quoted(p)}" property="schema:name">x</p></html>',
    "an object": lambda p: f'<html><a rel="schema:url" href="{_quoted(p)}">x</a></html>',
    "a prefix": lambda p: f'<html prefix="e: http://v.example/{_quoted(p).replace(" ", "%20")}"><p property="e:{_quoted(p).replace(" ", "%20")}">x</p></html>',
    "a vocabulary": lambda p: f'<html vocab="http://v.example/{_quoted(p)}"><p property="name" typeof="T">x</p></html>',
    "a datatype and a label": lambda p: (
        f'<html><p about="_:{_quoted(p)}" property="schema:name" datatype="http://v.example/{_quoted(p)}" content="{_quoted(p)}"></p></html>'
    ),
    "items": lambda p: (
        f'<html><p itemscope itemtype="http://v.example/{_quoted(p).replace(" ", "%20")}" itemid="{_quoted(p)}"><b itemprop="http://v.example/x {_quoted(p)}">{_quoted(p)}</b></p></html>'
    ),
    "scripts of its own": lambda p: (
        f"<html><head><script>{MARK}</script><style>*{{display:none}}</style></head><body onload='{MARK}'>{p if p.startswith('<img') else _quoted(p)}</body></html>"
    ),
    "a refused token": lambda p: f"<html><p>{p}</p></html></{p}",
    "a refused page": lambda p: f"{p}",
}


@pytest.mark.parametrize("place", PAGES)
@pytest.mark.parametrize("payload", range(len(PAYLOADS)))
def test_nothing_of_a_page_runs(page: Page, place: str, payload: int) -> None:
    page.source(PAGES[place](PAYLOADS[payload]))
    before = page.driver.execute_script("return document.querySelectorAll('script, style, iframe, img, object, embed').length")
    for tab in TABS:
        page.tab(tab)
    rows = page.all("tbody tr[data-row]")
    if rows:
        rows[0].click()
    assert page.driver.execute_script("return window.ran") is None
    after = page.driver.execute_script("return document.querySelectorAll('script, style, iframe, img, object, embed').length")
    assert before == after
    links = page.driver.execute_script(
        "return [...document.querySelectorAll('a[href], [style], [onload], [onerror]')].filter(e => !e.closest('.CodeMirror')).length"
    )
    assert links == 0
