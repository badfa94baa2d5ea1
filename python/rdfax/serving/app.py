"""The page's server: Flask, with waitress in front."""

from __future__ import annotations

import json
from collections.abc import Mapping
from typing import NamedTuple

from flask import Flask, Response, abort, request, send_from_directory
from werkzeug.exceptions import HTTPException

from rdfax.pages import SYNTAXES
from rdfax.serving.examples import EXAMPLES
from rdfax.serving.files import CODEMIRROR, STATIC
from rdfax.serving.reading import VIEWS
from rdfax.serving.workers import Busy, Limits, Pool

__all__ = ["Settings", "create_app"]

_EDITOR = frozenset(("lib/codemirror.js", "lib/codemirror.css", "mode/xml/xml.js"))
_FETCH_SECONDS = 20
# No page of another site can send this header without being asked first, and it never is.
_OWN_HEADER = "X-Rdfax"
_HEADERS = {
    "Content-Security-Policy": (
        "default-src 'none'; script-src 'self'; style-src 'self'; img-src 'self'; connect-src 'self'; base-uri 'none'; form-action 'none'; frame-ancestors 'none'"
    ),
    "X-Content-Type-Options": "nosniff",
    "Referrer-Policy": "no-referrer",
    "Cross-Origin-Opener-Policy": "same-origin",
    "Cross-Origin-Resource-Policy": "same-origin",
    "Cache-Control": "no-store",
}


class Settings(NamedTuple):
    """Whether private addresses are fetched, whether any host's name is answered to, and the bounds."""

    private: bool = False
    public: bool = False
    limits: Limits = Limits()


def _is_own_host(host: str) -> bool:
    return host.rpartition(":")[0] in ("127.0.0.1", "localhost") or host in ("127.0.0.1", "localhost")


def _refusing(app: Flask, settings: Settings) -> None:
    """What is refused before anything is read."""

    @app.before_request
    def look() -> Response | None:
        if not settings.public and not _is_own_host(request.host):
            return Response('{"failed":"This server answers to 127.0.0.1 and localhost alone."}', 421, mimetype="application/json")
        if request.method == "POST" and _OWN_HEADER not in request.headers:
            abort(403, "Only the page itself may ask.")
        return None

    @app.errorhandler(HTTPException)
    def told(error: HTTPException) -> Response:
        return Response(json.dumps({"failed": error.description or error.name}), error.code, mimetype="application/json")

    @app.errorhandler(Busy)
    def busy(_: Busy) -> Response:
        return Response('{"failed":"The server is busy; try again."}', 503, mimetype="application/json")

    @app.after_request
    def with_headers(response: Response) -> Response:
        response.headers.update(_HEADERS)
        return response


def _files(app: Flask) -> None:
    """The page and what belongs to it."""

    @app.get("/")
    def page() -> Response:
        return send_from_directory(STATIC, "page.html")

    @app.get("/static/<name>")
    def file(name: str) -> Response:
        return send_from_directory(STATIC, name)

    @app.get("/codemirror/<path:name>")
    def editor(name: str) -> Response:
        if name not in _EDITOR:
            abort(404)
        return send_from_directory(CODEMIRROR, name)

    @app.get("/api/examples")
    def examples() -> Response:
        return _json({"examples": [example._asdict() for example in EXAMPLES]})


def _json(told: Mapping[str, object] | bytes) -> Response:
    return Response(told if isinstance(told, bytes) else json.dumps(told), mimetype="application/json")


def _word(name: str, among: tuple[str, ...], default: str) -> str:
    word = request.args.get(name, default)
    if word not in among:
        abort(400, f"{name} is none of {', '.join(among)}.")
    return word


def _asked(limits: Limits) -> tuple[bytes, str, str]:
    """The page, its address and its syntax."""
    if (request.content_length or 0) > limits.page:
        abort(413, "The page has more bytes than the server takes.")
    return request.get_data(cache=False), request.args.get("base", ""), _word("syntax", SYNTAXES, "html")


def _tasks(app: Flask, settings: Settings, pool: Pool) -> None:
    """What the page asks for. The page to read is the body, as bytes."""
    views = tuple(VIEWS)

    @app.post("/api/read")
    def read() -> Response:
        return _json(pool.ask("read", *_asked(settings.limits), _word("view", views, "triples"), request.args.get("most", None, int)))

    @app.post("/api/places")
    def places() -> Response:
        return _json(pool.ask("places", *_asked(settings.limits)))

    @app.post("/api/text")
    def text() -> Response:
        return Response(pool.ask("text", *_asked(settings.limits), _word("view", views, "nquads")), mimetype="text/plain")

    @app.post("/api/mended")
    def mended() -> Response:
        page, _, syntax = _asked(settings.limits)
        return _json(pool.ask("mended", page, request.args.get("charset"), syntax))

    @app.post("/api/fetch")
    def fetch() -> Response:
        address = request.args.get("address", "")
        return _json(pool.ask("fetch", address, _FETCH_SECONDS, settings.limits.page, settings.private, seconds=_FETCH_SECONDS + 5))


def create_app(settings: Settings, pool: Pool) -> Flask:
    """The application, over processes that read."""
    app = Flask("rdfax", static_folder=None)
    _refusing(app, settings)
    _files(app)
    _tasks(app, settings, pool)
    return app
