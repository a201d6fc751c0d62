"""The shop in two languages as a WSGI application: / in English and /he in Hebrew, each page streamed as it is made.

    make -C dist
    cd examples/wsgi && gunicorn --workers 4 shop:application

Each worker compiles the templates once. On Debian: apt install gunicorn
"""

import os
import pathlib
import sys
from typing import Any, Callable, Iterable, Mapping

TOP = pathlib.Path(__file__).resolve().parents[2]
sys.path.insert(0, os.environ.get("SOYC_PYTHON") or str(TOP / "bindings/python"))

from soyc import Refused, Templates

SHOP = TOP / "examples/shop"
SOURCES = {it: (SHOP / it).read_bytes() for it in ("layout.soy", "list.soy", "product.soy")}
# For each path the templates in a language, and the data, which a real shop would ask of its own.
LANGUAGES = {
    "/": (Templates(SOURCES), SHOP / "data.json"),
    "/he": (Templates(SOURCES, (SHOP / "he.json").read_bytes()), SHOP / "data.he.json"),
}
HTML = [("Content-Type", "text/html; charset=utf-8")]
TEXT = [("Content-Type", "text/plain; charset=utf-8")]


def application(environ: Mapping[str, Any], start_response: Callable) -> Iterable[bytes]:
    found = LANGUAGES.get(environ.get("PATH_INFO", "/"))
    if found is None:
        start_response("404 Not Found", TEXT)
        return [b"no such page\n"]
    templates, data = found
    try:
        # (a fault of the data shows here, before anything was sent)
        page = templates.render("shop.list.main", data.read_bytes())
    except Refused as refused:
        print(refused, file=environ["wsgi.errors"])
        start_response("500 Internal Server Error", TEXT)
        return [b"the page can't be made\n"]
    start_response("200 OK", HTML)
    return page
