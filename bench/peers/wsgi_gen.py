"""The page of `gen` with 40 items as a WSGI application, for a server that runs it in a folder of the files that
pages.py writes: by the library, or by Jinja2 where the environment's ENGINE says so. Both read the data anew for each
page."""
import json
import os
import pathlib
import sys

HERE = pathlib.Path(__file__).resolve().parent
DATA = pathlib.Path("gen.json").read_bytes()
HEADERS = [("Content-Type", "text/html; charset=utf-8")]

if os.environ.get("ENGINE") == "jinja2":
    sys.path.insert(0, str(HERE))
    from pages_jinja2 import compiled

    PAGE = compiled(pathlib.Path("gen.jinja").read_text("utf-8"))

    def page():
        return [PAGE.render(json.loads(DATA)).encode()]

else:
    sys.path.insert(0, str(HERE.parent.parent / "bindings/python"))
    from soyc import Templates

    TEMPLATES = Templates({"gen.soy": pathlib.Path("gen.soy").read_bytes()}, pathlib.Path("gen.bundle").read_bytes())

    def page():
        return TEMPLATES.render("gen.main", DATA)


def application(_, start_response):
    start_response("200 OK", HEADERS)
    return page()
