"""Tests of shop.py, without a server: `python3 -m unittest` in this folder runs them, after
`make -C ../../dist libsoyc.so`."""

import io
import pathlib
import unittest
from wsgiref.util import setup_testing_defaults
from wsgiref.validate import validator

import shop

PAGES = pathlib.Path(__file__).resolve().parents[1] / "shop"


def get(path):
    """The status, the headers and the pieces that the application gives for a path, by the rules of WSGI."""
    environ = {"SCRIPT_NAME": "", "PATH_INFO": path, "QUERY_STRING": "", "wsgi.errors": io.StringIO()}
    answer = []
    setup_testing_defaults(environ)
    given = validator(shop.application)(environ, lambda *status: answer.extend(status))
    try:
        pieces = list(given)
    finally:
        given.close()
    return answer[0], dict(answer[1]), pieces


class Pages(unittest.TestCase):
    def test_both_languages(self):
        for path, name in ("/", "page.en.html"), ("/he", "page.he.html"):
            with self.subTest(path):
                status, headers, pieces = get(path)
                self.assertEqual((status, headers["Content-Type"]), ("200 OK", "text/html; charset=utf-8"))
                self.assertEqual(b"".join(pieces), (PAGES / name).read_bytes())

    def test_no_such_page(self):
        self.assertEqual(get("/fr")[0], "404 Not Found")

    def test_data_that_do_not_fit(self):
        templates, data = shop.LANGUAGES["/"]
        shop.LANGUAGES["/bad"] = templates, PAGES / "he.json"
        try:
            self.assertEqual(get("/bad")[0], "500 Internal Server Error")
        finally:
            del shop.LANGUAGES["/bad"]


if __name__ == "__main__":
    unittest.main()
