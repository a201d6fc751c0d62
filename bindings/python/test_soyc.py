"""Tests of soyc.py against pages and refusals of examples/. `python3 -m unittest` in this folder runs them, after
`make -C ../../dist libsoyc.so`."""

import concurrent.futures
import ctypes
import json
import pathlib
import unittest

import soyc
from soyc import Closed, Malformed, MissingFile, Refused, Templates, TooDeep, UsageError, run

EXAMPLES = pathlib.Path(__file__).resolve().parents[2] / "examples"
SHOP = EXAMPLES / "shop"
SOURCES = ("layout.soy", "list.soy", "product.soy")


ONE_PRINT = "{namespace t}\n{template m}\n{@param x: string}\n{$x}\n{/template}\n"


def shop(bundle=None):
    return Templates({it: (SHOP / it).read_bytes() for it in SOURCES}, bundle)


def shop_data(name):
    return json.loads((SHOP / name).read_text("utf-8"))


class Pages(unittest.TestCase):
    def test_hello(self):
        page = Templates({"page.soy": (EXAMPLES / "hello/page.soy").read_bytes()})
        data = (EXAMPLES / "hello/data.json").read_bytes()
        self.assertEqual(page.render("hello.page", data).read(), (EXAMPLES / "hello/expected.html").read_bytes())

    def test_shop_in_two_languages(self):
        english, hebrew = shop(), shop((SHOP / "he.json").read_bytes())
        for templates, data, page in (english, "data.json", "page.en.html"), (hebrew, "data.he.json", "page.he.html"):
            with self.subTest(page):
                made = templates.render_text("shop.list.main", shop_data(data))
                self.assertEqual(made, (SHOP / page).read_text("utf-8"))
                # (JSON as it is in the file)
                made = b"".join(templates.render("shop.list.main", (SHOP / data).read_bytes()))
                self.assertEqual(made, (SHOP / page).read_bytes())

    def test_page_of_several_pieces(self):
        long = "a" * (3 * soyc._PIECE)
        pieces = list(Templates({"t.soy": ONE_PRINT}).render("t.m", {"x": long}))
        self.assertEqual(b"".join(pieces).decode(), f'<span dir="ltr">{long}</span>')
        self.assertGreater(len(pieces), 3)
        self.assertTrue(all(0 < len(piece) <= soyc._PIECE for piece in pieces))

    def test_answer_longer_than_the_first_room(self):
        long = "a" * (3 * soyc._FIRST_ROOM)
        files = {"t.soy": ONE_PRINT, "d": json.dumps({"x": long})}
        made = run(["render", "t.m", "d", "-", "t.soy"], files)
        self.assertEqual(made.out.decode(), f'<span dir="ltr">{long}</span>')

    def test_names_that_are_used_within(self):
        for name in "data.json", "data", "bundle.json", "-":
            with self.subTest(name):
                page = Templates({name: ONE_PRINT})
                self.assertEqual(page.render_text("t.m", {"x": "a"}), '<span dir="ltr">a</span>')

    def test_pages_in_turn(self):
        english, hebrew = shop(), shop((SHOP / "he.json").read_bytes())
        open_ones = [english.render("shop.list.main", shop_data("data.json")) for _ in range(70)]
        open_ones += [hebrew.render("shop.list.main", shop_data("data.he.json")) for _ in range(70)]
        made = [b""] * len(open_ones)
        left = set(range(len(open_ones)))
        while left:
            for i in sorted(left):
                piece = next(open_ones[i], None)
                if piece is None:
                    left.remove(i)
                else:
                    made[i] += piece
        self.assertEqual(set(made[:70]), {(SHOP / "page.en.html").read_bytes()})
        self.assertEqual(set(made[70:]), {(SHOP / "page.he.html").read_bytes()})

    def test_page_outlives_its_templates(self):
        templates = shop()
        page = templates.render("shop.list.main", shop_data("data.json"))
        templates.close()
        self.assertEqual(page.read(), (SHOP / "page.en.html").read_bytes())
        with self.assertRaises(Closed):
            templates.render("shop.list.main", {})
        templates.close()

    def test_page_that_is_given_up(self):
        long = "a" * (3 * soyc._PIECE)
        with Templates({"t.soy": ONE_PRINT}) as templates, templates.render("t.m", {"x": long}) as page:
            self.assertTrue(next(page).startswith(b'<span dir="ltr">aaa'))
        with self.assertRaises(Closed):
            next(page)
        page.close()

    def test_slot_of_the_other_kind(self):
        templates = Templates({"t.soy": ONE_PRINT})
        page = templates.render("t.m", {"x": "a"})
        self.assertEqual(soyc._soyc.soyc_free(page._slot), soyc.EMPTY)
        self.assertEqual(soyc._soyc.soyc_close(templates._family.slot), soyc.EMPTY)
        self.assertEqual(page.read() + templates.render("t.m", {"x": "b"}).read(),
                         b'<span dir="ltr">a</span><span dir="ltr">b</span>')

    def test_messages(self):
        self.assertIn("messages", shop().messages())

    def test_threads(self):
        templates, data = shop(), shop_data("data.json")
        page = (SHOP / "page.en.html").read_text("utf-8")
        with concurrent.futures.ThreadPoolExecutor(4) as pool:
            made = list(pool.map(lambda _: templates.render_text("shop.list.main", data), range(40)))
        self.assertEqual(made, [page] * 40)


class Refusals(unittest.TestCase):
    def test_position(self):
        with self.assertRaises(Refused) as caught:
            Templates({"t.soy": "{namespace t}\n{template m}\n{$y}\n{/template}\n"})
        error = caught.exception
        self.assertEqual((error.status, error.subject, error.row, error.column), (soyc.REFUSED, "t.soy", 3, 2))
        self.assertEqual((error.code, error.word, error.line), (7, "Unknown", "t.soy:3:2: 7 Unknown"))
        self.assertIsNone(error.pointer)

    def test_as_the_program_says(self):
        """The fault of a call and the line of the program are the same, but for what goes with it."""
        for folder in sorted(EXAMPLES.glob("refusals/*")):
            files = {it.name: it.read_bytes() for it in folder.glob("*.soy")}
            if len(files) != 1:
                continue
            said = run(["check", "-", *files], files)
            if said.status != soyc.REFUSED:
                continue
            with self.subTest(folder.name), self.assertRaises(Refused) as caught:
                Templates(files)
            line = Refused(soyc.REFUSED, said.err.decode().removesuffix("\n"))
            for field in "line", "code", "word", "subject", "row", "column", "pointer":
                self.assertEqual(getattr(caught.exception, field), getattr(line, field), (folder.name, field))

    def test_names_like_lines(self):
        """The name of a template that isn't there is the subject, whatever it looks like."""
        templates = Templates({"t.soy": "{namespace t}\n{template m}\n{/template}\n"})
        for name in "a: 5 B", "shop:3:7", "t.zz":
            with self.subTest(name), self.assertRaises(Refused) as caught:
                templates.render(name)
            error = caught.exception
            self.assertEqual((error.subject, error.row, error.detail, error.code), (name, None, "", 29))

    def test_details(self):
        """A name, two types, two places, and nothing."""
        for body, detail in (
            ("{$y}", "y"),
            ("{@param s: string}{@param n: int}{$s * $n}", "string\nint"),
            ('{@param x: string}<a {if $x}href="{/if}{$x}">L</a>', "UriStart\nTag"),
            ("<p ", ""),
        ):
            with self.subTest(body), self.assertRaises(Refused) as caught:
                Templates({"t.soy": "{namespace t}\n{template m}\n" + body + "\n{/template}\n"})
            self.assertEqual(caught.exception.detail, detail, body)

    def test_bundle(self):
        with self.assertRaises(Refused) as caught:
            shop('{"dir": "up"}')
        error = caught.exception
        self.assertEqual((error.subject, error.row), ("bundle.json", None))
        self.assertTrue(error.pointer is not None and 21 <= error.code <= 25)

    def test_line_longer_than_its_room(self):
        name = "n" * (3 * soyc._LINE_ROOM)
        with self.assertRaises(Refused) as caught:
            Templates({name: "{namespace t}\n{template m}\n{$y}\n{/template}\n"})
        self.assertEqual((caught.exception.subject, caught.exception.word), (name, "Unknown"))

    def test_number_of_files(self):
        for count in 0, 65:
            with self.subTest(count), self.assertRaises(UsageError):
                Templates({f"{i}.soy": f"{{namespace n{i}}}\n" for i in range(count)})

    def test_name_that_is_not_text(self):
        for name in "shop\udcff", "shop\ud800":
            with self.subTest(name):
                with self.assertRaises(Malformed) as caught:
                    shop().render(name, {})
                self.assertIn("of a template", str(caught.exception))
                with self.assertRaises(Malformed):
                    Templates({name: ONE_PRINT})
                self.assertEqual(run(["check", "-", name], {name: ONE_PRINT}).status, soyc.MALFORMED)

    def test_pointer(self):
        with self.assertRaises(Refused) as caught:
            data = shop_data("data.json")
            data["products"][1]["cents"] = "dear"
            shop().render("shop.list.main", data)
        error = caught.exception
        self.assertEqual((error.code, error.subject, error.pointer), (28, "data", "/products/1/cents"))
        self.assertIsNone(error.row)

    def test_pointer_where_all_is_too_large_or_wrong(self):
        long = " " * (4 * 2**20 + 1)
        templates = Templates({"t.soy": ONE_PRINT})
        for make, code, subject, pointer in (
            (lambda: templates.render("t.m", long), 2, "data", None),
            (lambda: templates.render("t.m", "["), 27, "data", ""),
            (lambda: Templates({"t.soy": ONE_PRINT}, long), 2, "bundle.json", None),
            (lambda: Templates({"t.soy": ONE_PRINT}, "1"), 21, "bundle.json", ""),
        ):
            with self.subTest(subject=subject, code=code), self.assertRaises(Refused) as caught:
                make()
            error = caught.exception
            self.assertEqual((error.code, error.subject, error.pointer), (code, subject, pointer))
            self.assertEqual((error.row, error.column), (None, None))

    def test_entry(self):
        with self.assertRaises(Refused) as caught:
            shop().render("shop.list.none", {})
        error = caught.exception
        self.assertEqual((error.code, error.word, error.subject), (29, "Entry", "shop.list.none"))
        self.assertIsNone(error.pointer)

    def test_too_deep(self):
        source = "{namespace t}\n{template m}\na{call m /}\n{/template}\n"
        with self.assertRaises(TooDeep) as caught:
            Templates({"t.soy": source}).render_text("t.m")
        error = caught.exception
        self.assertEqual((error.code, error.page, error.subject), (31, b"a" * 101, "t.soy"))
        self.assertEqual((error.row, error.column), (3, 2))
        made, page = [], Templates({"t.soy": source}).render("t.m")
        with self.assertRaises(TooDeep):
            made.extend(page)
        self.assertEqual(b"".join(made), b"a" * 101)

    def test_missing_file(self):
        with self.assertRaises(MissingFile) as caught:
            soyc._done(run(["check", "-", "none.soy"], {}))
        self.assertEqual(caught.exception.subject, "none.soy")

    def test_usage(self):
        with self.assertRaises(UsageError) as caught:
            soyc._done(run([], {}))
        self.assertIn("soyc render", caught.exception.line)


class Calls(unittest.TestCase):
    """The function of C itself."""

    BYTES = b"check-a.soy{namespace a}\n"
    WORDS = [(0, 5), (5, 6), (6, 11)]
    FILES = [((6, 11), (11, 25))]

    def call(self, words, files, room=8, read=BYTES):
        part = soyc._Part
        word_parts = (part * max(1, len(words)))(*[part(*it) for it in words])
        file_parts = (soyc._File * max(1, len(files)))(*[soyc._File(part(*name), part(*it)) for name, it in files])
        out, err = (ctypes.create_string_buffer(b"." * room, room + 4) for _ in range(2))
        lengths = soyc._Lengths(77, 77)
        status = soyc._soyc.soyc_run(
            read, len(read), word_parts, len(words), file_parts, len(files), out, room, err, room, ctypes.byref(lengths)
        )
        self.assertEqual((out.raw[room:], err.raw[room:]), (b"\0" * 4, b"\0" * 4))
        return status, out.raw[:room], lengths.out, err.raw[:room], lengths.err

    def test_well_formed(self):
        self.assertEqual(self.call(self.WORDS, self.FILES), (soyc.DONE, b"ok\n.....", 3, b"........", 0))

    def test_room_too_small(self):
        self.assertEqual(self.call(self.WORDS, self.FILES, 2), (soyc.DONE, b"ok", 3, b"..", 0))

    def test_room_of_nothing(self):
        self.assertEqual(self.call(self.WORDS, self.FILES, 0), (soyc.DONE, b"", 3, b"", 0))

    def test_line_longer_than_its_room(self):
        said = self.call(self.WORDS, [])
        self.assertEqual(said, (soyc.READ, b"........", 0, b"a.soy: r", len("a.soy: read fault\n")))

    def test_malformed(self):
        most = 2**64 - 1
        for words, files in (
            ([(0, 26)], []),
            ([(3, 2)], []),
            ([(most, most)], []),
            ([(0, most)], []),
            (self.WORDS, [((6, 11), (11, 26))]),
            (self.WORDS, [((12, 11), (11, 25))]),
            (self.WORDS, [((6, 11), (11, 25)), ((0, 0), (9, 8))]),
        ):
            with self.subTest(words=words, files=files):
                self.assertEqual(self.call(words, files), (soyc.MALFORMED, b"........", 0, b"........", 0))

    def test_not_utf8(self):
        broken = b"check\xffa.soy{namespace a}\n"
        self.assertEqual(self.call(self.WORDS, self.FILES, read=broken)[0], soyc.MALFORMED)
        # (the content of a file may be any bytes: then it is the command that refuses it)
        read = b"check-a.soy\xff"
        self.assertEqual(self.call(self.WORDS, [((6, 11), (11, 12))], read=read)[0], soyc.REFUSED)
        self.assertEqual(self.call(self.WORDS, [((11, 12), (0, 1))], read=read)[0], soyc.MALFORMED)


if __name__ == "__main__":
    unittest.main()
