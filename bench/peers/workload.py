"""The page of `gen NUMBER` as files: the data, with any number of items, and the sources for soyc and each peer; and
the page of examples/shop, in the language of its templates, as sources for each peer."""
import json
import re

WORDS = ["tea", "Käse", "שלום", "سلام", "a<b", "R&D", "x y", ""]
LINKS = ["/a", "https://e.example/?q=1&r=2", "mailto:a@e.example", "javascript:1"]
MESSAGES = range(200)


def data(number, count):
    """The data of `gen`, as work_gen draws them, with so many items; its own have 4,000."""
    state = number

    def pick(below):
        nonlocal state
        state = (state * 6364136223846793005 + 1442695040888963407) % 2**64
        return state // 2**33 % below

    items = []
    for _ in range(count):
        who = WORDS[pick(8)]
        text = WORDS[pick(8)] + " " + WORDS[pick(8)]
        items.append({"link": LINKS[pick(4)], "n": pick(200), "text": text, "who": who})
    return compact({"items": items})


def compact(value):
    return json.dumps(value, ensure_ascii=False, separators=(",", ":"))


def lines(*texts):
    return "".join(text + "\n" for text in texts)


def soy_source(with_items=True):
    """The source of `gen`; without the loop over the items if none shall be shown."""
    loop = ('{for $i in $items}<li><a href="{$i.link}">{$i.who}</a> {$i.text} '
            '<i title="{$i.text}">{$i.n}</i></li>{/for}') if with_items else ""
    return lines(
        "{namespace gen}", "{template main}",
        "{@param items: list<[who: string, text: string, link: string, n: int]>}", f"<ul>{loop}</ul>",
        *(f"{{call t{k}}}{{param n: {k} /}}{{/call}}" for k in MESSAGES), "{/template}",
        *(f'{{template t{k}}}\n{{@param n: int}}\n<p>{{msg desc="{k}"}}{{plural $n}}{{case 1}}one of {k}'
          f"{{default}}{{$n}} of {k}{{/plural}}{{/msg}}</p>\n{{/template}}" for k in MESSAGES))


def bundle(catalogue):
    """The bundle that `gen` makes of the catalogue that `extract` writes."""
    messages = {row["id"]: f"[{row['text']}]" for row in json.loads(catalogue)["messages"]}
    return compact({"dir": "rtl", "messages": messages, "plural": {"one": "n = 1"}})


def html_template():
    """The page for html/template: the translated texts are in the templates, and spans and directions are written."""
    parts = [f'{{{{define "t{k}"}}}}<p>{{{{if eq . 1}}}}[one of {k}]{{{{else}}}}[<span dir="ltr">{{{{.}}}}</span> of '
             f"{k}]{{{{end}}}}</p>{{{{end}}}}" for k in MESSAGES]
    return "".join(parts) + (
        '<ul>{{range .}}<li><a href="{{.Link}}"><span dir="{{direction .Who}}">{{.Who}}</span></a> '
        '<span dir="{{direction .Text}}">{{.Text}}</span> <i title="{{.Text}}"><span dir="ltr">{{.N}}</span></i></li>'
        "{{end}}</ul>") + "".join(f'{{{{template "t{k}" {k}}}}}' for k in MESSAGES)


def quicktemplate():
    """The page for quicktemplate, likewise."""
    page = ('{% func Page(items []Item) %}{% stripspace %}<ul>{% for i := range items %}'
            '<li><a href="{%s items[i].Link %}"><span dir="{%s= direction(items[i].Who) %}">{%s items[i].Who %}</span>'
            "</a>{% space %}"
            '<span dir="{%s= direction(items[i].Text) %}">{%s items[i].Text %}</span>{% space %}'
            '<i title="{%s items[i].Text %}"><span dir="ltr">{%d items[i].N %}</span></i></li>{% endfor %}</ul>')
    page += "".join(f"{{%= t{k}({k}) %}}" for k in MESSAGES) + "{% endstripspace %}{% endfunc %}\n"
    return "{% package main %}\n" + page + "".join(
        f'{{% func t{k}(n int) %}}<p>{{% if n == 1 %}}[one of {k}]{{% else %}}[<span dir="ltr">{{%d n %}}</span> of '
        f"{k}]{{% endif %}}</p>{{% endfunc %}}\n" for k in MESSAGES)


def jinja2():
    """The page for Jinja2, likewise."""
    page = ('<ul>{% for i in items %}<li><a href="{{i.link}}"><span dir="{{i.who|direction}}">{{i.who}}</span></a> '
            '<span dir="{{i.text|direction}}">{{i.text}}</span> <i title="{{i.text}}"><span dir="ltr">{{i.n}}</span>'
            "</i></li>{% endfor %}</ul>")
    return "".join(f"{{% macro t{k}(n) %}}<p>{{% if n == 1 %}}[one of {k}]{{% else %}}"
                   f'[<span dir="ltr">{{{{n}}}}</span> of {k}]{{% endif %}}</p>{{% endmacro %}}'
                   for k in MESSAGES) + page + "".join(
        f"{{{{t{k}({k})}}}}" for k in MESSAGES)


def ctemplate():
    """The page for ctemplate, likewise; its sections show what the program gave them."""
    page = ('{{%AUTOESCAPE context="HTML"}}<ul>{{#ITEM}}<li><a href="{{LINK}}"><span dir="{{WHO_DIR}}">{{WHO}}</span>'
            '</a> <span dir="{{TEXT_DIR}}">{{TEXT}}</span> <i title="{{TEXT}}"><span dir="ltr">{{N}}</span></i></li>'
            "{{/ITEM}}</ul>")
    return page + "".join(
        f'<p>{{{{#ONE_{k}}}}}[one of {k}]{{{{/ONE_{k}}}}}{{{{#OTHER_{k}}}}}[<span dir="ltr">{{{{N}}}}</span> of {k}]'
        f"{{{{/OTHER_{k}}}}}</p>" for k in MESSAGES)


# ---- the shop

# The page, in which a word in guillemets is what each engine spells by itself.
SHOP = (
    '<!DOCTYPE html><html lang="«lang»" dir="«dir»"><head><meta charset="utf-8"><title>«shop»</title>'
    "<style>h1 { border-bottom: 2px solid «accent»; }.sold { opacity: 0.5; }</style></head>"
    "<body><h1>«span shop»</h1><p>«visitor»Hello «span visitor_name», <b>welcome back</b>!«no visitor»Welcome!«end»</p>"
    '<ul>«products»<li «sold»class="sold"«end»><a href="«url»" title="«name»">«span name»</a> by «span maker»: '
    '<span dir="ltr">«cents» «currency»</span><p>«none»Sold out«one»The last one«more»<span dir="ltr">«left»</span>'
    " left«end plural»</p>«notes»«next»; «end»<q>«span note»</q>«end notes»</li>«end products»</ul>"
    "<script>var visitor = «script»;</script></body></html>")


def shop(words, text=SHOP):
    """The page with these words for those in guillemets."""
    return re.sub("«([^»]*)»", lambda found: words[found[1]], text)


def shop_spans(value, direction):
    """The values that stand in a span with their direction."""
    names = ["shop", "visitor_name", "name", "maker", "note"]
    return {f"span {name}": f'<span dir="{direction(name)}">{value(name)}</span>' for name in names}


def shop_html_template():
    fields = {"lang": ".Lang", "shop": ".Shop", "accent": ".Accent", "url": ".Url", "name": ".Name", "maker": ".Maker",
              "cents": ".Cents", "currency": "$.Currency", "left": ".Left", "visitor_name": ".Visitor", "note": "$note"}
    words = {name: f"{{{{{field}}}}}" for name, field in fields.items()}
    words |= shop_spans(words.get, lambda name: f"{{{{direction {fields[name]}}}}}")
    words |= {
        "dir": "{{if .Rtl}}rtl{{else}}ltr{{end}}", "visitor": "{{if .Visitor}}", "no visitor": "{{else}}",
        "end": "{{end}}", "products": "{{range .Products}}", "end products": "{{end}}",
        "sold": "{{if eq .Left 0}}", "none": "{{if eq .Left 0}}", "one": "{{else if eq .Left 1}}", "more": "{{else}}",
        "end plural": "{{end}}", "notes": "{{range $n, $note := .Notes}}", "next": "{{if $n}}", "end notes": "{{end}}",
        "script": "{{if .Visitor}}{{.Visitor}}{{else}}''{{end}}"}
    return shop(words)


def shop_quicktemplate():
    fields = {"lang": "s shop.Lang", "shop": "s shop.Shop", "accent": "s shop.Accent", "url": "s p.Url",
              "name": "s p.Name", "maker": "s p.Maker", "cents": "d p.Cents", "currency": "s shop.Currency",
              "left": "d p.Left", "visitor_name": "s *shop.Visitor", "note": "s note"}
    words = {name: f"{{% {field} %}}" for name, field in fields.items()}
    words |= shop_spans(words.get, lambda name: f"{{%s= direction({fields[name][2:]}) %}}")
    words |= {
        "dir": "{% if shop.Rtl %}rtl{% else %}ltr{% endif %}", "visitor": "{% if shop.Visitor != nil %}",
        "no visitor": "{% else %}", "end": "{% endif %}", "products": "{% for _, p := range shop.Products %}",
        "end products": "{% endfor %}", "sold": "{% if p.Left == 0 %}", "none": "{% if p.Left == 0 %}",
        "one": "{% elseif p.Left == 1 %}", "more": "{% else %}", "end plural": "{% endif %}",
        "notes": "{% for n, note := range p.Notes %}", "next": "{% if n > 0 %}", "end notes": "{% endfor %}",
        "script": "'{% if shop.Visitor != nil %}{%j *shop.Visitor %}{% endif %}'"}
    return "{% func ShopPage(shop *Shop) %}" + shop(words) + "{% endfunc %}\n"


def shop_ctemplate():
    names = ["lang", "dir", "shop", "accent", "url", "name", "maker", "cents", "currency", "left", "visitor_name"]
    words = {name: f"{{{{{name.upper()}}}}}" for name in names} | {"note": "{{NOTE_TEXT}}"}
    words |= shop_spans(words.get, lambda name: f"{{{{{name.upper().removesuffix('_NAME')}_DIR}}}}")
    words |= {
        "visitor": "{{#VISITOR}}", "no visitor": "{{/VISITOR}}{{#NO_VISITOR}}", "products": "{{#PRODUCT}}",
        "end products": "{{/PRODUCT}}", "sold": "{{#SOLD}}", "none": "{{#NONE}}", "one": "{{/NONE}}{{#LAST}}",
        "more": "{{/LAST}}{{#MORE}}", "end plural": "{{/MORE}}", "notes": "{{#NOTE}}", "next": "{{#NEXT}}",
        "end notes": "{{/NOTE}}", "script": "'{{VISITOR_NAME}}'"}
    # (each section has an end of its own name, in the order of the page)
    ends = iter(["{{/NO_VISITOR}}", "{{/SOLD}}", "{{/NEXT}}"])
    text = re.sub("«end»", lambda _: next(ends), SHOP)
    return '{{%AUTOESCAPE context="HTML"}}' + shop(words, text)


def shop_jinja2():
    fields = {"lang": "lang", "shop": "shop", "accent": "accent", "url": "p.url", "name": "p.name", "maker": "p.maker",
              "cents": "p.cents", "currency": "currency", "left": "p.left", "visitor_name": "visitor", "note": "note"}
    words = {name: f"{{{{{field}}}}}" for name, field in fields.items()}
    words |= shop_spans(words.get, lambda name: f"{{{{{fields[name]}|direction}}}}")
    words |= {
        "dir": "{% if rtl %}rtl{% else %}ltr{% endif %}", "visitor": "{% if visitor %}", "no visitor": "{% else %}",
        "end": "{% endif %}", "products": "{% for p in products %}", "end products": "{% endfor %}",
        "sold": "{% if p.left == 0 %}", "none": "{% if p.left == 0 %}", "one": "{% elif p.left == 1 %}",
        "more": "{% else %}", "end plural": "{% endif %}", "notes": "{% for note in p.notes %}",
        "next": "{% if not loop.first %}", "end notes": "{% endfor %}", "script": "{{(visitor or '')|tojson}}"}
    return shop(words)
