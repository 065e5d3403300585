"""Makes one HTML file of the page, its style and modules, and the texts of a run."""
import json
import pathlib
import re
import sys

FOLDER = pathlib.Path(__file__).resolve().parent
sys.path.insert(0, str(FOLDER.parent / "tools"))
from places.built_ins import NODES  # noqa: E402

IMPORT = re.compile(r'^import \* as (\w+) from "\./([\w-]+)\.js";\n', re.M)
EXPORT = re.compile(r"^export \{([^}]*)\};\n", re.M)


def kinds():
    """The module that has the sign of each built-in node, and its letter, from the table of the tools."""
    signs, letters = ({name: said for name, said in told.items() if said} for told in (
        {name: node.sign for name, node in NODES.items()}, {name: node.letter for name, node in NODES.items()}))
    return (f"const SIGNS = new Map(Object.entries({json.dumps(signs)}));\n"
            f"const LETTERS = new Map(Object.entries({json.dumps(letters)}));\nexport {{ SIGNS, LETTERS }};\n")


def text_of(name):
    return kinds() if name == "kinds.js" else (FOLDER / name).read_text(encoding="utf-8")


def inner_name(module):
    """The name that the exports of a module have in the joined script."""
    return "module_" + module.replace("-", "_")


def joined(module, seen=()):
    """
    The modules that this one imports, each once, and the module itself, as one script. A page that is opened as a file
    can't load modules, so each becomes a function that is called once and answers its exports.
    """
    if module in seen:
        raise ValueError(f"viewer: the modules {' '.join(seen)} import each other")
    done = {}
    for _, other in IMPORT.findall(text_of(f"{module}.js")):
        done.update(joined(other, (*seen, module)))
    body = IMPORT.sub(lambda found: f"const {found[1]} = {inner_name(found[2])};\n", text_of(f"{module}.js"))
    body = EXPORT.sub(lambda found: f"return {{{found[1]}}};\n", body)
    return {**done, module: f"const {inner_name(module)} = (() => {{\n{body}}})();\n"}


def script_of(module):
    return '"use strict";\n' + "\n".join(joined(module).values())


def inlined(html):
    """The page with its style and its modules in it, in place of the names of their files."""
    html = re.sub(r'<link rel="stylesheet" href="([^"]+)">', lambda link: f"<style>\n{text_of(link[1])}</style>", html)
    script = r'<script type="module" src="([\w-]+)\.js"></script>'
    return re.sub(script, lambda link: f"<script>\n{script_of(link[1])}</script>", html)


def embedded(data):
    """The data as it stands in an element `script`: no text in it can end the element or open a comment."""
    return json.dumps(data, ensure_ascii=False).replace("<", "\\u003c")


def page(data):
    """
    The whole page that shows this data when it is opened. The data are texts by name, as the program printed and read
    them: `tree` and `trace`, or `plan` and `trace`, or `refusal`; and `world`, `source` (the tree file), `said`
    (the program's standard error), `names` (of the tree and of the world) and `exit` (the status). `other` is the
    trace of another run of the tree, `groups` are lists of IDs whose leaves are not to be held together, and `live` is
    there where the lines of the trace come from later. Without data the page asks for files.
    """
    before, after = inlined(text_of("page.html")).split('id="run-data">', 1)
    return f'{before}id="run-data">{embedded(data) if data else ""}{after}'
