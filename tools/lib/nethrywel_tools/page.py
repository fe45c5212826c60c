"""Puts a page together: its template, its styles and scripts, and its data, as one text that asks nobody for anything."""
import base64
import hashlib
import os

from .command_line import Fault, Missing

PAGE = os.path.realpath(os.path.join(os.path.dirname(__file__), "../page"))
CHART_LIBRARY = "/usr/share/nodejs/d3/dist/d3.min.js"
VIEWS = ("base.js", "verdict.js", "reach.js", "budgets.js", "lines.js")


def text_at(path, package):
    try:
        with open(path, encoding="utf-8") as it:
            return it.read()
    except FileNotFoundError as fault:
        raise Missing(package) from fault


def own(name):
    return text_at(f"{PAGE}/{name}", name)


def page(kind, title, data, sums, styles=(), scripts=(), sources="'none'"):
    """Returns the page's text. Only scripts that are in it with their sums run, and it connects to `sources` alone."""
    from jinja2 import Environment, FileSystemLoader

    scripts = [text_at(CHART_LIBRARY, "node-d3"), *map(own, VIEWS), *scripts]
    if any("</script" in it.lower() for it in scripts):
        raise Fault("a script has the end of a script in it")
    hashes = " ".join(f"'sha256-{base64.b64encode(hashlib.sha256(it.encode()).digest()).decode()}'" for it in scripts)
    policy = (
        "default-src 'none'; style-src 'unsafe-inline'; img-src data:; base-uri 'none'; form-action 'none'; "
        f"connect-src {sources}; script-src {hashes}"
    )
    templates = Environment(loader=FileSystemLoader(PAGE), autoescape=True)
    # (of the data, by `tojson`, no character begins or ends an element)
    templates.policies["json.dumps_kwargs"] = {"separators": (",", ":")}
    values = {"kind": kind, "title": title, "data": data, "sums": sums, "policy": policy}
    return templates.get_template("page.html").render(values, styles=[own("style.css"), *styles], scripts=scripts)
