"""What the tools of this folder share: the repository and its crates."""
import re
import sys
from pathlib import Path

TOP = Path(__file__).resolve().parent.parent
sys.path.insert(0, str(TOP / "tools/lib"))


def text_of(path):
    """Returns the text of a file of the repository."""
    return (TOP / path).read_text(encoding="utf-8")


def page_text(crate):
    """Returns the text of a crate's `lib.rt` or `main.rt`."""
    files = (f"crates/{crate}/src/{name}.rt" for name in ("lib", "main"))
    return text_of(next(it for it in files if (TOP / it).exists()))


def page_of(text):
    """Returns the page of a crate: the lines `//!` with which its text begins."""
    return "\n".join(it[3:].removeprefix(" ") for it in re.match(r"(?://!.*\n)*", text)[0].splitlines())


def believed_files():
    """Returns the files of definitions on which the statement of `boot_and_run` rests, each after those that it uses, with the number
    of their lines that are neither blank nor comments; and the modules of the toolchain's libraries that these files use."""
    lines, modules, begun = {}, set(), set()

    def visit(path):
        begun.add(path)
        text = text_of(f"crates/{path}")
        for crate, module in re.findall(r"^(?:pub )?use Rattle\.(\w+)\.specs\.([\w.]*\w)", text, re.M):
            parts = module.split(".")
            files = (f"{crate}/specs/{'/'.join(parts[:count])}.antt" for count in range(len(parts), 0, -1))
            file = next((it for it in files if (TOP / "crates" / it).exists()), None)
            if file and file not in begun:
                visit(file)
            elif not file and parts[0] != "declared":
                modules.add(f"{crate}.{module}")
        lines[path] = sum(1 for it in text.split("\n") if it.strip() and not it.strip().startswith("--"))

    visit("cli_engine/specs/Program.antt")
    return lines, sorted(modules)


def layers():
    """Returns each layer of crates.txt with its crates; its headlines are `## LAYER: ..`."""
    parts = re.split(r"^## (.*?):.*$", text_of("crates.txt"), flags=re.M)
    return [(layer, re.findall(r"^(\w+):", rows, re.M)) for layer, rows in zip(parts[1::2], parts[2::2])]


def crate_graph():
    """Returns the graph of crates.txt: from each crate to those in its line, without libraries of the toolchain."""
    from networkx import DiGraph

    rows = {name: names.split() for name, names in re.findall(r"^(\w+):(.*)$", text_of("crates.txt"), re.M)}
    return DiGraph({name: [it for it in names if it in rows] for name, names in rows.items()})
