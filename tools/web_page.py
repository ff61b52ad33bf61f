"""Makes one file of the page of web/: its modules of JavaScript become one script, from which the page's thread is
begun too, and the library's module stands in it by gzip and base64.

A module is a function here that is run once, when another one asks for what it exports. Its imports and exports are
those forms that the sources have: names in braces, and a whole module under a name.
"""
import base64
import gzip
import hashlib
import pathlib
import re

from common import ROOT

WEB = ROOT / "web"
PAGE, THREAD = WEB / "src/main.js", WEB / "src/worker.js"

FROM = re.compile(r'^(import|export)\s+(\*\s+as\s+\w+|\{[^}]*\})\s+from\s+"([^"]+)";\n', re.M)
DECLARED = re.compile(
    r"^export\s+(?:(?:const|let)\s+(?:(\w+)|\[([^\]]*)\])|(?:async\s+)?function\*?\s+(\w+)|class\s+(\w+))", re.M
)
# What no script inside a page may have in it, and what none of a script that is no module has.
FORBIDDEN = re.compile(r"</script|<!--|^(?:import|export)\b|\bimport\.meta\b", re.M | re.I)


def names_of(braces: str) -> list[tuple[str, str]]:
    """The names in braces, each with that under which it is had."""
    words = [it.split() for it in braces.strip("{}").split(",") if it.strip()]
    return [(it[0], it[-1]) for it in words]


class Script:
    """The modules that one leads to, as a script."""

    def __init__(self) -> None:
        self.numbers: dict[pathlib.Path, int] = {}
        self.texts: list[str] = []

    def number(self, path: pathlib.Path) -> int:
        """The number of the function of a module. It is written first, where it is not there."""
        path = path.resolve()
        if path not in self.numbers:
            text = self.written(path)
            self.numbers[path] = len(self.texts)
            self.texts.append(f"const m{len(self.texts)} = once(() => {{\n{text}}});\n")
        return self.numbers[path]

    def written(self, path: pathlib.Path) -> str:
        """The body of a module's function."""
        text = path.read_text(encoding="utf-8")
        given: list[str] = []

        def bound(found: re.Match[str]) -> str:
            word, names, source = found.groups()
            module = f"m{self.number(path.parent / source)}()"
            if names.startswith("*"):
                pairs = [("", names.split()[-1])]
            else:
                pairs = names_of(names)
            if word == "export":
                given.extend(f"{new}: {module}{old and f'.{old}'}" for old, new in pairs)
                return ""
            if names.startswith("*"):
                return f"const {pairs[0][1]} = {module};\n"
            return f"const {{ {', '.join(f'{old}: {new}' for old, new in pairs)} }} = {module};\n"

        text = FROM.sub(bound, text)
        for found in DECLARED.finditer(text):
            given.extend(name.strip() for group in found.groups() if group for name in group.split(",") if name.strip())
        text = re.sub(r"^export\s+(?=const|let|async|function|class)", "", text, flags=re.M)
        return text.replace("import.meta.url", "globalThis.location.href") + f"return {{ {', '.join(given)} }};\n"


def script() -> str:
    """The script of the page and of its thread: who runs it is the page where there is a document."""
    made = Script()
    page, thread = made.number(PAGE), made.number(THREAD)
    begin = 'const once = (made) => {\n  let found;\n  return () => (found ??= made());\n};\n'
    end = f'if (typeof document === "undefined") m{thread}();\nelse m{page}();\n'
    text = f'"use strict";\n(() => {{\n{begin}{"".join(made.texts)}{end}}})();\n'
    found = FORBIDDEN.search(text)
    if found:
        raise ValueError(f"the script has {found[0]!r} in it, which this tool does not know")
    return text


def hash_of(text: str) -> str:
    """The word by which a policy lets a text run."""
    return f"'sha256-{base64.b64encode(hashlib.sha256(text.encode()).digest()).decode()}'"


def block(name: str, data: bytes) -> str:
    """What is no script, and is read by one."""
    text = base64.b64encode(gzip.compress(data, 9, mtime=0)).decode()
    return f'<script type="application/gzip" id="weoldrin-{name}">{text}</script>\n'


def one_file(library: pathlib.Path) -> str:
    """The page with all that it loads."""
    page = (WEB / "index.html").read_text(encoding="utf-8")
    style = (WEB / "style.css").read_text(encoding="utf-8")
    code = script()
    example = (ROOT / "examples/p256/package.hex").read_bytes()
    blocks = block("module", library.read_bytes()) + block("example", example)
    changes = {
        "script-src 'self'": f"script-src {hash_of(code)}",
        "style-src 'self'": f"style-src {hash_of(style)}",
        "worker-src 'self'": "worker-src blob:",
        '<link rel="stylesheet" href="style.css">': f"<style>{style}</style>",
        '<script type="module" src="src/main.js"></script>\n': "",
        "</body>": f'{blocks}<script id="weoldrin-script">{code}</script>\n</body>',
    }
    for old, new in changes.items():
        if page.count(old) != 1:
            raise ValueError(f"web/index.html has not once {old}")
        page = page.replace(old, new)
    return page
