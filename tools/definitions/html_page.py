"""Writes a reading list as one page of HTML that needs nothing else."""
from __future__ import annotations

import os
import re
from collections.abc import Iterable, Iterator
from html import escape

from handed import Piece
from library import meanings, notation
from page import HANDED, LIBRARIES, contract_of, counts, heads, library_names, numbered, pieces_by_file
from repository import Needed, Repository, Target
from statement import Statement, rows_by_file, targets_of, text_of

STYLE = """
:root { color-scheme: light dark; --page: #fff; --text: #1b1f24; --dim: #5b636e; --line: #d5dae1; --link: #0a58b0; --code: #f6f8fa; }
@media (prefers-color-scheme: dark) {
  :root { --page: #14171b; --text: #e2e6eb; --dim: #97a1ad; --line: #333a43; --link: #78b4ff; --code: #1b2026; }
}
body { background: var(--page); color: var(--text); font: 16px/1.5 system-ui, sans-serif; margin: 0 auto; max-width: 68rem; padding: 1rem 1.2rem 6rem; }
a { color: var(--link); text-decoration: none; } a:hover, a:focus { text-decoration: underline; }
pre { background: var(--code); border: 1px solid var(--line); border-radius: 6px; margin: .4rem 0; overflow-x: auto; padding: .6rem .8rem;
  font: 13px/1.45 ui-monospace, "DejaVu Sans Mono", monospace; }
pre:target, tr:target { border-color: var(--link); outline: 1px solid var(--link); }
h2 { border-bottom: 1px solid var(--line); margin-top: 2.6rem; padding-bottom: .2rem; } h3 { color: var(--dim); font-size: 1rem; margin: 1.6rem 0 .4rem; }
h3 { overflow-wrap: anywhere; } .comment, .rows, .line { color: var(--dim); } .line { -webkit-user-select: none; user-select: none; }
.rows { font-size: .85rem; margin: 0 0 .8rem; overflow-wrap: anywhere; }
table { border-collapse: collapse; } td { padding: .1rem 1.2rem .1rem 0; vertical-align: top; } td:first-child { white-space: nowrap; }
"""
_NAME = re.compile(r"[^\W\d][\w']*(?:-[\w']+)*|[◌-]?[-+*/%^&|=<≤≡∷]+ℤ?")


def anchor(target: Target) -> str:
    """Where a name is explained."""
    name = f"library.{target.name}" if target.kind == "library" else f"{target.module}.{target.name}"
    return name.removeprefix("Rattle.")


def type_of(piece: Piece) -> str:
    """The type that a piece of code declares; "" of a model or a function."""
    found = re.search(r"^(?:pub(?:\([^)]*\))? )?(?:struct|enum) (\w+)", piece.text, re.M)
    return found[1] if found else ""


class Links:
    """The names that have a place on the page."""

    def __init__(self, repository: Repository, statement: Statement):
        self.repository = repository
        self.known = {definition.target for definition in statement.needed}
        self.handed = set(filter(None, map(type_of, statement.handed)))

    def link(self, target: Target | None, word: str) -> str:
        """A word, as a link where it has a place."""
        if target is None or not (target in self.known or target.kind == "library"):
            return escape(word)
        return f'<a href="#{escape(anchor(target))}">{escape(word)}</a>'

    def by_places(self, definition: Needed) -> Iterator[tuple[int, str]]:
        """The lines of a definition, each name that it uses as a link."""
        for number, line in numbered(text_of(self.repository, definition), definition.first):
            done, html = 0, ""
            for (at, column, length), target in sorted(definition.places.items()):
                if at == number and column >= done:
                    html += escape(line[done:column]) + self.link(target, line[column:column + length])
                    done = column + length
            yield number, html + escape(line[done:])

    def by_names(self, lines: Iterable[tuple[int, str]], names: Iterable[Target]) -> Iterator[tuple[int, str]]:
        """Lines of code, each word that is one of the names, or a type that is handed in, as a link."""
        named = {target.name.replace("◌", ""): target for target in names}
        for number, line in lines:
            if line.lstrip().startswith("//"):
                yield number, escape(line)
                continue
            # the name of a clause is no use of a definition
            done = len(re.match(r"( *(?:requires|ensures) \w+)?", line)[0])  # type: ignore[index]
            html = escape(line[:done])
            for found in _NAME.finditer(line, done):
                word = found[0]
                html += escape(line[done:found.start()]) + (
                    f'<a href="#handed.{word}">{word}</a>' if word in self.handed else self.link(named.get(word), word))
                done = found.end()
            yield number, html + escape(line[done:])


def block(lines: Iterable[tuple[int, str]], name: str = "") -> str:
    """Lines with their numbers; comments are dim."""
    made = []
    for number, html in lines:
        text = f'<span class="comment">{html}</span>' if html.lstrip().startswith(("--", "//")) else html
        made.append(f'<span class="line">{number:>4}  </span>{text}')
    mark = f' id="{escape(name)}"' if name else ""
    return f"<pre{mark}>" + "\n".join(made) + "</pre>"


def table(rows: Iterable[tuple[str, str]], name: str = "") -> str:
    """Rows of two cells; with a name each row has a place."""
    made = []
    for first, second in rows:
        mark = f' id="{escape(name + first)}"' if name else ""
        made.append(f"<tr{mark}><td><code>{escape(first)}</code></td><td>{escape(second)}</td></tr>")
    return f"<table>{''.join(made)}</table>"


def definitions(statement: Statement, links: Links) -> Iterator[str]:
    """The definitions, by subject and file."""
    for number, (subject, files) in enumerate(statement.chapters):
        yield f'<h2 id="{number}">{escape(subject)}</h2>'
        for path, needed in files:
            shown: tuple[int, ...] = ()
            yield f"<h3>{escape(path)}</h3>"
            for definition in needed:
                head, shown = heads(definition, shown)
                if head:
                    yield block([(at, escape(line)) for at, line in numbered(head, definition.blocks[-1].first)])
                code = numbered(text_of(links.repository, definition), definition.first)
                yield block(links.by_names(code, definition.names) if definition.code else links.by_places(definition),
                            anchor(definition.target))
                if definition.target in statement.rows:
                    yield f'<p class="rows">rows: {escape(rows_by_file(statement.rows[definition.target]))}</p>'


def as_html(repository: Repository, statement: Statement, title: str) -> str:
    """The page."""
    links, function = Links(repository, statement), statement.function
    claimed = targets_of(repository, function.path, function, statement.clauses)
    subjects = {str(number): subject for number, (subject, _) in enumerate(statement.chapters)}
    contents = {"notation": "the notation", **subjects, "handed": HANDED, "libraries": LIBRARIES, "numbers": "numbers"}
    body = [f"<h1>{escape(title)}</h1>",
            "<p>Each definition that these clauses need, in an order in which each is read before it is used.</p>",
            f"<h3>{escape(os.path.relpath(function.path, repository.top))}</h3>",
            block(links.by_names(contract_of(statement), claimed)), "<ul>",
            *(f'<li><a href="#{at}">{escape(text)}</a></li>' for at, text in contents.items() if at != "handed" or statement.handed),
            "</ul>", '<h2 id="notation">The notation</h2>', table(notation()), *definitions(statement, links)]
    if statement.handed:
        body.append(f'<h2 id="handed">{escape(HANDED.capitalize())}</h2>')
    for path, pieces in pieces_by_file(statement).items():
        body.append(f"<h3>{escape(path)}</h3>")
        for piece in pieces:
            name = type_of(piece) and f"handed.{type_of(piece)}"
            body.append(block(links.by_names(numbered(piece.text, piece.first), piece.names), name))
    body.append(f'<h2 id="libraries">{escape(LIBRARIES.capitalize())}</h2>')
    for subject, names in meanings(library_names(statement)):
        body += [f"<h3>{escape(subject)}</h3>", table(names, "library.")]
    body += ['<h2 id="numbers">Numbers</h2>', table((str(count), name) for name, count in counts(statement))]
    return (f'<!doctype html>\n<html lang="en"><head><meta charset="utf-8"><meta name="viewport" content="width=device-width">'
            f"<title>{escape(title)}</title><style>{STYLE}</style></head>\n<body>\n" + "\n".join(body) + "\n</body></html>\n")
