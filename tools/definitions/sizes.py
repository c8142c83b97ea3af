"""What the translation has to know of an item: its name in Python, whether it says something, how many parts it has, and the
value of a constant."""
from __future__ import annotations

import keyword
import re

from notation import Block, Item, NotRead, Word, signature_of
from repository import Repository, Target
from rust import CodeItem


def safe(name: str) -> str:
    """A name as Python takes it."""
    plain = "".join(sign if sign.isascii() and (sign.isalnum() or sign == "_") else f"_{ord(sign):x}" for sign in name)
    return f"{plain}_" if keyword.iskeyword(plain) else plain


def local(name: str) -> str:
    return f"v_{safe(name)}"


def label_of(name: str) -> str:
    return f"[{name}]" if name.isdigit() else f".{safe(name)}"


def global_name(target: Target) -> str:
    module = target.module.removeprefix("Rattle.").replace(".specs.", ".").replace(".proofs.", ".")
    return safe(f"{module}__{target.name}".replace(".", "_"))


def says_only(item: Item) -> bool:
    """Whether the value of a definition is a type."""
    behind, unfolded, _ = signature_of(item)
    depth, last = 0, ""
    for word in item.words[behind + 1:unfolded]:
        depth += (word.text in "({[") - (word.text in ")}]") if len(word.text) == 1 else 0
        if word.text == "→" and depth == 0:
            last = ""
        elif not last:
            last = word.text
    return last == "Type"


def block_parameters(block: Block) -> list[str]:
    """The explicit names that a section is given."""
    words, found, at = block.head, [], 0
    while at < len(words):
        if words[at].text == "(":
            at += 1
            while words[at].text != ":":
                found.append(words[at].text)
                at += 1
            depth = 1
            while depth:
                depth += (words[at].text == "(") - (words[at].text == ")")
                at += 1
        else:
            at += 1
    return found if block.kind == "module" else []


def constructor_size(item: Item, name: str) -> int:
    """The number of explicit arguments of a constructor of a `data`."""
    line = item.constructors[name]
    at = next(index for index, word in enumerate(item.words) if word.line == line and word.parts[-1] == name)
    while item.words[at].text != ":":
        at += 1
        if at == len(item.words):
            return 0
    column = next(word.column for word in item.words if word.line == line)
    depth, count, index = 0, 0, at + 1
    while index < len(item.words) and (item.words[index].line == line or item.words[index].column > column):
        text = item.words[index].text
        if text == "(" and depth == 0 and names_before_colon(item.words, index):
            count += names_before_colon(item.words, index) - 1
        if text == "{" and depth == 0:
            count -= 1
        depth += (text in "({") - (text in ")}") if len(text) == 1 else 0
        if text == "→" and depth == 0:
            count += 1
        elif text in ("(", "{") and depth == 1 and item.words[index - 1].text in (")", "}") and index > at + 1:
            # `(x : A) (y : B) →`
            count += 1
        index += 1
    return count


def names_before_colon(words: list[Word], at: int) -> int:
    """How many names `(x y : A)` binds; 0 where the bracket holds something else."""
    index = at + 1
    while words[index].kind == "name" and words[index].text not in (":", "→"):
        index += 1
    return index - at - 1 if words[index].text == ":" else 0


def variant_size(item: CodeItem, name: str) -> int:
    """The number of fields of a variant of an enum, or of a struct."""
    text = re.sub(r"//.*", "", item.text)
    match = re.search(rf"^ *{name}\b *([({{])?", text[text.index("{"):], re.M)
    if match is None:
        raise NotRead(f"{item.path}:{item.first}: no variant {name}")
    if not match[1]:
        return 0
    inner = text[text.index("{") + match.end():]
    depth, count, filled = 1, 0, False
    for sign in inner:
        depth += (sign in "({[<") - (sign in ")}]>")
        if depth == 0:
            break
        if sign == "," and depth == 1:
            count, filled = count + 1, False
        elif not sign.isspace():
            filled = True
    return count + filled


def constant(repository: Repository, crate: str, name: str) -> int:
    """The value of a constant of the code."""
    item = repository.code(crate)[name]
    match = re.search(r"=\s*(.*);", item.text.split("\n")[-1])
    if match is None:
        raise NotRead(f"{item.path}:{item.first}: a constant of another form")
    text = re.sub(r"\bas \w+", "", match[1])
    needed = repository.code_needed(Target("code", crate, name)).names
    names = {definition.name: constant(repository, definition.module, definition.name)
             for definition in needed if definition.kind == "code"}
    if not re.fullmatch(r"[\w\s+*<>()-]*", text):
        raise NotRead(f"{item.path}:{item.first}: a constant of another form: {text}")
    return int(eval(text, {"__builtins__": {}}, dict(names)))
