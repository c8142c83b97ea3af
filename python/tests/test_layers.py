"""What imports what below python/, against the picture of the layers in python/README.md."""

import ast
import pathlib
import re
import unittest
from graphlib import CycleError, TopologicalSorter
from typing import Iterator

HOME = pathlib.Path(__file__).resolve().parents[1]
DISTRIBUTIONS = "formula_score", "formula_companion"


def modules() -> dict[str, pathlib.Path]:
    """Each module by its whole name; a package is named as its folder."""
    found = {}
    for path in sorted(HOME.glob("formula_*/**/*.py")):
        parts = path.relative_to(HOME).with_suffix("").parts
        if not {"build", "dist"} & {*parts}:
            found[".".join(parts).removesuffix(".__init__")] = path
    return found


MODULES = modules()


def imported(module: str) -> Iterator[str]:
    """The modules of python/ that a module imports, wherever in it, for types alone too."""
    own = module.split(".") if MODULES[module].name == "__init__.py" else module.split(".")[:-1]
    for node in ast.walk(ast.parse(MODULES[module].read_text(encoding="utf-8"))):
        if isinstance(node, ast.Import):
            yield from (name.name for name in node.names if name.name.split(".")[0] in DISTRIBUTIONS)
        elif isinstance(node, ast.ImportFrom):
            base = [*own[:len(own) - node.level + 1], *filter(None, [node.module])] if node.level else [str(node.module)]
            for name in node.names:
                whole = ".".join([*base, name.name])
                if base[0].split(".")[0] in DISTRIBUTIONS:
                    yield whole if whole in MODULES else ".".join(base)


def package(module: str) -> str:
    """The package of a module, directly below that of its distribution, which has its own name, and its names too."""
    return ".".join(module.removesuffix(".names").split(".")[:2])


def layers() -> dict[str, int]:
    """Each package of the picture, with its row from the top."""
    picture = re.search(r"^```\n(formula_companion +\|.*?)^```", (HOME / "README.md").read_text(encoding="utf-8"), re.M | re.S)
    assert picture is not None
    found, whole = {}, ""
    for row, line in enumerate(picture[1].splitlines()):
        left, names, _ = (cell.strip() for cell in line.split("|"))
        whole = left or whole
        for name in names.split():
            found[whole if name == whole else f"{whole}.{name}"] = row
    return found


class Layers(unittest.TestCase):
    def test_each_package_is_in_the_picture(self) -> None:
        packages = {package(name) for name, path in MODULES.items() if path.name in ("__init__.py", "__main__.py")}
        self.assertEqual({*layers()} | {"formula_companion"}, packages)
        # nothing but the names of the library stands outside a package
        self.assertEqual([name for name in MODULES if package(name) == name and name not in packages], [])

    def test_a_package_imports_lower_ones_alone(self) -> None:
        rows = layers()
        wrong = [f"{module} imports {other}" for module in MODULES for other in imported(module)
                 if package(module) != package(other) and rows[package(module)] >= rows[package(other)]]
        self.assertEqual(wrong, [])

    def test_no_module_imports_itself_by_others(self) -> None:
        try:
            TopologicalSorter({module: {*imported(module)} - {module} for module in MODULES}).prepare()
        except CycleError as found:
            self.fail(" <- ".join(found.args[1]))


if __name__ == "__main__":
    unittest.main()
