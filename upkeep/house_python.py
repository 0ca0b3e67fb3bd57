"""The names that modules of Python define at their top, which house.py prints where they have several meanings."""
import ast
import os
import re

# Where Python is that is no test.
FOLDERS_OF_PYTHON = ("tools", "python", "bench", "quandles", "upkeep")
# How the line of CONTRIBUTING.md begins that says which names several modules may define.
MAY_BE_SHARED = "- A top-level name of Python has one meaning"


def python_names(top):
    """The functions, classes and constants at the top of modules, each as its name, path and line."""
    for root in FOLDERS_OF_PYTHON:
        for folder, _, names in sorted(os.walk(os.path.join(top, root))):
            for path in sorted(os.path.join(folder, name) for name in names if name.endswith(".py")):
                with open(path, encoding="utf-8") as file:
                    statements = ast.parse(file.read()).body
                yield from ((name, path, statement.lineno) for statement in statements for name in names_defined(statement))


def names_defined(statement):
    """The names that a statement defines, without those to which Python itself gives a meaning."""
    if isinstance(statement, (ast.ClassDef, ast.FunctionDef)):
        return [statement.name]
    targets = [statement.target] if isinstance(statement, ast.AnnAssign) else statement.targets if isinstance(statement, ast.Assign) else []
    leaves = (leaf for target in targets for leaf in ast.walk(target))
    return [leaf.id for leaf in leaves if isinstance(leaf, ast.Name) and isinstance(leaf.ctx, ast.Store) and not leaf.id.startswith("__")]


def shared_names(top):
    """The names that CONTRIBUTING.md says several modules define, each with a reason."""
    with open(os.path.join(top, "CONTRIBUTING.md"), encoding="utf-8") as page:
        said = [line for line in page if line.startswith(MAY_BE_SHARED)]
    return {name for line in said for name in re.findall(r"`(\w+)`", line)}
