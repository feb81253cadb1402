"""The names of a module or package of Python: those of `__all__`, or what has no underscore."""
import ast
import os

from .page import Name, Part, first_paragraph


def words_of(node):
    return first_paragraph((ast.get_docstring(node) or "").split("\n"))


def is_public(name):
    return not name.startswith("_")


def call_of(node, indent=""):
    """How a function is declared."""
    marks = [f"@{ast.unparse(it)}\n" for it in node.decorator_list]
    returns = f" -> {ast.unparse(node.returns)}" if node.returns else ""
    return f"{''.join(marks)}def {node.name}({ast.unparse(node.args)}){returns}"


def assigned(node):
    """The names that an assignment gives a value, each with its line."""
    if isinstance(node, ast.AnnAssign) and isinstance(node.target, ast.Name):
        return [(node.target.id, ast.unparse(node))]
    if not isinstance(node, ast.Assign):
        return []
    target, value = node.targets[0], node.value
    if isinstance(target, ast.Tuple) and isinstance(value, ast.Tuple):
        pairs = zip(target.elts, value.elts)
    else:
        pairs = [(target, value)]
    return [(it.id, f"{it.id} = {ast.unparse(to)}") for it, to in pairs if isinstance(it, ast.Name)]


def names_of(node):
    """The names that a statement defines."""
    if isinstance(node, (ast.FunctionDef, ast.AsyncFunctionDef)):
        return [Name(node.name, call_of(node), words_of(node))]
    if isinstance(node, ast.ClassDef):
        bases = f"({', '.join(map(ast.unparse, node.bases))})" if node.bases else ""
        within = [one for it in node.body for one in names_of(it) if is_public(one.title)]
        return [Name(node.name, f"class {node.name}{bases}", words_of(node), within)]
    return [Name(title, code, "") for title, code in assigned(node)]


def parsed(path):
    with open(path, encoding="utf-8") as file:
        return ast.parse(file.read())


def file_of(folder, module):
    """The file of a module in a folder, or None."""
    paths = (f"{folder}/{module}.py", f"{folder}/{module}/__init__.py")
    return next(filter(os.path.exists, paths), None)


def defined(path):
    """What a file defines or takes from modules next to it, by name."""
    tree, folder = parsed(path), os.path.dirname(path)
    found = {}
    for node in tree.body:
        if isinstance(node, ast.ImportFrom) and node.level == 1:
            module = file_of(folder, node.module)
            theirs = defined(module) if module else {}
            for it in node.names:
                if it.name in theirs:
                    found[it.asname or it.name] = theirs[it.name]
        else:
            found.update((it.title, it) for it in names_of(node))
    return found


def listed(tree):
    """The names of `__all__`, or None."""
    for node in tree.body:
        if any(name == "__all__" for name, _ in assigned(node)):
            return ast.literal_eval(node.value)
    return None


def constants_together(names):
    """Constants without words that follow each other are one name."""
    kept = []
    for one in names:
        is_plain = not one.words and not one.within and one.code.startswith(one.title)
        if kept and is_plain and kept[-1][1]:
            last = kept[-1][0]
            kept[-1] = (Name(f"{last.title}, {one.title}", f"{last.code}\n{one.code}", ""), True)
        else:
            kept.append((one, is_plain))
    return [it for it, _ in kept]


def parts(folder, module):
    path = file_of(folder, module)
    tree, found = parsed(path), defined(path)
    names = listed(tree)
    if names is None:
        names = [it for it in found if is_public(it)]
    return [Part(f"`{module}`", words_of(tree), constants_together([found[it] for it in names]))]
