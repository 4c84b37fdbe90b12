"""Values of scripts, in plain Python: what the plain Judge computes with. After docs/values.md.

None, True, False, numbers and texts are Python's own, and tuples are tuples. All other values are of the classes below.
"""
import dataclasses
import re
import unicodedata

MOST_BYTES, MOST_ITEMS, MOST_DEPTH = 65_536, 4_096, 64
LEAST_INT, GREATEST_INT = -(2**127), 2**127 - 1

# Each kind of error, with the kind above it.
ABOVE = {
    "BaseException": None,
    "Exception": "BaseException",
    "ArithmeticError": "Exception",
    "ZeroDivisionError": "ArithmeticError",
    "AttributeError": "Exception",
    "ImportError": "Exception",
    "ModuleNotFoundError": "ImportError",
    "LookupError": "Exception",
    "IndexError": "LookupError",
    "KeyError": "LookupError",
    "NameError": "Exception",
    "UnboundLocalError": "NameError",
    "RuntimeError": "Exception",
    "RecursionError": "RuntimeError",
    "_DeadlockError": "RuntimeError",
    "SyntaxError": "Exception",
    "TypeError": "Exception",
    "ValueError": "Exception",
    "ProfileError": None,
}
NATIVES = ("print", "str", "repr", "len", "hasattr", "getattr", "invalidate_caches", "reload", "lazy")
KEYWORDS = frozenset(
    "False None True and as assert async await break class continue def del elif else except finally for from global if "
    "import in is lambda nonlocal not or pass raise return try while with yield".split()
)


@dataclasses.dataclass(frozen=True)
class List:
    items: tuple


@dataclasses.dataclass(frozen=True)
class Func:
    load: int
    index: int
    name: str


@dataclasses.dataclass(frozen=True)
class Native:
    name: str


@dataclasses.dataclass(frozen=True)
class Kind:
    name: str


@dataclasses.dataclass(frozen=True)
class Module:
    """A module: its number, its name, and its place, which is ("file", TEXT), ("builtin",) or ("namespace",)."""

    mid: int
    name: str
    place: tuple


@dataclasses.dataclass(frozen=True)
class Error:
    kind: str
    text: str
    name: str = None


@dataclasses.dataclass(frozen=True)
class Special:
    """sys.modules, sys.path, or the path of a namespace package."""

    word: str


SYS_MODULES, SYS_PATH, NS_PATH = Special("sysmodules"), Special("syspath"), Special("nspath")


class Raised(Exception):
    """An error of a script, on its way."""

    def __init__(self, error):
        super().__init__(error)
        self.error = error


def raises(kind, text, name=None):
    raise Raised(Error(kind, text, name))


def outside(text="not in the profile"):
    raises("ProfileError", text)


# Names.


def is_identifier(text):
    return text.isidentifier()


def is_dotted(text):
    parts = text.split(".")
    return all(is_identifier(it) and it not in KEYWORDS and unicodedata.normalize("NFKC", it) == it for it in parts)


def is_kind(name, above):
    """Whether an error of a kind is one of another."""
    while name is not None and name != above:
        name = ABOVE[name]
    return name is not None


# What a value is.


def type_name(value):
    if isinstance(value, Error):
        return value.kind
    if isinstance(value, Kind) or value == Native("str"):
        return "type"
    names = {List: "list", Func: "function", Native: "builtin_function_or_method", Module: "module", type(None): "NoneType"}
    specials = {SYS_MODULES: "dict", SYS_PATH: "list"}
    return specials[value] if isinstance(value, Special) else names.get(type(value), type(value).__name__)


def items_of(value):
    """The items of a list or tuple, else None."""
    return value.items if isinstance(value, List) else value if isinstance(value, tuple) else None


def is_number(value):
    return isinstance(value, int)


def truth(value):
    return bool(value.items if isinstance(value, List) else value)


def bytes_of(text):
    return len(text.encode())


def size(value):
    if isinstance(value, str):
        return bytes_of(value) // 64
    if isinstance(value, Error):
        return bytes_of(value.text) // 64
    items = items_of(value)
    return 0 if items is None else list_size(items)


def list_size(items):
    """What the items of a list, a path or a list of names cost."""
    return len(items) + sum(map(size, items))


def depth(value):
    items = items_of(value)
    return 0 if items is None else 1 + max(map(depth, items), default=0)


def holds(value, is_one):
    """Whether a value is one of a sort, or holds one at any depth."""
    return is_one(value) or any(holds(it, is_one) for it in items_of(value) or ())


def limited(value):
    """A value that an operator or a display gives, or its ProfileError where it is past a limit."""
    if isinstance(value, str) and bytes_of(value) > MOST_BYTES:
        outside("text too long")
    items = items_of(value)
    if items is not None:
        if len(items) > MOST_ITEMS:
            outside("list too long")
        if depth(value) > MOST_DEPTH:
            outside("list too deep")
    if is_number(value) and not LEAST_INT <= value <= GREATEST_INT:
        outside("number past 128 bits")
    return value


# str and repr.


def quoted(text):
    """A text as repr shows it."""
    mark = '"' if "'" in text and '"' not in text else "'"
    marks = {"\\": "\\\\", mark: "\\" + mark, "\n": "\\n", "\r": "\\r", "\t": "\\t"}
    plain = lambda letter: f"\\x{ord(letter):02x}" if ord(letter) < 32 or ord(letter) == 127 else letter
    return mark + "".join(marks.get(letter, plain(letter)) for letter in text) + mark


def repr_of_module(value):
    place = value.place
    told = f"from {quoted(place[1])}" if place[0] == "file" else "(built-in)" if place[0] == "builtin" else "(namespace)"
    return f"<module {quoted(value.name)} {told}>"


def repr_text(value):
    items = items_of(value)
    if items is not None:
        shown = ", ".join(map(repr_text, items))
        return f"[{shown}]" if isinstance(value, List) else f"({shown},)" if len(items) == 1 else f"({shown})"
    if isinstance(value, str):
        return quoted(value)
    if isinstance(value, (Error, Special)):
        outside()
    if isinstance(value, Module):
        return repr_of_module(value)
    if isinstance(value, Func):
        return f"<function {value.name}>"
    if isinstance(value, Kind) or value == Native("str"):
        return f"<class {quoted(value.name)}>"
    return f"<built-in function {value.name}>" if isinstance(value, Native) else str(value)


def repr_of(value):
    return limited(repr_text(value))


def str_of(value):
    if isinstance(value, Error):
        return value.text
    return value if isinstance(value, str) else repr_of(value)


# Operators.


def unsupported(op, left, right):
    raises("TypeError", f"unsupported operand type(s) for {op}: '{type_name(left)}' and '{type_name(right)}'")


def of_numbers(op, left, right):
    if op in ("//", "%") and right == 0:
        raises("ZeroDivisionError", "division by zero")
    made = {
        "+": lambda: left + right,
        "-": lambda: left - right,
        "*": lambda: left * right,
        "//": lambda: left // right,
        "%": lambda: left % right,
    }
    return limited(int(made[op]()))


def joined(left, right):
    """Two texts, lists or tuples joined."""
    if isinstance(left, List):
        return limited(List(left.items + right.items))
    return limited(left + right)


def repeated(text, times):
    if times > 0 and bytes_of(text) * times > MOST_BYTES:
        outside("text too long")
    return text * times if text and times > 0 else ""


def binary(op, left, right):
    if is_number(left) and is_number(right):
        return of_numbers(op, left, right)
    if op == "%" and isinstance(left, str):
        outside()
    if op == "+" and type(left) is type(right) and isinstance(left, (str, List, tuple)):
        return joined(left, right)
    for one, other in ((left, right), (right, left)):
        if op == "*" and is_number(other) and isinstance(one, (str, List, tuple)):
            return repeated(one, other) if isinstance(one, str) else outside()
    unsupported(op, left, right)


def negated(value):
    if not is_number(value):
        raises("TypeError", f"bad operand type for unary -: '{type_name(value)}'")
    return limited(-value)


def equal(left, right):
    """Whether two values that hold no error are equal."""
    if is_number(left) and is_number(right):
        return left == right
    if type(left) is not type(right):
        return False
    if isinstance(left, Func):
        return (left.load, left.index) == (right.load, right.index)
    if isinstance(left, Module):
        return left.mid == right.mid
    items, others = items_of(left), items_of(right)
    if items is None:
        return left == right
    return len(items) == len(others) and all(map(equal, items, others))


def less(op, left, right):
    """`<` and its kin."""
    made = {"<": lambda a, b: a < b, "<=": lambda a, b: a <= b, ">": lambda a, b: a > b, ">=": lambda a, b: a >= b}[op]
    if is_number(left) and is_number(right) or isinstance(left, str) and isinstance(right, str):
        return made(left, right)
    if type(left) is type(right) and isinstance(left, (List, tuple)):
        items, others = items_of(left), items_of(right)
        for one, other in zip(items, others):
            if not equal(one, other):
                return less(op, one, other)
        return made(len(items), len(others))
    raises("TypeError", f"'{op}' not supported between instances of '{type_name(left)}' and '{type_name(right)}'")


def compare(op, left, right):
    if any(holds(it, lambda value: isinstance(value, (Error, Special))) for it in (left, right)):
        outside()
    if op in ("==", "!="):
        return equal(left, right) == (op == "==")
    return less(op, left, right)


def contains(container, item):
    items = items_of(container)
    if items is not None:
        return any(compare("==", it, item) for it in items)
    if isinstance(container, str) and isinstance(item, str):
        return item in container
    raises("TypeError", f"argument of type '{type_name(container)}' is not iterable")


def is_same(left, right):
    if left is None or right is None:
        return left is None and right is None
    if isinstance(left, Module) and isinstance(right, Module):
        return left.mid == right.mid
    outside()


def subscript(value, index):
    items = value if isinstance(value, str) else items_of(value)
    if items is None:
        raises("TypeError", f"'{type_name(value)}' object is not subscriptable")
    if not is_number(index):
        raises("TypeError", "indices must be integers")
    if not -len(items) <= index < len(items):
        name = "string" if isinstance(value, str) else type_name(value)
        raises("IndexError", f"{name} index out of range")
    return items[index]


def resolved(package, level, name):
    """A relative name made absolute, by a package that is a text or None."""
    if not isinstance(package, str) or not is_dotted(package):
        raises("ImportError", "attempted relative import with no known parent package")
    parts = package.split(".")
    if len(parts) < level:
        raises("ImportError", "attempted relative import beyond top-level package")
    return ".".join(parts[: len(parts) - level + 1] + ([name] if name else []))


def tree_path(text):
    """The parts of a tree path, or None."""
    if text in ("", "."):
        return ()
    parts = tuple(text.split("/"))
    return None if any(it in ("", ".", "..") or "\0" in it for it in parts) else parts


TEXT_ESCAPES = {"\\": "\\\\", '"': '\\"', "\n": "\\n", "\r": "\\r", "\t": "\\t"}


def spelled_text(text):
    """A text as a trace spells it."""
    plain = lambda found: TEXT_ESCAPES.get(found[0]) or f"\\x{ord(found[0]):02x}"
    return '"' + re.sub(r'[\\"\x00-\x1f\x7f]', plain, text) + '"'
