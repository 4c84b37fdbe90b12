"""What scripts mean, in plain Python. After docs/running.md and the pages on values: statements and expressions are run on the
replies that a trace has, and pay for what they do.
"""
import functools

import plain_imports
import plain_language as language
import plain_thread
import plain_trace as trace
import plain_values as values

BUILTINS = {name: values.Kind(name) for name in values.ABOVE if name not in ("ProfileError", "_DeadlockError")}
BUILTINS |= {name: values.Native(name) for name in ("print", "str", "repr", "len", "hasattr", "getattr")}
ARGUMENTS = {
    "str": (0, 1),
    "repr": (1,),
    "len": (1,),
    "hasattr": (2,),
    "getattr": (2, 3),
    "invalidate_caches": (0,),
    "reload": (1,),
    "lazy": (1,),
    "get": (1, 2),
    "pop": (1, 2),
    "append": (1,),
    "insert": (2,),
}
METHODS = {values.SYS_MODULES: ("get", "pop"), values.SYS_PATH: ("append", "insert")}
MISSING = object()
parse = functools.lru_cache(maxsize=64)(language.parse)


class Return(Exception):
    def __init__(self, value):
        super().__init__(value)
        self.value = value


class Break(Exception):
    pass


class Continue(Exception):
    pass


class Code:
    """Where code runs: the module whose variables it has, the load that its functions belong to, and a call's locals."""

    def __init__(self, load, module, function=None, known=()):
        self.load, self.module, self.mid = load, module, module.mid
        self.function, self.locals = function, dict(known)

    def is_local(self, name):
        return self.function is not None and name in self.function.local


def unset_local(name):
    values.raises(
        "UnboundLocalError", f"cannot access local variable '{name}' where it is not associated with a value"
    )


def not_defined(name):
    values.raises("NameError", f"name '{name}' is not defined")


def is_none_or_module(value):
    return value is None or isinstance(value, values.Module)


class Running(plain_imports.Imports):
    """A script that runs."""

    def __init__(self, *words):
        super().__init__(*words)
        self.code, self.sources, self.handled = None, {}, []

    # Bodies and calls.

    def body(self, load, module, text):
        with self.one_more_open():
            self.pay(len(text) // 64)
            self.sources[load] = (module, text)
            try:
                script = parse(text)
            except language.Refused as why:
                values.raises(*language.error_of(why))
            self.within(Code(load, module), script.body)

    def within(self, code, block):
        outer, self.code = self.code, code
        try:
            self.run(block)
        finally:
            self.code = outer

    def function_of(self, value):
        """The module of a function and its tree."""
        if value.load not in self.sources:
            self.sources[value.load] = self.event("source", value.load)[1:]
        module, text = self.sources[value.load]
        try:
            return module, parse(text).functions[value.index]
        except (language.Refused, IndexError):
            return values.outside()

    def call_function(self, value, arguments):
        with self.one_more_open():
            module, function = self.function_of(value)
            wanted, given = len(function.params), len(arguments)
            if wanted != given:
                values.raises("TypeError", f"{value.name}() takes {wanted} arguments, {given} given")
            try:
                self.within(Code(value.load, module, function, zip(function.params, arguments)), function.body)
            except Return as way:
                return way.value

    # Statements.

    def run(self, block):
        for stmt in block:
            if stmt[0] != "while":
                self.pay(1)
            getattr(self, "run_" + stmt[0])(*stmt[1:])

    def run_expr(self, expr):
        self.value(expr)

    def run_pass(self):
        pass

    def run_break(self):
        raise Break

    def run_continue(self):
        raise Continue

    def run_return(self, expr):
        raise Return(None if expr is None else self.value(expr))

    def run_def(self, index, name):
        self.store(name, values.Func(self.code.load, index, name))

    def run_if(self, cases, other):
        for test, block in cases:
            if self.truth(self.value(test)):
                return self.run(block)
        return self.run(other)

    def run_while(self, test, block):
        self.pay(1)
        while self.truth(self.value(test)):
            try:
                self.run(block)
            except Break:
                return
            except Continue:
                pass
            self.pay(1)

    def run_raise(self, expr):
        if expr is None:
            if not self.handled:
                values.raises("RuntimeError", "No active exception to reraise")
            raise values.Raised(self.handled[-1])
        value = self.listed_path(self.value(expr))
        if isinstance(value, values.Kind):
            value = self.call_kind(value, [])
        if not isinstance(value, values.Error):
            values.raises("TypeError", "exceptions must derive from BaseException")
        raise values.Raised(value)

    def run_try(self, body, handlers, other, last):
        try:
            self.run_guarded(body, handlers, other)
        except (values.Raised, Return, Break, Continue) as way:
            if last:
                self.run_handling(way.error if isinstance(way, values.Raised) else None, last)
            raise
        if last:
            self.run(last)

    def run_guarded(self, body, handlers, other):
        try:
            self.run(body)
        except values.Raised as way:
            if way.error.kind == "ProfileError":
                raise
            found = self.handler_of(way.error, handlers)
            if found is None:
                raise
            return self.run_handler(way.error, *found)
        return self.run(other or [])

    def handler_of(self, error, handlers):
        """The name and the block of the handler that an error meets, or None."""
        for expr, name, block in handlers:
            if expr is None or any(values.is_kind(error.kind, it.name) for it in self.kinds(expr)):
                return name, block
        return None

    def kinds(self, expr):
        value = self.listed_path(self.value(expr))
        kinds = value if isinstance(value, tuple) else (value,)
        if not all(isinstance(it, values.Kind) for it in kinds):
            values.raises("TypeError", "catching classes that do not inherit from BaseException is not allowed")
        return kinds

    def run_handler(self, error, name, block):
        if name is None:
            return self.run_handling(error, block)
        self.store(name, error)
        try:
            self.run_handling(error, block)
        except (values.Raised, Return, Break, Continue):
            self.unset(name)
            raise
        self.unset(name)

    def run_handling(self, error, block):
        """Runs a block that handles an error, or a `finally` block that another way enters."""
        self.handled += [error] if error else []
        try:
            self.run(block)
        finally:
            if error:
                self.handled.pop()

    # Variables.

    def store(self, name, value):
        if self.code.is_local(name):
            self.code.locals[name] = value
        else:
            self.fixed(self.event("set", self.code.mid, name, value, "raw"))

    def fixed(self, reply):
        if reply[0] == "fixed":
            values.outside()
        return reply

    def unset(self, name):
        """Unsets a name that may be unset already, and tells whether it was set."""
        if self.code.is_local(name):
            return self.code.locals.pop(name, MISSING) is not MISSING
        return self.fixed(self.event("del", self.code.mid, name, "raw"))[0] != "unset"

    def value_name(self, name):
        self.pay(1)
        if self.code.is_local(name):
            return self.code.locals[name] if name in self.code.locals else unset_local(name)
        reply = self.event("get", self.code.mid, name, "raw")
        if reply[0] == "value":
            return self.value_of(self.code.module, reply[1])
        return BUILTINS[name] if name in BUILTINS else not_defined(name)

    # Targets.

    def run_assign(self, target, expr):
        value = self.value(expr)
        self.assign(target, value)

    def assign(self, target, value):
        if target[0] == "name":
            return self.store(target[1], value)
        inner = self.value(target[1])
        if target[0] == "attribute":
            self.fixed(self.soft("set", self.module_only(inner), target[2], value))
        else:
            self.set_item(inner, self.value(target[2]), value)

    def module_only(self, value):
        value = self.listed_path(value)
        return value if isinstance(value, values.Module) else values.outside()

    def set_item(self, container, key, value):
        if container == values.SYS_MODULES:
            name = self.key(key)
            if name is None or not is_none_or_module(value):
                values.outside()
            return self.fixed(self.event("tabset", name, "halted" if value is None else value))
        self.no_items(container)

    def no_items(self, container):
        """Items of a list are not set or deleted in this language, and those of other values nowhere."""
        container = self.listed_path(container)
        if isinstance(container, values.List):
            values.outside()
        values.raises("TypeError", f"'{values.type_name(container)}' object does not support item assignment")

    def run_augmented(self, name, op, expr):
        left, right = self.value(("name", name)), self.value(expr)
        self.pay(1)
        left, right = self.plain(left), self.plain(right)
        if op == "+" and isinstance(left, values.List):
            values.outside()
        value = values.binary(op, left, right)
        self.pay(values.size(value))
        self.store(name, value)

    def run_del(self, target):
        if target[0] == "name":
            if not self.unset(target[1]):
                unset_local(target[1]) if self.code.is_local(target[1]) else not_defined(target[1])
            return
        inner = self.value(target[1])
        if target[0] == "attribute":
            reply = self.fixed(self.soft("del", self.module_only(inner), target[2]))
            if reply[0] == "unset":
                values.raises("AttributeError", f"'module' object has no attribute '{target[2]}'")
            return
        key = self.value(target[2])
        if inner == values.SYS_MODULES:
            self.popped(key)
        else:
            self.no_items(inner)

    # Imports.

    def run_import(self, names):
        for name, other in names:
            self.store(*self.import_statement(name, other))

    def run_from(self, level, name, names):
        if level:
            reply = self.event("get", self.code.mid, "__package__", "raw")
            package = reply[1] if reply[0] == "value" else None
            name = values.resolved(package, level, name)
        bound = self.star_statement(name) if names == "*" else self.from_statement(name, names)
        for variable, value in bound:
            self.store(variable, value)

    # Expressions.

    def value(self, expr):
        """The value of an expression, which is paid for."""
        if expr[0] == "enclosed":
            return self.value(expr[1])
        value = getattr(self, "value_" + expr[0])(*expr[1:])
        self.pay(values.size(value))
        return value

    def listed_path(self, value):
        """sys.path is the list of its items wherever it is used."""
        return values.List(self.event("pathget")[1]) if value == values.SYS_PATH else value

    def plain(self, value):
        """A value as an operand: sys.modules is none."""
        return values.outside() if value == values.SYS_MODULES else self.listed_path(value)

    def truth(self, value):
        return values.truth(self.plain(value))

    def value_constant(self, value):
        self.pay(1)
        return values.limited(value)

    def items(self, exprs):
        items = tuple(map(self.value, exprs))
        self.pay(1)
        if any(isinstance(it, values.Special) for it in items):
            values.outside()
        return items

    def value_list(self, exprs):
        return values.limited(values.List(self.items(exprs)))

    def value_tuple(self, exprs):
        return values.limited(self.items(exprs))

    def value_or(self, left, right):
        return self.either(left, right, True)

    def value_and(self, left, right):
        return self.either(left, right, False)

    def either(self, left, right, is_or):
        value = self.value(left)
        self.pay(1)
        value = self.plain(value)
        return value if values.truth(value) == is_or else self.value(right)

    def value_not(self, expr):
        value = self.value(expr)
        self.pay(1)
        return not self.truth(value)

    def value_negative(self, expr):
        value = self.value(expr)
        self.pay(1)
        return values.negated(self.plain(value))

    def value_binary(self, op, left, right):
        left, right = self.value(left), self.value(right)
        self.pay(1)
        left = self.plain(left)
        return values.binary(op, left, self.plain(right))

    def value_compare(self, op, left, right):
        left, right = self.value(left), self.value(right)
        self.pay(1)
        if op in ("in", "not in"):
            return self.contains(left, right) == (op == "in")
        left = self.plain(left)
        right = self.plain(right)
        if op in ("is", "is not"):
            return values.is_same(left, right) == (op == "is")
        return values.compare(op, left, right)

    def contains(self, item, container):
        if container == values.SYS_MODULES:
            name = self.key(item)
            return name is not None and self.event("tabget", name)[1] != "absent"
        item = self.plain(item)
        return values.contains(self.plain(container), item)

    def value_item(self, container, index):
        container, index = self.value(container), self.value(index)
        self.pay(1)
        if container == values.SYS_MODULES:
            return self.entry(index)
        container = self.plain(container)
        return values.subscript(container, self.plain(index))

    def value_attribute(self, expr, name):
        value = self.value(expr)
        self.pay(1)
        return self.attribute(value, name)

    def attribute(self, value, name):
        if isinstance(value, values.Error) and name == "name" and values.is_kind(value.kind, "ImportError"):
            return value.name
        if not isinstance(value, values.Module):
            values.outside()
        reply = self.soft("get", value, name)
        if reply[0] == "unset":
            plain_imports.no_attribute(value, name, reply[1] == "init")
        return self.value_of(value, reply[1])

    # The cache by its keys.

    def key(self, value):
        """The dotted name that a key is, or None; TypeError where it cannot be one."""
        value = self.plain(value)
        if values.holds(value, lambda it: isinstance(it, values.List)):
            values.raises("TypeError", "unhashable type: 'list'")
        return value if isinstance(value, str) and values.is_dotted(value) else None

    def entry(self, key, default=MISSING):
        name = self.key(key)
        slot = "absent" if name is None else self.event("tabget", name)[1]
        return self.of_slot(key, slot, default)

    def of_slot(self, key, slot, default):
        if slot == "absent":
            return values.raises("KeyError", values.repr_of(key)) if default is MISSING else default
        return None if slot == "halted" else slot

    def popped(self, key, default=MISSING):
        name = self.key(key)
        slot = "absent" if name is None else self.fixed(self.event("tabdel", name))[-1]
        return self.of_slot(key, slot, default)

    # Calls.

    def value_call(self, callee, exprs):
        while callee[0] == "enclosed":
            callee = callee[1]
        method = callee[2] if callee[0] == "attribute" else None
        if method is None:
            value, owner = self.value(callee), None
        else:
            owner = self.value(callee[1])
            self.pay(1)
            is_method = isinstance(owner, values.Special) and method in METHODS[owner]
            value = None if is_method else self.attribute(owner, method)
            if not is_method:
                self.pay(values.size(value))
                owner = None
        arguments = list(map(self.value, exprs))
        self.pay(1)
        return self.call_method(owner, method, arguments) if owner else self.call(value, arguments)

    def call(self, value, arguments):
        if isinstance(value, values.Func):
            return self.call_function(value, arguments)
        if isinstance(value, values.Kind):
            return self.call_kind(value, arguments)
        if isinstance(value, values.Native):
            self.count(value.name, arguments)
            return getattr(self, "call_" + value.name)(*arguments)
        return values.raises("TypeError", f"'{values.type_name(value)}' object is not callable")

    def count(self, name, arguments):
        if name in ARGUMENTS and len(arguments) not in ARGUMENTS[name]:
            values.raises("TypeError", f"wrong number of arguments for {name}()")

    def call_kind(self, kind, arguments):
        if len(arguments) > 1:
            values.outside()
        shown = values.repr_of if kind.name == "KeyError" else values.str_of
        return values.Error(kind.name, shown(self.plain(arguments[0])) if arguments else "")

    def call_method(self, owner, method, arguments):
        self.count(method, arguments)
        return getattr(self, "method_" + method)(*arguments)

    def method_get(self, key, default=None):
        return self.entry(key, default)

    def method_pop(self, key, default=MISSING):
        return self.popped(key, default)

    def method_append(self, value):
        self.add_entry(None, value)

    def method_insert(self, index, value):
        if not values.is_number(index):
            values.raises("TypeError", "indices must be integers")
        self.add_entry(int(index), value)

    def add_entry(self, at, value):
        if isinstance(value, values.Special):
            values.outside()
        if values.depth(value) >= values.MOST_DEPTH:
            values.outside("list too deep")
        if self.event("pathadd", at, value)[0] == "full":
            values.outside("list too long")

    def call_print(self, *arguments):
        line = " ".join([values.str_of(self.plain(it)) for it in arguments]) + "\n"
        self.event("print", values.limited(line))

    def call_str(self, value=""):
        return values.str_of(self.plain(value))

    def call_repr(self, value):
        return values.repr_of(self.plain(value))

    def call_len(self, value):
        value = self.plain(value)
        if not isinstance(value, (str, values.List, tuple)):
            values.raises("TypeError", f"object of type '{values.type_name(value)}' has no len()")
        return len(value if isinstance(value, str) else values.items_of(value))

    def named_attribute(self, value, name):
        if not isinstance(name, str):
            values.raises("TypeError", "attribute name must be string")
        return self.attribute(value, name)

    def call_getattr(self, value, name, *default):
        try:
            return self.named_attribute(value, name)
        except values.Raised as way:
            if not default or way.error.kind != "AttributeError":
                raise
            return default[0]

    def call_hasattr(self, value, name):
        return self.call_getattr(value, name, MISSING) is not MISSING

    def call_invalidate_caches(self):
        self.event("invalidate")

    def call_reload(self, module):
        return self.reload(self.listed_path(module))

    def call_lazy(self, name):
        return self.lazy(self.listed_path(name))


class Script(Running):
    """A script of a trace: where it parts from it.

    `stop` is None, or what the script had paid before the call of the tree that failed.
    """

    def __init__(self, files, number, text, fuel, own, stop=None):
        super().__init__(files, number, fuel if stop is None else stop, own)
        self.text, self.fuel, self.stop = text, fuel, stop

    def outcome(self):
        """The End that the script makes, or None where a call of the tree fails that it does not make."""
        main = values.Module(self.number, "__main__", ("file", ""))
        try:
            self.body(self.number, main, self.text)
            end = ("end normal", self.fuel)
        except values.Raised as way:
            end = ("end raised", self.fuel, way.error)
        except plain_thread.Spent as why:
            self.give_up()
            if self.stop is not None:
                return ("end read", self.stop) if why.is_tree and self.stop < self.fuel else None
            end = ("end fuel", self.fuel)
        return end if self.stop is None else None

    def runs(self):
        """Makes all events of the script, or Parts."""
        end = self.outcome()
        if end is None:
            raise plain_thread.Parts(self.place)
        self.made(end)

    def parts(self):
        """How the script parts from its entries, or None where it makes just them."""
        try:
            self.runs()
        except plain_thread.Parts as why:
            return why
        return None if self.place == len(self.own) else plain_thread.Parts(self.place)
