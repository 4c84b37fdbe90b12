"""Sources of scripts, in plain Python: tokens and trees. After docs/tokens.md and docs/grammar.md.

`parse(bytes)` gives a `Script` or raises `Refused`. A tree is made of tuples: the word of its form, then its parts.
"""
import dataclasses
import re
import unicodedata

import plain_values as values

MOST_SOURCE, MOST_LEVELS = 1_048_576, 64
OPERATORS = (
    "**= //= >>= <<= ... ** // >> << == != <= >= -> := += -= *= /= %= @= &= |= ^= + - * / % @ & | ^ ~ < > ( ) [ ] { } , : ; . ="
).split()
OUTSIDE = frozenset(
    "class for with async await yield lambda nonlocal assert global def @ ** / := & | ^ ~ << >> -> { } ... = , == != < <= > >= "
    "**= >>= <<= /= @= &= |= ^=".split()
)
AUGMENTED = ("+=", "-=", "*=", "//=", "%=")
ESCAPES = {"\\": "\\", "'": "'", '"': '"', "n": "\n", "r": "\r", "t": "\t"}
LINE_END = re.compile(r"\r\n|\r|\n")
NUMBER = re.compile(r"0(?:_?0)*|[1-9](?:_?[0-9])*")
OPERATOR = re.compile("|".join(map(re.escape, OPERATORS)))


class Refused(Exception):
    """A source that is none: the word of its refusal, the line, and for `Profile` what is outside of the language."""

    def __init__(self, word, line=0, what=""):
        super().__init__(word)
        self.word, self.line, self.what = word, line, what


@dataclasses.dataclass(frozen=True)
class Token:
    """`kind` is name, keyword, number, string, op, newline, indent, dedent or end."""

    kind: str
    text: object
    line: int


# Tokens.


def decoded(source):
    if len(source) > MOST_SOURCE:
        raise Refused("TooLong")
    try:
        text = source.decode()
    except UnicodeDecodeError as why:
        before = source[: why.start].decode()
        raise Refused("NotUtf8", len(LINE_END.findall(before)) + 1) from None
    return text.removeprefix("\ufeff")


def continues(letter):
    return ("a" + letter).isidentifier()


class Lexer:
    """Cuts a text into tokens, from its front to its end."""

    def __init__(self, text):
        self.text, self.at, self.line = text, 0, 1
        self.tokens, self.columns, self.brackets = [], [(0, 0)], 0

    def run(self):
        while self.at < len(self.text):
            self.logical_line()
        for _ in self.columns[1:]:
            self.add("dedent", "")
        self.add("end", "")
        return self.tokens

    def add(self, kind, text, line=None):
        self.tokens.append(Token(kind, text, self.line if line is None else line))

    def end_of_line(self):
        """Goes behind the line end that stands here, if one does."""
        found = LINE_END.match(self.text, self.at)
        if found:
            self.at, self.line = found.end(), self.line + 1
        return found is not None

    def skip_blanks(self):
        """Goes over white space, joined lines and a comment."""
        while self.at < len(self.text):
            letter = self.text[self.at]
            if letter in " \t\f":
                self.at += 1
            elif letter == "#":
                found = LINE_END.search(self.text, self.at)
                self.at = found.start() if found else len(self.text)
            elif letter == "\\" and LINE_END.match(self.text, self.at + 1):
                self.at += 1
                self.end_of_line()
            else:
                return

    def logical_line(self):
        first, columns = self.line, self.leading()
        self.skip_blanks()
        if self.at == len(self.text) or self.end_of_line():
            return
        self.indent(columns, first)
        while self.at < len(self.text):
            line = self.line
            if not self.end_of_line():
                self.token()
            elif not self.brackets:
                return self.add("newline", "", line)
            self.skip_blanks()
        if not self.brackets:
            self.add("newline", "")

    def leading(self):
        """The two columns of the leading white space."""
        first = second = 0
        while self.at < len(self.text) and self.text[self.at] in " \t\f":
            letter = self.text[self.at]
            first = 0 if letter == "\f" else first + 1 if letter == " " else first - first % 8 + 8
            second = 0 if letter == "\f" else second + 1
            self.at += 1
        return first, second

    def indent(self, columns, line):
        top = self.columns[-1]
        if columns[0] > top[0]:
            if columns[1] <= top[1]:
                raise Refused("MixedTabs", line)
            self.columns.append(columns)
            return self.add("indent", "")
        while columns[0] < self.columns[-1][0]:
            self.columns.pop()
            self.add("dedent", "")
        if columns[0] != self.columns[-1][0]:
            raise Refused("BadDedent", line)
        if columns[1] != self.columns[-1][1]:
            raise Refused("MixedTabs", line)

    def token(self):
        letter = self.text[self.at]
        if letter == "_" or letter.isidentifier():
            self.word()
        elif letter in "0123456789":
            self.number()
        elif letter in "'\"":
            self.string()
        else:
            self.operator()

    def word(self):
        begin = self.at
        while self.at < len(self.text) and continues(self.text[self.at]):
            self.at += 1
        text = unicodedata.normalize("NFKC", self.text[begin : self.at])
        if not values.is_identifier(text):
            raise Refused("BadChar", self.line)
        self.add("keyword" if text in values.KEYWORDS else "name", text)

    def number(self):
        found = NUMBER.match(self.text, self.at)
        self.at = found.end()
        behind = self.text[self.at : self.at + 1]
        if behind and (behind == "." or continues(behind)):
            raise Refused("BadNumber", self.line)
        number = int(found[0])
        if number > values.GREATEST_INT:
            raise Refused("NumberTooWide", self.line)
        self.add("number", number)

    def string(self):
        line, letter = self.line, self.text[self.at]
        mark = letter * 3 if self.text.startswith(letter * 3, self.at) else letter
        self.at += len(mark)
        pieces = []
        while not self.text.startswith(mark, self.at):
            if self.at == len(self.text):
                raise Refused("OpenString", line)
            pieces.append(self.piece(line, len(mark) == 3))
        self.at += len(mark)
        self.add("string", "".join(pieces), line)

    def piece(self, line, is_long):
        """One letter of a string, or one escape."""
        letter = self.text[self.at]
        if letter in "\r\n":
            if not is_long:
                raise Refused("OpenString", line)
            self.end_of_line()
            return "\n"
        self.at += 1
        return self.escape(line) if letter == "\\" else letter

    def escape(self, line):
        if self.end_of_line():
            return ""
        if self.at == len(self.text):
            raise Refused("OpenString", line)
        found = re.compile(r"x([0-9a-fA-F]{2})|u([0-9a-fA-F]{4})").match(self.text, self.at)
        if found:
            letter = chr(int(found[1] or found[2], 16))
            if not "\ud800" <= letter <= "\udfff":
                self.at = found.end()
                return letter
        letter = self.text[self.at]
        if letter not in ESCAPES:
            raise Refused("BadEscape", line)
        self.at += 1
        return ESCAPES[letter]

    def operator(self):
        found = OPERATOR.match(self.text, self.at)
        if not found:
            raise Refused("BadChar", self.line)
        self.at = found.end()
        self.brackets = max(0, self.brackets + (found[0] in "([{") - (found[0] in ")]}"))
        self.add("op", found[0])


# Trees.


@dataclasses.dataclass
class Function:
    name: str
    params: list
    outer: list
    body: list
    local: frozenset = frozenset()


@dataclasses.dataclass
class Script:
    body: list
    functions: list


def bound_in(block):
    """The names that statements bind."""
    for stmt in block:
        yield from bound_by(stmt)


def bound_by(stmt):
    word, parts = stmt[0], stmt[1:]
    if word in ("assign", "del") and parts[0][0] == "name":
        yield parts[0][1]
    elif word == "augmented":
        yield parts[0]
    elif word == "import":
        for name, other in parts[0]:
            yield other or name.split(".")[0]
    elif word == "from" and parts[2] != "*":
        for name, other in parts[2]:
            yield other or name
    elif word == "if":
        for _, block in parts[0]:
            yield from bound_in(block)
        yield from bound_in(parts[1])
    elif word == "while":
        yield from bound_in(parts[1])
    elif word == "try":
        yield from bound_by_try(*parts)


def bound_by_try(body, handlers, other, last):
    for _, name, block in handlers:
        if name:
            yield name
        yield from bound_in(block)
    for block in (body, other or [], last or []):
        yield from bound_in(block)


class Parser:
    """Reads tokens from the left. What it finds at fault is the first token that no script has there."""

    def __init__(self, tokens):
        self.tokens, self.at, self.levels = tokens, 0, 0
        self.functions = []
        self.is_function, self.is_loop, self.is_finally = False, False, False

    @property
    def next(self):
        return self.tokens[self.at]

    def is_next(self, *texts):
        return self.next.kind in ("op", "keyword") and self.next.text in texts

    def refuse(self):
        token = self.next
        if token.kind == "string":
            raise Refused("Profile", token.line, "string")
        if token.kind in ("op", "keyword"):
            is_jump = self.is_finally and token.text in ("return", "break", "continue")
            if token.text in OUTSIDE or is_jump:
                raise Refused("Profile", token.line, token.text)
        raise Refused("Syntax", token.line)

    def take(self, text):
        if not self.is_next(text):
            self.refuse()
        self.at += 1

    def take_if(self, *texts):
        """The next token's text, where it is one of these, which is then read."""
        if not self.is_next(*texts):
            return None
        self.at += 1
        return self.tokens[self.at - 1].text

    def take_kind(self, kind):
        if self.next.kind != kind:
            self.refuse()
        self.at += 1
        return self.tokens[self.at - 1].text

    def open(self, text):
        """Reads a token that opens a level."""
        if self.is_next(text) and self.levels == MOST_LEVELS:
            raise Refused("TooDeep", self.next.line)
        self.take(text)
        self.levels += 1

    def close(self):
        self.levels -= 1

    # Statements.

    def script(self):
        body = []
        while self.next.kind != "end":
            body += self.statement()
        return Script(body, self.functions)

    def statement(self):
        """The statements of a line, or a statement with blocks."""
        compound = {"if": self.if_, "while": self.while_, "try": self.try_}
        if self.next.kind == "keyword" and self.next.text in compound:
            word = self.next.text
            self.open(word)
            made = [compound[word]()]
            self.close()
            return made
        if self.is_next("def") and not self.is_function:
            self.open("def")
            made = [self.def_()]
            self.close()
            return made
        line = self.simple_line()
        self.take_kind("newline")
        return line

    def simple_line(self):
        line = [self.simple()]
        while self.take_if(";"):
            if self.next.kind == "newline":
                break
            line.append(self.simple())
        return line

    def simple(self):
        words = {"del": self.del_, "import": self.import_, "from": self.from_, "pass": lambda: ("pass",)}
        words |= {word: lambda word=word: (word, self.operand_if_any()) for word in ("return", "raise")}
        words |= {word: lambda word=word: (word,) for word in ("break", "continue")}
        if self.next.kind != "keyword" or self.next.text not in words:
            return self.expression_line()
        word = self.next.text
        is_out = word == "return" and (not self.is_function or self.is_finally)
        if is_out or word in ("break", "continue") and not self.is_loop:
            self.refuse()
        self.at += 1
        return words[word]()

    def expression_line(self):
        left = self.expr()
        if self.is_next("=") and left[0] in ("name", "attribute", "item"):
            self.at += 1
            return ("assign", left, self.expr())
        if self.is_next(*AUGMENTED) and left[0] == "name":
            op = self.take_if(*AUGMENTED)
            return ("augmented", left[1], op[:-1], self.expr())
        return ("expr", left)

    def operand_if_any(self):
        is_end = self.next.kind == "newline" or self.is_next(";")
        return None if is_end else self.expr()

    def del_(self):
        target = self.primary()
        if target[0] not in ("name", "attribute", "item"):
            self.refuse()
        return ("del", target)

    def dotted(self):
        name = self.take_kind("name")
        while self.take_if("."):
            name += "." + self.take_kind("name")
        return name

    def other_name(self):
        return self.take_kind("name") if self.take_if("as") else None

    def import_(self):
        names = [(self.dotted(), self.other_name())]
        while self.take_if(","):
            names.append((self.dotted(), self.other_name()))
        return ("import", names)

    def from_(self):
        level = 0
        while self.is_next(".", "..."):
            level += len(self.take_if(".", "..."))
        name = None if level and self.is_next("import") else self.dotted()
        self.take("import")
        return ("from", level, name, self.from_names())

    def from_names(self):
        if self.is_next("*") and not self.is_function:
            self.at += 1
            return "*"
        is_enclosed = self.is_next("(")
        if is_enclosed:
            self.open("(")
        names = [(self.take_kind("name"), self.other_name())]
        while self.take_if(","):
            if is_enclosed and self.is_next(")"):
                break
            names.append((self.take_kind("name"), self.other_name()))
        if is_enclosed:
            self.take(")")
            self.close()
        return names

    # Statements with blocks.

    def inner(self, read, is_loop, is_finally):
        """What is behind a colon: a line, or what `read` reads between Indent and Dedent. Beside it, where that stands."""
        is_line, outer = self.next.kind != "newline", (self.is_loop, self.is_finally)
        if not is_line:
            self.at += 1
            self.take_kind("indent")
        self.is_loop, self.is_finally = is_loop, is_finally
        block = self.simple_line() if is_line else read()
        self.take_kind("newline" if is_line else "dedent")
        self.is_loop, self.is_finally = outer
        return block

    def statements(self):
        block = self.statement()
        while self.next.kind != "dedent":
            block += self.statement()
        return block

    def block(self):
        self.take(":")
        return self.inner(self.statements, self.is_loop, self.is_finally)

    def if_(self):
        cases = [(self.expr(), self.block())]
        while self.take_if("elif"):
            cases.append((self.expr(), self.block()))
        return ("if", cases, self.block() if self.take_if("else") else [])

    def while_(self):
        test = self.expr()
        self.take(":")
        return ("while", test, self.inner(self.statements, True, self.is_finally))

    def try_(self):
        body, handlers = self.block(), []
        while self.take_if("except"):
            kinds = None if self.is_next(":") else self.expr()
            name = self.other_name() if kinds else None
            handlers.append((kinds, name, self.block()))
            if kinds is None:
                break
        other = self.block() if handlers and self.take_if("else") else None
        last = None
        if not handlers or self.is_next("finally"):
            self.take("finally")
            self.take(":")
            last = self.inner(self.statements, False, True)
        return ("try", body, handlers, other, last)

    def def_(self):
        name = self.take_kind("name")
        self.take("(")
        function = Function(name, self.params(), [], [])
        self.take(")")
        self.functions.append(function)
        index = len(self.functions) - 1
        self.take(":")
        self.is_function = True
        function.body = self.inner(lambda: self.function_body(function), False, False)
        self.is_function = False
        function.local = frozenset([*function.params, *bound_in(function.body)]) - frozenset(function.outer)
        return ("def", index, name)

    def params(self):
        names = []
        while self.next.kind == "name":
            if self.next.text in names:
                self.refuse()
            names.append(self.take_kind("name"))
            if not self.take_if(","):
                break
        return names

    def function_body(self, function):
        while self.take_if("global"):
            function.outer += self.global_names(function)
            self.take_kind("newline")
        return self.statements()

    def global_names(self, function):
        names = []
        while not names or self.take_if(","):
            if self.next.text in function.params:
                self.refuse()
            names.append(self.take_kind("name"))
        return names

    # Expressions.

    def expr(self):
        return self.chain("or", self.and_)

    def and_(self):
        return self.chain("and", self.not_)

    def chain(self, word, operand):
        left = operand()
        while self.take_if(word):
            left = (word, left, operand())
        return left

    def not_(self):
        if not self.is_next("not"):
            return self.comparison()
        self.open("not")
        operand = self.not_()
        self.close()
        return ("not", operand)

    def comparison(self):
        left = self.sum()
        op = self.take_if("==", "!=", "<", "<=", ">", ">=", "in", "is", "not")
        if op is None:
            return left
        if op == "not":
            self.take("in")
            op = "not in"
        elif op == "is" and self.take_if("not"):
            op = "is not"
        return ("compare", op, left, self.sum())

    def sum(self):
        return self.binary(("+", "-"), self.term)

    def term(self):
        return self.binary(("*", "//", "%"), self.unary)

    def binary(self, ops, operand):
        left = operand()
        while self.is_next(*ops):
            left = ("binary", self.take_if(*ops), left, operand())
        return left

    def unary(self):
        if not self.is_next("-"):
            return self.primary()
        self.open("-")
        operand = self.unary()
        self.close()
        return ("negative", operand)

    def primary(self):
        made = self.atom()
        while self.is_next(".", "(", "["):
            if self.is_next("("):
                self.open("(")
                made = ("call", made, self.items(")"))
            elif self.is_next("["):
                self.open("[")
                made = ("item", made, self.expr())
                self.take("]")
                self.close()
            else:
                self.at += 1
                made = ("attribute", made, self.take_kind("name"))
        return made

    def items(self, end, first=()):
        """Expressions between commas, up to a closing bracket, and that bracket."""
        items = list(first)
        while not self.is_next(end):
            items.append(self.expr())
            if not self.take_if(","):
                break
        self.take(end)
        self.close()
        return items

    def atom(self):
        constants = {"None": None, "True": True, "False": False}
        token = self.next
        if token.kind in ("name", "number", "string"):
            self.at += 1
            return ("name", token.text) if token.kind == "name" else ("constant", token.text)
        if token.kind == "keyword" and token.text in constants:
            self.at += 1
            return ("constant", constants[token.text])
        if self.is_next("["):
            self.open("[")
            return ("list", self.items("]"))
        self.open("(")
        return self.enclosed()

    def enclosed(self):
        """What stands in parentheses: a tuple, or an expression."""
        if self.is_next(")"):
            return ("tuple", self.items(")"))
        first = self.expr()
        if self.take_if(","):
            return ("tuple", self.items(")", [first]))
        self.take(")")
        self.close()
        return ("enclosed", first)


def parse(source):
    """The script of a source, or Refused."""
    return Parser(Lexer(decoded(source)).run()).script()


TOLD = {
    "NotUtf8": "source is not UTF-8",
    "BadChar": "bad character",
    "BadNumber": "number not in the profile",
    "OpenString": "string not closed",
    "BadEscape": "bad escape",
    "BadDedent": "bad dedent",
    "MixedTabs": "inconsistent tabs",
    "Syntax": "invalid syntax",
    "TooDeep": "too deep",
}


def error_of(refused):
    """The kind and the text of the error of a body whose source is refused."""
    if refused.word == "Profile":
        return "ProfileError", f"line {refused.line}: '{refused.what}' is not in the profile"
    if refused.word == "NumberTooWide":
        return "ProfileError", "number past 128 bits"
    if refused.word == "TooLong":
        return "SyntaxError", f"source is longer than {MOST_SOURCE} bytes"
    return "SyntaxError", f"line {refused.line}: {TOLD[refused.word]}"
