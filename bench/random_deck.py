"""The text of a random deck: `Deck(chance).text`, where chance is a random.Random.

Its names and types fit, and it has all constructs of the language. What it does is left to chance, so that it ends normally
or comes to any fault or limit.
"""

import collections

TEXTS = ["A", "Z", "OF", "WORD", "PLAIN TEXT", 'SAY ""HI""', "0123456789ABCDEF", "-" * 60]
WORDS = {"value": " VALUE", "result": " RESULT", "value result": " VALUE RESULT", "name": ""}
WIDTHS = ("I_W", "S_W")
INTEGER, LOGICAL, BITS = "INTEGER", "LOGICAL", "BITS"


# ---- types: INTEGER, LOGICAL, BITS, a length of a string, or the classes of a reference


def reference(classes):
    return frozenset(classes)


def is_string(kind):
    return isinstance(kind, int)


def is_reference(kind):
    return isinstance(kind, frozenset)


def written(kind):
    """A type as a declaration has it."""
    if is_string(kind):
        return "STRING" if kind == 16 else f"STRING({kind})"
    return f"REFERENCE({', '.join(sorted(kind))})" if is_reference(kind) else kind


def fits(kind, other):
    """Whether a value of a type fits another."""
    if is_string(kind):
        return is_string(other) and kind <= other
    return bool(kind & other) if is_reference(kind) and is_reference(other) else kind == other


# ---- what names stand for

Variable = collections.namedtuple("Variable", "name kind")
Array = collections.namedtuple("Array", "name kind bounds")
Formal = collections.namedtuple("Formal", "name mode kind dimensions shape")
Procedure = collections.namedtuple("Procedure", "name kind formals")
Class = collections.namedtuple("Class", "name fields")


def declared(formal):
    """A formal as its procedure declares it."""
    if formal.mode == "array":
        return f"{written(formal.kind)} ARRAY {formal.name} ({', '.join('*' * formal.dimensions)})"
    if formal.mode == "procedure":
        return f"{written(formal.kind) + ' ' if formal.kind else ''}PROCEDURE {formal.name}"
    return f"{written(formal.kind)}{WORDS[formal.mode]} {formal.name}"


def shape_of(formals):
    """What the formals of two procedures have in common where one may stand for the other."""
    return tuple((formal.mode, formal.kind, formal.dimensions) for formal in formals)


class Scope:
    """What may be used at a place, by its kind: what a block, a formal list or a FOR declares, and what stands round it."""

    def __init__(self, around=None, hidden=()):
        self.around, self.hidden = around, set(hidden)
        self.variables, self.controls, self.arrays, self.labels = [], [], [], []
        self.procedures, self.handed, self.classes = [], [], []

    def declare(self, what, found):
        getattr(self, what).extend(found)
        self.hidden |= {it if isinstance(it, str) else it.name for it in found}

    def all(self, what):
        """What is declared here or round it, unless its name means something else here."""
        found, hidden, scope = [], set(), self
        while scope:
            names = [(it if isinstance(it, str) else it.name, it) for it in getattr(scope, what)]
            found += [it for name, it in names if name not in hidden]
            hidden |= scope.hidden
            scope = scope.around
        return found

    def names(self):
        return [it.name for what in ("variables", "arrays", "procedures") for it in self.all(what)]


class Deck:
    """A deck that is made by chance."""

    def __init__(self, chance):
        self.chance, self.number, self.shapes = chance, 0, [()]
        self.standard = Scope()
        # In three decks of ten the widths are used as variables, and some of these use them more than others.
        self.width_uses = self.one(0, 5, 20) if self.percent(30) else None
        if self.width_uses is not None:
            self.standard.declare("variables", [Variable(name, INTEGER) for name in WIDTHS])
        self.text = self.program()

    def percent(self, number):
        return self.chance.randrange(100) < number

    def one(self, *choices):
        return self.chance.choice(choices)

    def some(self, least, most, make):
        return [make() for _ in range(self.chance.randint(least, most))]

    def name(self, stem, scope=None):
        """A new name, or at times one that means something else round the scope."""
        outer = [it for it in scope.around.names() if it not in scope.hidden] if scope and scope.around else []
        if outer and self.percent(12):
            return self.one(*outer)
        self.number += 1
        return f"{stem}{self.number}"

    # ---- types and declarations

    def kind(self, scope, references=True):
        draw = self.chance.randrange(20)
        if draw < 9:
            return INTEGER
        if draw < 13:
            return self.one(LOGICAL, BITS)
        if draw < 17 or not references or not scope.all("classes"):
            return self.one(1, 2, 4, 8, 16, 80, 100, 200)
        return self.classes(scope)

    def classes(self, scope):
        names = [it.name for it in scope.all("classes")]
        return reference(self.chance.sample(names, self.chance.randint(1, min(2, len(names)))))

    def record_classes(self, scope):
        """Record classes, whose fields may refer to each other."""
        made = [Class(self.name("C"), []) for _ in range(self.one(0, 1, 2, 3))]
        scope.declare("classes", made)
        for it in made:
            it.fields.extend(self.some(1, 3, lambda: Variable(self.name("F"), self.kind(scope))))
        return [f"RECORD {it.name} ({'; '.join(f'{written(kind)} {name}' for name, kind in it.fields)})" for it in made]

    def bound(self, around):
        """The bounds of a dimension as they are written, with the numbers from and to which most subscripts go."""
        draw = self.chance.randrange(100)
        if draw < 96:
            low, high = self.one((0, 1), (0, 2), (1, 2), (1, 3), (-1, 1))
            return f"{low}::{high}", (low, high)
        if draw < 98:
            return f"1::{self.value(around, INTEGER, 1)}", (1, 1)
        return self.one(("1::0", (1, 1)), ("0::200", (0, 2)), ("(-20000)::20000", (0, 1)), ("1::MAXINTEGER", (1, 1)))

    def array(self, scope):
        """An array, with its declaration. Names in the bounds are looked up outside."""
        bounds = self.some(1, self.one(1, 2, 3), lambda: self.bound(scope.around or Scope()))
        array = Array(self.name("A", scope), self.kind(scope), [numbers for _, numbers in bounds])
        return array, f"{written(array.kind)} ARRAY {array.name} ({', '.join(text for text, _ in bounds)})"

    def formal(self, scope, mode=None):
        mode = mode or self.one("value", "value", "name", "name", "result", "value result", "array", "procedure", "procedure")
        kind = self.kind(scope, references=self.percent(70))
        if mode == "procedure":
            kind = self.one(None, INTEGER, kind)
        shape = self.one(*self.shapes) if mode == "procedure" else ()
        return Formal(self.name("P"), mode, kind, self.one(1, 1, 2) if mode == "array" else 0, shape)

    def heading(self, scope):
        """A procedure that is to be declared. Often it has the shape of one that is handed on somewhere."""
        formals = self.some(0, 3, lambda: self.formal(scope))
        if self.percent(50):
            shape = self.one(*self.shapes)
            formals = [Formal(self.name("P"), mode, kind, dimensions, ()) for mode, kind, dimensions in shape]
        elif not any(is_reference(it.kind) for it in formals):
            self.shapes.append(shape_of(formals))
        return Procedure(self.name("Q", scope), self.one(None, INTEGER, self.kind(scope)), formals)

    def body(self, around, procedure, depth):
        """The declaration of a procedure."""
        scope = Scope(around)
        for formal in procedure.formals:
            if formal.mode == "array":
                scope.declare("arrays", [Array(formal.name, formal.kind, [(1, 1)] * formal.dimensions)])
            elif formal.mode == "procedure":
                scope.declare("handed", [formal])
            else:
                scope.declare("variables", [Variable(formal.name, formal.kind)])
        heading = f"{written(procedure.kind) + ' ' if procedure.kind else ''}PROCEDURE {procedure.name}"
        if procedure.formals:
            heading += f" ({'; '.join(declared(formal) for formal in procedure.formals)})"
        items = [text for formal in procedure.formals for text in self.use(scope, formal)]
        if procedure.kind is None:
            items += [self.statement(scope, min(depth, 2))]
        else:
            items += [*self.some(0, 2, lambda: self.statement(scope, 1)), self.value(scope, procedure.kind, 2)]
        whole = items[0] if len(items) == 1 else f"BEGIN {'; '.join(items)} END"
        return f"{heading}; {whole}"

    def use(self, scope, formal):
        """Mostly a statement that assigns a formal or calls what stands for it."""
        if formal.mode == "result" and self.percent(92) or formal.mode == "name" and self.percent(25):
            return [f"{formal.name} := {self.value(scope, formal.kind, 1)}"]
        if formal.mode == "procedure" and self.percent(60):
            return self.done(self.call_through(scope, formal, 1), formal.kind)
        return []

    def done(self, call, kind):
        """A statement that does a call, where there is one, unless it gives a reference."""
        if call is None or is_reference(kind):
            return []
        return [f"WRITEON({call})" if kind else call]

    # ---- values

    def value(self, scope, kind, depth):
        """A phrase whose value fits a type."""
        draw = self.chance.randrange(100)
        if depth > 0 and draw < 5:
            parts = [self.value(scope, kind, depth - 1) for _ in range(2)]
            return f"(IF {self.value(scope, LOGICAL, depth - 1)} THEN {parts[0]} ELSE {parts[1]})"
        if depth > 0 and draw < 8:
            parts = self.some(1, 3, lambda: self.value(scope, kind, depth - 1))
            return f"(CASE {self.number_to(scope, len(parts))} OF ({', '.join(parts)}))"
        if depth > 1 and draw < 11:
            inner, name = Scope(scope), self.name("V")
            inner.declare("variables", [Variable(name, INTEGER)])
            first = f"INTEGER {name}; {name} := {self.value(scope, INTEGER, 0)}"
            return f"BEGIN {first}; {self.statement(inner, 0)}; {self.value(inner, kind, depth - 1)} END"
        found = None
        if draw < 50:
            found, _ = self.variable(scope, lambda other: fits(other, kind), depth)
        elif draw < 65 and depth > 0:
            found = self.call(scope, kind, depth - 1)
        return found or self.plain(scope, kind, depth)

    def plain(self, scope, kind, depth):
        """A phrase of a type that is no variable and no call."""
        if kind == INTEGER:
            return self.integer(scope, depth)
        if kind == LOGICAL:
            return self.logical(scope, depth)
        if kind == BITS:
            return self.bits(scope, depth)
        return self.string(scope, kind, depth) if is_string(kind) else self.reference(scope, kind, depth)

    def number_to(self, scope, most):
        """An INTEGER, mostly from 1 to this number."""
        return str(self.chance.randint(1, most)) if self.percent(90) else self.value(scope, INTEGER, 1)

    def integer(self, scope, depth):
        if depth <= 0 or self.percent(30):
            controls = scope.all("controls")
            if controls and self.percent(50):
                return self.one(*controls)
            if self.percent(3):
                return self.one("2147483647", "MAXINTEGER", "(-MAXINTEGER - 1)")
            return str(self.one(0, 1, 2, 3, 7, 12)) if self.percent(90) else "(-1)"
        left, right = self.value(scope, INTEGER, depth - 1), self.value(scope, INTEGER, depth - 1)
        draw = self.chance.randrange(12)
        if draw < 6:
            return f"({left} {self.one('+', '-', '*')} {right})"
        if draw < 8:
            return f"({left} {self.one('DIV', 'REM')} {right if self.percent(30) else self.one('2', '3', '(-2)', '10')})"
        if draw == 8:
            return f"({self.one('-', '+', '')}{left} - {right} {self.one('*', '+')} 2)"
        return self.one(
            f"ABS ({left})", f"NUMBER({self.value(scope, BITS, depth - 1)})", f"DECODE({self.value(scope, 1, depth - 1)})"
        )

    def logical(self, scope, depth):
        if depth <= 0 or self.percent(20):
            return self.one("TRUE", "TRUE", "FALSE")
        draw = self.chance.randrange(7)
        if draw < 2:
            parts = self.some(2, 3, lambda: f"({self.value(scope, LOGICAL, depth - 1)})")
            return f"({self.one(' AND ', ' OR ').join(parts)})"
        if draw == 2:
            return f"(~ ({self.value(scope, LOGICAL, depth - 1)}))"
        if draw == 3:
            return f"ODD({self.value(scope, INTEGER, depth - 1)})"
        if draw == 4 and scope.all("classes"):
            kind = self.classes(scope)
            left = f"({self.value(scope, kind, depth - 1)})"
            if self.percent(50):
                return f"({left} IS {self.one(*sorted(kind))})"
            return f"({left} {self.one('=', '~=')} {self.one('NULL', f'({self.value(scope, kind, depth - 1)})')})"
        kind = self.one(INTEGER, INTEGER, 4, BITS, LOGICAL)
        relations = ["=", "~="] if kind in (BITS, LOGICAL) else ["=", "~=", "<", "<=", ">", ">="]
        left, right = self.value(scope, kind, depth - 1), self.value(scope, kind, depth - 1)
        return f"(({left}) {self.one(*relations)} ({right}))"

    def bits(self, scope, depth):
        if depth <= 0 or self.percent(30):
            return self.one("#0", "#1F", "#FFFFFFFF", "#00ab")
        left, right = self.value(scope, BITS, depth - 1), self.value(scope, BITS, depth - 1)
        amount = self.value(scope, INTEGER, 0) if self.percent(40) else str(self.one(0, 1, 4, 31, 32))
        return self.one(
            f"(({left}) {self.one('AND', 'OR')} ({right}))",
            f"(~ ({left}))",
            f"(({left}) {self.one('SHL', 'SHR')} {amount})",
            f"BITSTRING({self.value(scope, INTEGER, depth - 1)})",
        )

    def string(self, scope, length, depth):
        if length == 1 and depth > 0 and self.percent(30):
            return f"CODE({self.value(scope, INTEGER, 1) if self.percent(20) else self.chance.randint(32, 126)})"
        if depth > 0 and self.percent(30):
            base, kind = self.variable(scope, is_string, depth - 1)
            if base:
                return self.part(scope, base, kind, length)[0]
            functions = [it for it in scope.all("procedures") if is_string(it.kind) and not it.formals]
            if functions:
                function = self.one(*functions)
                return self.part(scope, function.name, function.kind, length)[0]
        short = [text for text in TEXTS if len(text.replace('""', '"')) <= length]
        return f'"{self.one(*short)}"'

    def part(self, scope, base, length, most):
        """A part of a string, of at most so many characters, with its length; mostly one that the string has."""
        size = self.chance.randint(1, min(length, most, 20))
        start = self.value(scope, INTEGER, 0) if self.percent(15) else str(self.chance.randint(0, length - size))
        return f"{base}({start}|{size})", size

    def reference(self, scope, kind, depth):
        if depth <= 0 and self.percent(50) or self.percent(4):
            return "NULL"
        found = [it for it in scope.all("classes") if it.name in kind]
        return self.designator(scope, self.one(*found), depth) if found else "NULL"

    def designator(self, scope, of, depth):
        """A new record of a class."""
        if depth < -1 or self.percent(5):
            return of.name
        return f"{of.name}({', '.join(self.value(scope, field.kind, depth - 2) for field in of.fields)})"

    # ---- variables and calls

    def variable(self, scope, suits, depth):
        """A variable whose type suits, with the type, where there is one."""
        draw = self.chance.randrange(10)
        if self.percent(self.width_uses or 0):
            widths = [it for it in scope.all("variables") if it.name in WIDTHS and suits(it.kind)]
            if widths:
                return self.one(*widths)
        arrays = [it for it in scope.all("arrays") if suits(it.kind)]
        if arrays and draw < 3:
            array = self.one(*arrays)
            return f"{array.name}({', '.join(self.subscript(scope, it, depth) for it in array.bounds)})", array.kind
        fields = [(field, it) for it in scope.all("classes") for field in it.fields if suits(field.kind)]
        if fields and draw < 5 and depth > 0:
            field, of = self.one(*fields)
            return f"{field.name}({self.record(scope, of, depth - 1)})", field.kind
        near = [it for it in scope.variables if suits(it.kind)]
        found = near if near and self.percent(40) else [it for it in scope.all("variables") if suits(it.kind)]
        return self.one(*found) if found else (None, None)

    def subscript(self, scope, numbers, depth):
        """An INTEGER, mostly within bounds."""
        return self.value(scope, INTEGER, min(depth - 1, 1)) if self.percent(3) else str(self.chance.randint(*numbers))

    def record(self, scope, of, depth):
        """A reference of which a field of a class may be taken."""
        found = [it.name for it in scope.all("variables") if is_reference(it.kind) and of.name in it.kind]
        if found and self.percent(80):
            return self.one(*found)
        return self.designator(scope, of, depth)

    def call(self, scope, kind, depth):
        """A call of a function whose values fit a type, or of a procedure without a type, where there is one."""
        suits = (lambda it: it.kind is None) if kind is None else (lambda it: it.kind is not None and fits(it.kind, kind))
        handed = [it for it in scope.all("handed") if suits(it)]
        if handed and self.percent(60):
            return self.call_through(scope, self.one(*handed), depth)
        found = [it for it in scope.all("procedures") if suits(it)]
        return self.call_of(scope, self.one(*found), depth) if found else None

    def call_of(self, scope, called, depth):
        """A call of a procedure, where there are actuals for it."""
        actuals = [self.actual(scope, formal, depth) for formal in called.formals]
        if None in actuals:
            return None
        return f"{called.name}({', '.join(actuals)})" if actuals else called.name

    def call_through(self, scope, formal, depth):
        """A call through a procedure formal, mostly with actuals of its shape."""
        if self.percent(6):
            actuals = self.some(1, 2, lambda: self.value(scope, self.kind(scope), max(depth, 0)))
        else:
            formals = [Formal("", mode, kind, dimensions, ()) for mode, kind, dimensions in formal.shape]
            actuals = [self.actual(scope, it, depth) for it in formals]
        if None in actuals or not actuals:
            return formal.name
        return f"{formal.name}({', '.join(actuals)})"

    def actual(self, scope, formal, depth):
        """An actual for a formal, where there is one."""
        if formal.mode == "array":
            return self.array_actual(scope, formal)
        if formal.mode == "procedure":
            return self.procedure_actual(scope, formal, max(depth, 0))
        suits = {
            "value": lambda kind: fits(kind, formal.kind),
            "name": lambda kind: fits(kind, formal.kind) if self.percent(15) else kind == formal.kind,
            "result": lambda kind: fits(formal.kind, kind) if self.percent(50) else kind == formal.kind,
            "value result": lambda kind: fits(formal.kind, kind) and fits(kind, formal.kind),
        }
        if formal.mode in ("result", "value result") or formal.mode == "name" and self.percent(75):
            found, _ = self.variable(scope, suits[formal.mode], depth)
            if found or formal.mode != "name":
                return found
        return self.value(scope, formal.kind, max(depth, 0))

    def array_actual(self, scope, formal):
        """An array, or a part of one, with the dimensions of a formal."""
        found = [it for it in scope.all("arrays") if it.kind == formal.kind and len(it.bounds) >= formal.dimensions]
        if not found:
            return None
        array = self.one(*found)
        count = len(array.bounds)
        if count == formal.dimensions and self.percent(80):
            return array.name
        free = self.chance.sample(range(count), formal.dimensions)
        parts = ["*" if i in free else self.subscript(scope, numbers, 1) for i, numbers in enumerate(array.bounds)]
        return f"{array.name}({', '.join(parts)})"

    def procedure_actual(self, scope, formal, depth):
        """A procedure, mostly of the shape that is wanted, or a phrase."""
        found = [it for it in scope.all("procedures") if it.kind == formal.kind]
        shaped = [it for it in found if shape_of(it.formals) == formal.shape]
        handed = [it for it in scope.all("handed") if it.kind == formal.kind and it.shape == formal.shape]
        if shaped + handed and self.percent(75):
            return self.one(*shaped, *handed).name
        if found and self.percent(15):
            return self.one(*found).name
        return self.value(scope, formal.kind, depth) if formal.kind else self.simple_statement(scope, depth)

    # ---- statements

    def statement(self, scope, depth):
        if depth <= 0 or self.percent(40):
            return self.simple_statement(scope, self.chance.randint(0, 2))
        draw = self.chance.randrange(12)
        if draw < 3:
            otherwise = f" ELSE {self.statement(scope, depth - 1)}" if self.percent(50) else ""
            return f"IF {self.value(scope, LOGICAL, 2)} THEN BEGIN {self.statement(scope, depth - 1)} END{otherwise}"
        if draw == 3:
            parts = self.some(1, 3, lambda: self.statement(scope, depth - 1))
            return f"CASE {self.number_to(scope, len(parts))} OF BEGIN {'; '.join(parts)} END"
        if draw < 7:
            return self.loop(scope, depth)
        return self.counted(scope, depth) if draw == 7 else self.block(scope, depth - 1)

    def loop(self, scope, depth):
        """A FOR, mostly of a few turns."""
        inner = Scope(scope)
        name = self.name("I", inner)
        inner.declare("controls", [name])
        if self.percent(40):
            values = ", ".join(self.some(1, 3, lambda: self.value(scope, INTEGER, 1)))
        elif self.percent(70):
            values = self.one("1 UNTIL 3", "0 UNTIL 2", "3 STEP (-1) UNTIL 1", "0 STEP 2 UNTIL 5", "MAXINTEGER - 1 UNTIL MAXINTEGER")
        else:
            step = f" STEP {self.one('2', '(-1)', '0', self.value(scope, INTEGER, 1))}" if self.percent(50) else ""
            values = f"{self.value(scope, INTEGER, 1)}{step} UNTIL {self.value(scope, INTEGER, 1)}"
        return f"FOR {name} := {values} DO {self.statement(inner, depth - 1)}"

    def counted(self, scope, depth):
        """A WHILE, mostly of a few turns."""
        name, kind = self.variable(scope, lambda it: it == INTEGER, 0)
        body = self.statement(scope, depth - 1)
        if name and self.percent(85):
            return f"BEGIN {name} := {self.one(1, 2, 4)}; WHILE {name} > 0 DO BEGIN {name} := {name} - 1; {body} END END"
        return f"WHILE {self.value(scope, LOGICAL, 2)} DO {body}"

    def simple_statement(self, scope, depth):
        """A statement that holds no other."""
        draw = self.chance.randrange(24)
        labels = scope.all("labels")
        found = None
        if draw < 9:
            found = self.assignment(scope, depth)
        elif draw < 14:
            found = self.call(scope, None, depth)
        elif draw < 16:
            found = self.reading(scope)
        elif draw == 16 and labels:
            return f"{self.one('GOTO', 'GO TO')} {self.one(*labels)}"
        elif draw == 17:
            return f"IOCONTROL({self.one('1', '2', '2', self.value(scope, INTEGER, 0))})"
        elif draw == 18 and self.percent(50):
            return f"ASSERT {self.value(scope, LOGICAL, depth) if self.percent(30) else 'TRUE'}"
        elif draw == 19 and self.percent(10):
            return self.declared_write(scope)
        if found:
            return found
        kinds = self.some(1, 3, lambda: self.one(INTEGER, INTEGER, LOGICAL, BITS, 4, 100, 200))
        parts = [self.value(scope, it, depth) for it in kinds]
        for _ in range(self.one(0, 0, 0, 1, 2)):
            place = self.chance.randint(0, len(parts))
            parts[place:place] = self.setting(scope, depth)
        return f"{self.one('WRITE', 'WRITEON', 'WRITEON')}({', '.join(parts)})"

    def setting(self, scope, depth):
        """A setting of a width, mostly to one in range, or none where its name means something else."""
        name, around = self.one(*WIDTHS), scope
        while scope not in (None, self.standard):
            if name in scope.hidden:
                return []
            scope = scope.around
        draw = self.chance.randrange(100)
        if draw < 4:
            width = self.one("0", "0", "(-1)", "133", "258", "65550", "(-MAXINTEGER - 1)")
        elif draw < (14 if self.width_uses is None else 40):
            width = self.value(around, INTEGER, depth)
        else:
            width = self.one("1", "3", "6", "20", "132")
        return [f"{name} := {width}"]

    def declared_write(self, scope):
        """A block that declares WRITE anew, and a call of it: what would be a setting is a statement that is handed on."""
        heading = "PROCEDURE WRITE (PROCEDURE S; INTEGER VALUE N); BEGIN S; WRITEON(N) END"
        setting = "".join(self.setting(scope, 0)) or "IOCONTROL(2)"
        return f"BEGIN {heading}; WRITE({setting}, {self.value(scope, INTEGER, 0)}) END"

    def reading(self, scope):
        wanted = self.one(INTEGER, INTEGER, INTEGER, LOGICAL, BITS, 8, 80)
        found, kind = self.variable(scope, lambda it: it == wanted or wanted == 80 and is_string(it) and it >= 80, 1)
        if found and wanted == 80:
            return f"READCARD({found})"
        if found and is_string(kind) and kind > 1 and self.percent(20):
            found, _ = self.part(scope, found, kind, kind)
        return f"{self.one('READ', 'READON', 'READON')}({found})" if found else None

    def assignment(self, scope, depth):
        """An assignment to one variable or to several, or to parts of strings."""
        wanted = self.kind(scope)
        lefts, kind = [], None
        for _ in range(self.one(1, 1, 1, 1, 2, 3)):
            place, of = self.variable(scope, lambda it: it == wanted if kind is None else fits(kind, it) or it == kind, depth)
            if place and is_string(of) and of > 1 and not lefts and self.percent(30):
                place, of = self.part(scope, place, of, of)
                if of > 1 and self.percent(20):
                    place, of = self.part(scope, place, of, of)
            if place:
                lefts.append(place)
                kind = of if kind is None or is_string(kind) and of < kind else kind
        return f"{' := '.join([*lefts, self.value(scope, kind, depth)])}" if lefts else None

    # ---- blocks and programs

    def block(self, around, depth):
        """A block with declarations of each kind. A name may mean something else round it."""
        scope = Scope(around or self.standard)
        decls = self.record_classes(scope) if around is None or self.percent(10) else []
        for _ in range(self.chance.randint(1, 4)):
            variable = Variable(self.name("X", scope), self.kind(scope))
            scope.declare("variables", [variable])
            decls.append(f"{written(variable.kind)} {variable.name}")
        for _ in range(self.chance.randint(0, 2)):
            array, decl = self.array(scope)
            scope.declare("arrays", [array])
            decls.append(decl)
        for _ in range(self.chance.randint(0, 3 if around is None else 1)):
            scope.declare("procedures", [self.heading(scope)])
        scope.declare("labels", self.some(0, 1, lambda: self.name("L")))
        decls += [self.body(scope, procedure, depth) for procedure in scope.procedures]
        return f"BEGIN {'; '.join([*decls, *self.items(scope, depth)])} END"

    def items(self, scope, depth):
        """The items of a block. Nearly all variables and elements have values first, worked out from what stands outside."""
        outside = Scope(scope.around, scope.hidden)
        items = [f"{name} := {self.value(outside, kind, self.one(1, 2))}" for name, kind in scope.variables if self.percent(99)]
        items += [self.filled(array) for array in scope.arrays if self.percent(97)]
        items += self.some(1, 4, lambda: self.statement(scope, depth))
        for procedure in scope.procedures:
            if self.percent(60):
                items += self.done(self.call_of(scope, procedure, 1), procedure.kind)
        for label in scope.labels:
            place = self.chance.randrange(len(items))
            items[place] = f"{label}: {items[place]}"
        return items

    def filled(self, array):
        """A statement that gives most elements of an array a value."""
        inside, loops = Scope(), ""
        for low, high in array.bounds:
            name = self.name("I")
            inside.declare("controls", [name])
            loops += f"FOR {name} := {low} UNTIL {high} DO "
        return f"{loops}{array.name}({', '.join(inside.controls)}) := {self.value(inside, array.kind, 1)}"

    def program(self):
        """The program's block. Some programs begin with little storage, few records or little depth left, or nest deep."""
        draw = self.chance.randrange(100)
        if draw < 4:
            inner = self.block(None, 2)
            return f"BEGIN INTEGER ARRAY ROOM (1::{32767 - self.chance.randint(0, 60)}); {inner} END"
        if draw < 8:
            inner = self.block(None, 2)
            down = "PROCEDURE DOWN (INTEGER VALUE N); IF N > 0 THEN DOWN(N - 1) ELSE"
            return f"BEGIN {down} {inner}; DOWN({1999 - self.chance.randint(0, 8)}) END"
        if draw < 11:
            many = self.chance.choice([("INTEGER U", 4096), ("INTEGER " + ", ".join(f"U{n}" for n in range(8)), 2048)])
            made = f"FOR MADE := 1 UNTIL {many[1] - self.chance.randint(0, 2)} DO R := C"
            return f"BEGIN RECORD C ({many[0]}); REFERENCE(C) R; {made}; {self.block(None, 2)} END"
        if draw < 12:
            deep = self.chance.randint(93, 97)
            return f"BEGIN WRITE({'(' * deep}{self.value(Scope(), INTEGER, 1)}{')' * deep}); {self.block(None, 1)} END"
        return self.block(None, self.chance.randint(1, 3))
