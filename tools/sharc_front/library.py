"""Calls that C cannot say: a method a function. The rest of the libraries is C in headers/.

Each thread is started on a record with its argument, in which its result is found."""
import math
import re
from string import Template
from pycparser import c_ast as A
from .ctype import HEAP, INT, VOID
from .express import Line, uncast
from .source import texts
from .statements import Statements
from .tree import NOTHING, PLACES, Expr, binary, convert, joined, number, times

ALIKE = {"calloc": "malloc", "memset": "memcpy"}
PIECE = re.compile(r"((?:[^%]|%%)+)|%([-+ 0#]*)(\d*)(?:\.(\d*))?(hh|h|ll|l|z|j|t|q)?([a-zA-Z])")
# a thread function is called by one that has the record; the argument is taken out of it, so that what it points to has
# one reference
RECORD, START, RESULT = (Template(" ".join(text.split())) for text in texts("threads.sharc"))

class Library(Statements):
    def library(self, node, name, args):
        """A call of a function that is neither in the program nor in the headers."""
        handler = getattr(self, "l_" + ALIKE.get(name, name).strip("_"), None)
        self.refuse_if(handler is None, f"call of {name.replace('__sharc_', '')}, which is not known", node)
        return handler(args) or number(0)

    def l_sharc_do(self, args):
        """A call of the language: its name, and pointers; for a lock the mutex itself."""
        name, values = args[0].name, self.values(args[1:])
        if name in ("lock", "unlock"):
            return self.emit(name + "(&%s);", self.deref(values[0]))
        return self.emit(f"{name}({', '.join(['%s'] * len(values))});", *values)

    def format(self, literal, values):
        """A text, or a conversion of each value by its flags, width, precision, length and letter."""
        pieces = PIECE.findall(self.bytes_of(literal).decode("latin-1"))
        self.refuse_if([text for text, *_ in pieces].count("") != len(values), "format with another number of values")
        return pieces

    def l_printf(self, args, shown="diuxXoc"):
        parts, printed = [part for text, *part in self.format(args[0], args[1:]) if not text], []
        for part, value in zip(parts, self.values(args[1:])):
            self.refuse_if(part[4] not in "diuxXocsp", f"conversion %{part[4]}")
            if part[4] in shown:
                printed.append(self.shown_number(part, value))
            elif value.height > 2 and (value.type.kind == "int" or value.op in PLACES) or value.calls:
                self.spilled(value)  # what it reads is read, though nothing is printed
        for value in [self.spilled(value) if value.calls and len(printed) > 1 else value for value in printed]:
            self.emit("print(%s);", value)
        return NOTHING

    def l_sharc_fprintf_stderr(self, args):
        return self.l_printf(args, "")

    def shown_number(self, part, value):
        """The number that a conversion shows of its argument."""
        name = {"hh": "char", "h": "short", "": "int"}.get(part[3], "long")
        value = convert(value, "u" + name if part[4] in "uxXo" else name)
        shown = value.type.name == "ulong" and (value.number is None or value.number < 0)
        return joined("__sharc_shown64", "long", value) if shown else value

    def l_snprintf(self, args):
        """Piece after piece, by functions of headers/stdio.h that give the place of the next one."""
        pieces, at = self.format(args[2], args[3:]), number(0)
        s, room, *values = (self.stable(self.value(arg)) for arg in [*args[:2], *args[3:]])
        for text, *part in pieces:
            flags, width, precision, _, letter = part
            name = {"": "put_text", "s": "put_text", "c": "put"}.get(letter, "put_number")
            more = precision + flags.strip("0") if name == "put_number" else precision + flags + width
            self.refuse_if(letter not in "diucs" or more, f"conversion %{letter} with these flags in sprintf")
            value = self.string(text.replace("%%", "%").encode("latin-1")) if text else values.pop(0)
            value = value if name == "put_text" else self.shown_number(part, value)
            given = [s, room, at, value, number(int(width or 0)), number("0" in flags)]
            at = self.stable(self.inlined(self.functions["__sharc_" + name], given))
        return self.inlined(self.functions["__sharc_end"], [s, room, at])

    def l_memcpy(self, args):
        """Also memset, where a number is copied: to elements of more than one byte 0."""
        to, source = (self.stable(self.value(arg)) for arg in args[:2])
        same = source.type.kind == "int" and (source.null() or to.type.to.size() == 1)
        self.refuse_if(not same and to.type.to.base() != source.type.to.base(), "memcpy of another type")
        length = self.stable(self.count(to.type.to, self.factors(self.value(args[2]))))
        self.counting(length, lambda at: self.copy(self.deref(to, at), source if same else self.deref(source, at)))
        return to

    def factors(self, size):
        """A size in bytes as values that are multiplied."""
        multiplied = size.op in ("*", "__sharc_product64")
        return [factor for arg in size.args for factor in self.factors(arg)] if multiplied else [self.stable(size)]

    def count(self, kind, factors):
        """How many objects of a type such a size is."""
        size, constant = kind.size(), math.prod(f.number for f in factors if f.number is not None)
        self.refuse_if(not size or constant % size, "size that is not a number of elements of one type")
        made = number(constant // size, "int" if constant < 1 << 31 else "long")
        for factor in [factor for factor in factors if factor.number is None]:
            made = factor if made.number == 1 else binary("*", made, factor, "long")
        return made

    def l_malloc(self, args):
        """malloc within an expression: by a variable, which is cast away."""
        made = self.temporary(self.pointer(VOID))
        self.allocate(made, args)
        return Expr("scast", (made, made.type), made.type, height=3)

    def allocate(self, place, args):
        node, factors = place.type.node, [factor for arg in args for factor in self.factors(self.value(arg))]
        place = self.stable_place(place)
        node.seen.add("heap")

        def allocated():
            to = place.type.to if place.type.to.kind != "void" else node.pointee()
            length = times(self.count(to, factors), to.cells())
            return self.new_object(self.text(place), to.base(), length, node.boxes)
        self.later(allocated, place)

    def l_free(self, args):
        value = self.value(args[0])
        value = value if value.op in PLACES or value.null() else self.spilled(value)
        self.later(lambda: f"free({self.text(value)});" if self.class_of(value).how in HEAP else "", value)

    def l_sharc_stop(self, args):
        """Stops the thread, by a division by 0 in a file whose name says what it stands for."""
        zero, (file, line) = self.own_name("zero"), self.here
        self.lines.append(Line((f"{file}: {args[0].value[1:-1]}", line),
                               f"{{ int {zero} = 0; {zero} = 1 / {zero}; }}"))

    def l_exit(self, args):
        code = self.value(args[0])
        if code.number:
            return self.l_sharc_stop([A.Constant("string", f'"exit({code.number})"')])
        self.refuse_if(self.function.name != "main", "exit outside main that may be no failure")
        self.emit("return %s;", self.fitting(code, INT))

    def l_sharc_scast(self, args):
        kind, place = self.type(args[0].to_type), self.visit(args[1])
        place.type.node.unite(kind.node)
        return Expr("scast", (place, kind), kind, height=3)

    def l_sharc_give(self, args):
        return self.given(self.value(args[0]))

    def l_pthread_create(self, args):
        self.blocked(self.created, *args)

    def created(self, target, attributes, start, arg):
        self.value(attributes)  # those that can be set change nothing here
        place, start = self.stable_place(self.deref(self.value(target))), self.stable(self.value(start))
        self.started.append(start.type.node)
        value = self.value(arg)
        if value.place() and value.place().chain():
            value.place().chain()[0].started.append(len(self.loops))
        value = self.given(self.fitting(value, start.type.to.params[0]), True)

        def lines():
            """Starts one of the functions that `start` may be."""
            functions = start.type.node.functions
            texts = [START.substitute(self.records[symbol], own=self.own_name("own"), given=self.own_name("given"),
                                      target=self.text(place), argument=self.text(value)) for symbol in functions]
            return texts[0] if len(texts) == 1 else " ".join(f"if ({self.text(start)} == {self.numbers[symbol]}) {text}"
                                                             for symbol, text in zip(functions, texts))
        self.later(lines, place, value)

    def given(self, value, automatic=False):
        """Hands over what `value` points to: a cast whose result is put back. Without a mark this is done for the
        address of an object that this thread alone has."""
        node = self.class_of(value)
        if value.calls:
            self.refuse_if(not automatic, "call within what is handed over")
            return value
        name, kind = self.own_name("t"), value.type

        def lines():
            if automatic and not self.handed(value):
                return ""
            self.refuse_if(node.how not in HEAP, "SHARC_GIVE of a number")
            self.notes.append((self.here, "what the argument of the thread points to is handed over (SCAST)"))
            kind_text, text = self.type_text(kind), self.text(value)
            return f"{kind_text} {name} = SCAST({kind_text}, {text}); {text} = {name};"
        self.later(lines, declares=True)
        return Expr("text", (lambda: self.text(value) if automatic and not self.handed(value) else name, value), kind)

    def handed(self, value):
        """Whether the argument of a thread is the address of an object of this thread alone."""
        place = value.place()
        whole = place.args[0] if place and place.op == "element" else place
        if not place or place.type.kind == "array" or whole.op != "variable" or whole.args[0].kind == "global":
            return False
        [local] = whole.args
        alone = local.address.boxes if whole is not place else local.started == [local.loop]
        return alone and value.type.node.how in HEAP

    def record_lines(self, symbol):
        kinds = [param.type.kind for param in symbol.params] + [symbol.type.to.kind]
        self.refuse_if(kinds != ["ptr", "ptr"], f"thread function {symbol.name}, not of pointers", symbol.place)
        argument, result = symbol.params[0].type, self.type_text(symbol.type.to.bare())
        return RECORD.substitute(self.records[symbol], function=self.part_name(symbol), result=result,
                                 argument=self.type_text(argument.bare()), none=self.null_text(argument.node))

    def l_pthread_join(self, args):
        thread, result = self.stable(self.value(args[0])), self.value(uncast(args[1]))
        self.emit("join(%s);", thread)
        if result.null():
            return
        place = self.stable_place(self.deref(result))
        self.refuse_if(place.type.kind != "ptr", "result of a thread that is no pointer")
        self.joins.append(place.type.node)
        self.put(place, number(0))
        self.later(lambda: " ".join(
            RESULT.substitute(self.records[symbol], thread=self.text(thread), target=self.text(place),
                              none=self.null_text(place.type.node))
            for symbol in self.records if symbol.gives), place)

    def l_pthread_exit(self, args):
        """In main its end, else that of the thread function."""
        if self.function.name == "main":
            return self.emit("return 0;")
        self.ends.append((self.function, self.here))
        self.s_Return(A.Return(args[0]))
