"""Statements and functions, lowered to lines (C11 6.8, 6.9.1)."""
from collections import ChainMap
from pycparser import c_ast as A, c_parser
from .ctype import BAD, INT, UNKNOWN, VOID, promoted, unify
from .declare import Symbol, place_of
from .express import Expressions, Line, uncast
from .locks import spelled
from .source import HEADERS, in_c
from .tree import NOTHING, Expr, binary, convert, joined, number, variable

def items_of(node):
    """The statements of a block, or the one that stands for a block."""
    return [*node] if isinstance(node, (A.Compound, A.DeclList)) else [node] if node is not None else []

class Statements(Expressions):
    def statements(self, nodes):
        """Each that declares something for itself is in a block of its own, with which references end."""
        for node in nodes:
            self.here = self.here if self.pinned else place_of(node, self.here)
            try:
                declares = isinstance(node, (A.Decl, A.Typedef, A.FuncDef))
                self.lowered(node) if declares else self.blocked(self.lowered, node)
            except UNKNOWN as error:
                self.report(error, f"`{in_c(node)[:60]}`, of a form that the front does not know")
                if isinstance(node, (A.Decl, A.Typedef)) and node.name:
                    self.scopes[node.name] = BAD

    def blocked(self, act, *arguments, after=()):
        """Lines in a block of their own if they declare variables."""
        lines, _ = self.captured(act, *arguments, after=after, inner=True)
        if any(line.declares for line in lines):
            self.emit("", blocks=(lines,))
        else:
            self.lines += lines

    def branch(self, test, first, second=()):
        """if (test) first else second"""
        if not first and second:
            test, first, second = joined("!", "int", test), second, first
        self.emit("if (%s)", test, blocks=(first, second))

    def body(self, node):
        return self.captured(self.statements, items_of(node), inner=True)[0]

    def lowered(self, node):
        """A statement of few lines; of others there is a method each."""
        match node:
            case A.Compound():
                self.statements(items_of(node))
            case A.EmptyStatement() | A.StaticAssert():
                pass
            case A.If():
                self.branch(self.value(node.cond), self.body(node.iftrue), self.body(node.iffalse))
            case A.While() | A.DoWhile():
                self.loop(node.cond, [], node.stmt, ends=isinstance(node, A.DoWhile))
            case A.For():
                self.statements(items_of(node.init))
                self.loop(node.cond, self.body(node.next), node.stmt)
            case A.Break():
                self.emit("break;")
            case _:
                lower = getattr(self, "s_" + type(node).__name__, None)
                lower(node) if lower else self.value(node, False)

    def s_Decl(self, node):
        if node.name is None or isinstance(node.type, A.FuncDecl):
            return self.prototype(node) if node.name else self.type(node.type)
        symbol, init = self.variable(node, "local" if self.function else "global"), uncast(node.init)
        values = self.scalars(variable(symbol), [node.init]) if init is not None else ()
        if symbol.kind == "global":
            for place, item in values:  # its declaration has constants, main assigns the rest
                lines, chain = self.captured(self.store, place, item)[0], place.chain()
                value = lines[0].parts[-1] if len(lines) == 1 and lines[0].text == "%s = %s;" else NOTHING
                if value.op == "number" and value.number > -(1 << 63) and chain:
                    symbol.constants.update({chain: value} if value.number else {})
                symbol.rest += [(chain, lines)] if value is NOTHING or not value.null() else []
            return
        self.declare_local(symbol, values)
        param = self.scopes.get(init.name) if isinstance(init, A.ID) else None
        if param in self.function.params and not self.loops and symbol.type.kind == param.type.kind == "ptr":
            # one that is used for nothing else is no second reference to what the local points to
            self.later(lambda: f"{self.text(variable(param))} = {self.null_text(param.type.node)};" if
                       param.uses == 1 else "")

    def declare_local(self, symbol, values=()):
        """Declares a local, by a name that no other of the function has, and gives it the values of its initialiser."""
        symbol.loop, taken = len(self.loops), symbol.name in self.own_names or symbol.name in self.global_names
        symbol.out = self.own_name(symbol.name) if symbol.own else self.fresh(symbol.name) if taken else symbol.name
        self.own_names.add(symbol.out)
        if self.pinned and self.bound and not symbol.own:  # one of the headers is told as what it is called for
            symbol.name = self.bound
        if symbol.kind == "local":
            self.later(lambda: self.declaration(symbol), declares=True)
        for place, item in values:
            self.blocked(self.store, place, item)

    def loop(self, cond, step, body, around=None, ends=False):
        """`step` is at the end of the body, and before each continue: self.loops has it for each loop around, and the
        flag `around` for each switch. A condition that takes lines, or that `ends` the body, leaves the loop there."""
        before, test = self.captured(self.value, cond) if cond is not None else ([], number(1))
        if before or ends:
            branches = [], [Line(self.here, "break;")]
            leave = self.captured(lambda: self.blocked(self.branch, test, *branches, after=before))[0]
            (before, step), test = ([], leave) if ends else (leave, step), number(1)
        self.loops.append(around or step)
        inner = self.body(body)
        self.loops.pop()
        self.emit("while (%s)", test, blocks=(before + inner + step, ()))

    def s_Continue(self, _):
        inner = self.loops[-1]
        if isinstance(inner, Symbol):
            inner.uses += 1
            self.emit(f"{inner.out} = 1;")
            return self.emit("break;")
        self.lines += inner
        self.emit("continue;")

    def s_Switch(self, node):
        """The cases in order, from the number of the one that is chosen on, in a loop that takes the breaks."""
        value, cases = self.value(node.cond), items_of(node.stmt)
        kind, bodies = promoted(value.type), []
        value = self.stable(convert(value, kind))
        default = next((at for at, case in enumerate(cases) if isinstance(case, A.Default)), len(cases))
        at, again = self.temporary(INT, number(default)), self.temporary(INT, number(0))
        self.scopes[at.args[0].out] = at
        for chosen, case in enumerate(cases):
            if isinstance(case, A.Case):
                label = number(self.constant(case.expr), kind)
                self.emit(f"if (%s) %s = {chosen};", binary("==", value, label), at)
            self.refuse_if(any(isinstance(part, (A.Decl, A.DeclList)) for part in case.stmts) and
                           chosen + 1 < len(cases), "declaration in a case that is not the last, outside a block")
            reached = A.BinaryOp("<=", A.ID(at.args[0].out), A.Constant("int", str(chosen)))
            bodies += [A.If(reached, A.Compound(case.stmts), None, case.stmts[0].coord)] if case.stmts else []
        self.loop(None, [Line(self.here, "break;")], A.Compound(bodies), again.args[0])
        if again.args[0].uses:
            self.branch(again, self.captured(self.s_Continue, node)[0])

    def s_Return(self, node):
        kind = self.function.type.to
        if kind.kind == "void":
            self.statements(items_of(node.expr))
            return self.emit("return;")
        value = self.value(node.expr) if node.expr is not None else number(0)
        self.function.gives |= kind.kind == "ptr" and not value.null()
        self.emit("return %s;", self.fitting(value, kind))

    def s_Typedef(self, item):
        inner = getattr(item.type, "type", None)
        if isinstance(inner, A.Struct) and inner.name is None:
            self.typedef_names.setdefault(id(inner), item.name)
        self.type(item.type)
        self.scopes[item.name] = item

    def prototype(self, decl):
        """The symbol of a function, with its parameters if it is not defined yet."""
        kind, place = self.type(decl.type), place_of(decl, self.here)
        symbol = self.functions.setdefault(decl.name, Symbol(decl.name, "function", kind, place))
        self.scopes.maps[-1][decl.name] = symbol
        unify(symbol.type, kind)
        if symbol.definition is None:
            symbol.type, names = kind, [param.name for param in decl.type.args.params] if kind.params else []
            symbol.params = [self.declare(name or "unnamed", "param", param, decl)
                             for name, param in zip(names, kind.params)]
        return symbol

    def s_FuncDef(self, item):
        symbol = self.prototype(item.decl)
        self.refuse_if(item.param_decls, "function definition in the old style", item)
        self.refuse_if(symbol.type.name == "...", "variable arguments", item)
        symbol.definition, symbol.header = item, place_of(item.decl)[0].startswith(HEADERS)
        if not symbol.header:
            self.function, self.loops, self.here, self.own_names = symbol, [], symbol.place, set()
            body = self.captured(self.function_body, symbol, inner=True)[0]
            heading = Expr("text", (lambda: self.heading(symbol),), VOID)
            symbol.lines = [Line(symbol.place, "%s", (heading,), blocks=(body,))]
            self.refuse_if(len(self.own_names) > 200, f"function {symbol.name} with over 200 variables", symbol.place)
            self.function = None

    def function_body(self, symbol):
        """A parameter whose address is taken becomes a local; those of main are locals with known values."""
        params = symbol.params
        if symbol.name == "main":
            words = ["".join(f"\\{byte:03o}" for byte in word.encode()) for word in self.arguments_given]
            values = (f"int %s = {len(words)};", "char *%s[] = { " + "".join(f'"{word}", ' for word in words) + "0 };")
            text = " ".join(value % param.name for value, param in zip(values, params))
            self.statements(c_parser.CParser().parse(f"void main(void) {{ {text} }}").ext[0].body.block_items or [])
        for param in params if symbol.name != "main" else []:
            self.scopes[param.name] = param
            self.declare_local(param)
            value = variable(param)
            if param.type.name == "value":
                self.scopes[param.name] = Expr("at", (value, number(0)), param.type.to)
            elif param.name in self.addressed:
                self.scopes[param.name] = local = self.declare(param.name, "local", param.type, param.place)
                self.declare_local(local)
                self.put(variable(local), self.loaded(value))
        self.statements(items_of(symbol.definition.body))

    def inlined(self, symbol, values):
        """The body of a function of the headers in place of a call, with its parameters bound to the arguments: they
        need not mean the same everywhere, and of `&x` the address is not taken. It returns at its end alone."""
        values = [self.stable(value) for value in values]
        kept, kind = (self.scopes, self.pinned, self.bound), values[0].type if values else INT
        self.pinned, place = self.here, values[0].place() if values else None
        self.bound = spelled(place) if place else self.bound
        self.scopes = ChainMap({"__sharc_value": kind.to.bare() if kind.kind == "ptr" else INT}, self.scopes.maps[-1])
        try:
            decl = symbol.definition.decl.type
            for param, value in zip(decl.args.params if decl.args else [], values):
                wanted = self.adjusted(self.type(param.type)) if param.name != "none" else VOID
                self.refuse_if(wanted == VOID and not value.null(),
                               f"argument of {symbol.name.removeprefix('__sharc_')} that is not NULL")
                if wanted.kind == "int":
                    value = self.fitting(value, wanted)
                    value = self.spilled(value) if value.number is None else value
                elif wanted.kind == "ptr" and wanted.to.kind != "func":
                    value = value.typed(wanted.with_(node=value.type.node))
                self.scopes[param.name] = value
            *items, last = symbol.definition.body.block_items
            self.statements(items)
            return self.fitting(self.value(last.expr), self.type(decl.type))
        finally:
            self.scopes, self.pinned, self.bound = kept
