"""Declarations: types, structs, enums, names and their scopes, initialisers and strings (C11 6.2.1, 6.4.5, 6.7)."""
import re
from pycparser import c_ast as A
from .ctype import BAD, BOOL, COND, INT, MUTEX, UINT, VOID, Node, Refusal, Type, array, unify
from .source import in_c
from .tree import element, number, variable

# the types that a few words name, without `signed` and `int`, in the order of the alphabet
WORDS = {"": INT, "void": VOID, "pthread_mutex_t": MUTEX, "pthread_spinlock_t": MUTEX, "__sharc_cond": COND,
         "_Bool": BOOL, "long long": Type("int", "long"), "long long unsigned": Type("int", "ulong"),
         "unsigned": UINT, **{word: Type("int", word) for word in ("char", "short", "long")},
         **{word + " unsigned": Type("int", "u" + word) for word in ("char", "short", "long")}}

class Symbol:
    """A variable (`kind` global, local or param), member, struct or function."""
    def __init__(self, name, kind, type, place, address=None, out=None, own=False):
        self.name, self.kind, self.type, self.place = name, kind, type, place
        # class of the pointers to it, or to its elements if it is an array; of a member, in objects of the heap
        self.address = address
        self.out, self.own = out or name, own  # its name in the text that is written; whether it is none of the user's
        self.shared, self.uses = False, 0  # shared: others than its function may change it
        self.apart = False  # whether it is an object of its own: an array, or one whose address is taken
        self.struct, self.fields = None, {}  # of a member: its struct; of a struct: {name: member}
        self.constants, self.rest = {}, []  # of a global: {part: what it is declared with}, [(part, lines of main)]
        self.loop, self.started = 0, []  # how many loops are around it, and around each pthread_create of its address
        self.params, self.definition, self.lines = [], None, []  # of a function, as the next three
        self.gives, self.called, self.header = False, False, False  # gives: a pointer that is not NULL

    def leaves(self, around=(), apart=False):
        """What it consists of that is no struct: itself, or members, each after those around it. `apart`: in an object
        of the heap, where what is an object of its own is not laid open."""
        chain = (*around, self)
        if self.type.kind == "struct" and not (apart and around and self.apart):
            for member in self.type.struct.fields.values():
                yield from member.leaves(chain, apart)
        elif self.type.kind != "bad":
            yield chain

def place_of(node, otherwise=("", 0)):
    coord = getattr(node, "coord", None)
    return node if isinstance(node, tuple) else (coord.file, coord.line) if coord and coord.file else otherwise

class Declarations:
    def refuse(self, node, what):
        raise Refusal((place_of(node, self.here), what))

    def refuse_if(self, condition, what, node=None):
        if condition:
            self.refuse(node or self.here, what)

    def report(self, error, what=None):
        """Notes a refusal, or another error as one with this text."""
        args = error.args if isinstance(error, Refusal) else [(None, what)]
        self.refusals += [(place or self.here, told) for place, told in args]

    def fresh(self, name):
        """A name that nothing has, of at most 60 bytes."""
        made, count = name[:56], 1
        while made in self.names:
            made, count = f"{name[:56]}_{count + 1}", count + 1
        self.names.add(made)
        return made

    def pointer(self, to, **more):
        return Type("ptr", to=to, node=Node(self.nodes, to), **more)

    def type(self, node):
        if isinstance(node, A.Typename):
            return self.type(node.type)
        if isinstance(node, (A.TypeDecl, A.PtrDecl)):
            kind, words = self.type(node.type), node.quals or []
            kind = self.pointer(kind) if isinstance(node, A.PtrDecl) else kind
            self.refuse_if("_Atomic" in words and kind.kind != "int", f"_Atomic {kind.shown()}", node)
            mark = words.count("volatile")  # its number
            return kind.with_(mode=(self.source.modes[mark - 1], self.scopes) if mark else kind.mode,
                              const=kind.const or "const" in words, atomic=kind.atomic or "_Atomic" in words)
        read = getattr(self, "t_" + type(node).__name__, None)
        return read(node) if read else self.refuse(node, f"type ({type(node).__name__})")

    def t_Union(self, node):
        known = node.decls is None and self.scopes.get(f" {node.name}") == BAD
        self.scopes[f" {node.name}"] = BAD
        self.refuse(node, None if known else "union")

    def t_IdentifierType(self, node):
        words = " ".join(sorted(word for word in node.names if word not in ("signed", "int")))
        named = WORDS.get(words) or self.scopes.get(words)
        if isinstance(named, A.Typedef):  # each time with classes of its own
            return self.type(named.type)
        if isinstance(named, Type) and named != BAD:
            return named
        what = "floating point" if {"float", "double"} & {*node.names} else "type " + " ".join(node.names)
        return self.refuse(node, what if named != BAD else None)

    def t_ArrayDecl(self, node):
        kind = self.type(node.type)
        length = self.constant(node.dim) if node.dim is not None else None
        self.refuse_if(length is not None and length < 1, "array of no elements", node)
        return array(kind, length)

    def constant(self, node):
        value = self.captured(self.value, node)[1].number
        return value if value is not None else self.refuse(node, f"`{in_c(node)}`, which is not constant")

    def t_FuncDecl(self, node):
        params, result = node.args.params if node.args else [], self.adjusted(self.type(node.type))
        if params and isinstance(params[-1], A.EllipsisParam):
            return Type("func", name="...", to=result)
        kinds = [self.adjusted(self.type(param.type)) for param in params if not isinstance(param, A.ID)]
        return Type("func", to=result, params=() if kinds == [VOID] else tuple(kinds))

    def adjusted(self, kind):
        """The type of a parameter or result (C11 6.7.6.3); a struct goes as a pointer to a copy."""
        if kind.kind == "struct":
            return self.pointer(kind, name="value")
        return self.pointer(kind.to if kind.kind == "array" else kind) if kind.kind in ("array", "func") else kind

    def t_Enum(self, node):
        """gcc gives an enumerated type without a negative number the type unsigned int."""
        if node.values is None or id(node) in self.tags:
            return self.tags.get(id(node)) or self.scopes.get(f" {node.name}") or UINT
        value, least = 0, 0
        for item in node.values.enumerators:
            if item.value is not None:
                value = self.constant(item.value)
            self.refuse_if(not -(1 << 31) <= value < 1 << 31, "enumerator that is no int", item)
            self.scopes[item.name] = number(value)
            value, least = value + 1, min(value, least)
        self.scopes[f" {node.name}"] = self.tags[id(node)] = INT if least < 0 else UINT
        return self.tags[id(node)]

    def t_Struct(self, node):
        """A new struct or a known one; its members are read where they are given."""
        tag, name = f" {node.name}", node.name or self.typedef_names.get(id(node), "anonymous")
        tags = self.scopes if node.decls is None else self.scopes.maps[0]
        struct = self.tags.get(id(node)) or node.name and tags.get(tag)
        if not struct:
            name = self.fresh(name) if name in self.structs or name == "anonymous" else name
            struct = self.structs[name] = Symbol(name, "struct", None, place_of(node, self.here))
            struct.type = Type("struct", name, struct=struct)
            self.scopes.update({tag: struct} if node.name else {})
        self.tags[id(node)] = struct
        for decl in node.decls or () if not struct.fields else ():
            name = getattr(decl, "name", None)
            try:
                self.refuse_if(not name or decl.bitsize, "bit field" if name else "member without a name", decl)
                kind = self.type(decl.type)
                self.refuse_if(kind.kind == "array" and kind.length is None, "array without a length in a struct", decl)
            except Refusal as refusal:
                kind = BAD
                self.report(refusal)
            struct.fields[name or ""] = member = self.declare(name or "", "member", kind, decl)
            member.struct = struct
        return struct.type

    def declare(self, name, kind, type, node, own=False):
        symbol = Symbol(name, kind, type, place_of(node, self.here), Node(self.nodes, type), own=own)
        symbol.shared = kind == "global" or type.atomic or name in self.addressed
        if kind == "global":
            symbol.address.globals[symbol,] = None
        else:
            symbol.address.seen.add("heap")
            mutex = kind != "member" and any(chain[-1].type == MUTEX for chain in symbol.leaves())
            symbol.apart = mutex or type.kind == "array"
        return symbol

    def variable(self, decl, kind):
        type, storage, bare = self.type(decl.type), decl.storage or [], decl.init is None
        known = self.scopes.maps[-1].get(decl.name) if kind == "global" or "extern" in storage else None
        if type.kind == "array" and type.length is None and not bare:
            whole = variable(Symbol(decl.name, kind, type, self.here))
            type = type.with_(length=1 + max(place.values()[0].number for place, _ in self.scalars(whole, [decl.init])))
        kind = "global" if {"static", "extern"} & set(storage) else kind
        symbol = known if isinstance(known, Symbol) else self.declare(decl.name, kind, type, decl)
        self.scopes[decl.name] = symbol
        if symbol.type.kind == "array" and symbol.type.length is None:
            symbol.type = type
        unify(symbol.type, type)
        if symbol.kind == "global" and symbol not in self.globals and not ("extern" in storage and bare):
            self.globals.append(symbol)
            symbol.out = self.fresh(f"{self.function.name}_{decl.name}") if len(self.scopes.maps) > 1 else symbol.out
        return symbol

    def scalars(self, place, items):
        """Takes from `items` what initialises one object: values, each after the place for it (6.7.9)."""
        item, kind = items[0], place.type
        whole = kind.kind not in ("array", "struct")
        if isinstance(item, A.ID) and item.name == "__sharc_init":
            items.pop(0)
        elif getattr(item, "type", None) == "string" and kind.kind == "array" and kind.to.name in ("char", "uchar"):
            for at, byte in enumerate([*self.bytes_of(items.pop(0)), 0][: kind.length]):
                yield element(place, number(at)), A.Constant("int", str(byte), item.coord)
        elif isinstance(item, A.InitList):
            inner = list(items.pop(0).exprs)
            yield from self.scalars(place, inner) if whole else self.parts(place, inner, True)
        elif whole or kind.kind == "struct" and self.captured(self.value, item)[1].type.kind == "struct":
            yield place, items.pop(0)
        else:
            yield from self.parts(place, items, False)

    def parts(self, place, items, braced):
        """The same for the parts of an array or a struct: in braces all items, else as many as there are parts."""
        is_array, length = place.type.kind == "array", place.type.length
        steps, at = range(1 << 20 if length is None else length) if is_array else list(place.type.struct.fields), 0
        while items and (braced or at < len(steps) and not isinstance(items[0], A.NamedInitializer)):
            item, more = items[0], []
            if isinstance(item, A.NamedInitializer):
                name, *more = item.name
                at = steps.index(self.constant(name) if is_array else name.name)
                items[0] = A.NamedInitializer(more, item.expr) if more else item.expr
            part = element(place, number(steps[at])) if is_array else self.member_named(place, steps[at])
            yield from self.parts(part, [items.pop(0)], True) if more else self.scalars(part, items)
            at += 1

    def bytes_of(self, node):
        """The bytes of a string or character constant, in which every escape has three digits."""
        self.refuse_if(node.type == "string" and node.value[0] != '"', "wide string", node)
        return re.sub(rb"\\(...)", lambda found: bytes([int(found[1], 8)]), node.value[1:-1].encode())
