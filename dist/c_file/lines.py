"""An instruction as a line of C. A number of n bits lies in the shortest unsigned type that holds it, with zeros above."""

import re

import forms
import optimised
import places

SIGNS = {"add": "+", "sub": "-", "mul": "*", "udiv": "/", "urem": "%", "and": "&", "or": "|", "xor": "^", "shl": "<<", "lshr": ">>"}
TESTS = {"eq": "==", "ne": "!=", "lt": "<", "le": "<=", "gt": ">", "ge": ">="}


def bits_of(kind):
    return int(kind[1:])


def c_type(kind):
    if kind in ("void", "ptr"):
        return kind
    pair = forms.pair_of(kind)
    return f"p_{pair.first}_{pair.second}" if pair else next(f"u{n}" for n in (8, 16, 32, 64) if bits_of(kind) <= n)


def number(kind, value):
    value &= (1 << bits_of(kind)) - 1
    return f"{value}u" if bits_of(kind) <= 32 else f"UINT64_C({value})"


def cut(kind, text):
    """What is left of an expression in so many bits."""
    bits = bits_of(kind)
    if bits in (32, 64):
        return text
    return f"({c_type(kind)})({text})" if bits in (8, 16) else f"({c_type(kind)})(({text}) & {number(kind, -1)})"


def chosen(kind, test, one, two):
    """(numbers that are shorter than an int come back as one)"""
    return f"({c_type(kind)})({test} ? {one} : {two})" if kind[0] == "i" else f"{test} ? {one} : {two}"


def read_by(steps):
    """The values that something reads which is done."""
    read, known = None, {it.parts["to"] for it in steps if it.parts.get("to")}
    while read != known:
        read = known
        done = [it for it in steps if it.kind != "lifetime" and (it.kind == "call" or not it.parts.get("to") or it.parts["to"] in read)]
        known = {name for it in done for what, text in it.parts.items() if text and what != "to" for name in re.findall(r"%[\w.]+", text)}
    return read


class Lines:
    """The lines of one function."""

    def __init__(self, function, names):
        self.function, self.names = function, names
        self.blocks = places.Blocks(function)
        self.places, self.room = places.places_of(self.blocks)
        self.values = {it.name: f"a{n}" for n, it in enumerate(function.parameters)}
        self.labels = {label: f"l{n}" for n, label in enumerate(self.blocks.order)}
        steps = [it for label in self.blocks.order for it in self.blocks.steps[label]]
        self.values.update({it.parts["to"]: f"v{n}" for n, it in enumerate(it for it in steps if it.parts.get("to"))})
        self.read = read_by(steps)

    def value(self, kind, text):
        """A value of the module in C."""
        if text in self.places:
            return f"TO((u8 *)room + {self.places[text]})"
        if text.startswith("%"):
            return self.values[text]
        if text.startswith("@"):
            return f"TO({self.names[text]})"
        if text == "null" or kind == "ptr":
            return "TO(0)"
        if kind.startswith("{"):
            parts = re.findall(r"(\w+) ([\w-]+)(?:,| \})", text) or [(it, "0") for it in re.findall(r"\w+", kind)]
            return f"({c_type(kind)}){{ {', '.join(self.value(*it) for it in parts)} }}"
        return number(kind, {"true": 1, "false": 0, "undef": 0, "poison": 0}.get(text) if text.isalpha() else int(text))

    def wide(self, kind, text):
        """A number in the type that C computes in: none that is promoted to one with a sign."""
        found = self.value(kind, text)
        return f"(u32){found}" if bits_of(kind) <= 16 and not found[0].isdigit() else found

    def flipped(self, kind, text):
        """A number with its sign flipped: those with a sign are in the order of these without."""
        return f"({self.wide(kind, text)} ^ {number(kind, 1 << bits_of(kind) - 1)})"

    def access(self, what, step):
        """A read or a write of a number. (No address lies in memory but as its number.)"""
        kind, at, size = step.parts["type"], self.value("ptr", step.parts["at"]), places.bytes_of(step.parts["type"])
        value = f", {self.value(kind, step.parts['value'])}" if what == "ST" else ""
        if size not in (1, 2, 4, 8):
            cast = f"({c_type(kind)})" if what == "LD" else ""
            return f"{cast}{what}N({at}{value}, {size})"
        return f"{what}{8 * size}{'U' if int(step.parts['align']) < size else ''}({at}{value})"

    def line(self, step):
        """What an instruction does, but for those that a block ends with, and for what nobody reads."""
        made = step.parts.get("to")
        is_call = step.kind == "call" and not step.parts["name"].startswith("@llvm.")
        if made and made not in self.read:
            return f"{self.line_call(step.parts, step)};" if is_call else None
        text = getattr(self, f"line_{step.kind}")(step.parts, step)
        if text is None:
            return None
        return f"{c_type(forms.made_by(step, optimised.ROWS))} {self.values[made]} = {text};" if made else text

    def line_alloca(self, p, step):
        return None

    line_lifetime = line_phi = line_alloca

    def line_load(self, p, step):
        return self.access("LD", step)

    def line_store(self, p, step):
        return f"{self.access('ST', step)};"

    def line_getelementptr(self, p, step):
        distance = p["distance"]
        return f"GEP({self.value('ptr', p['at'])}, {self.value('i64', distance) if distance.startswith('%') else distance})"

    def line_binary(self, p, step):
        kind, sign = p["type"], SIGNS[p["operator"]]
        one, two = self.wide(kind, p["one"]), self.wide(kind, p["two"])
        if sign in ("<<", ">>") and p["two"].startswith("%"):
            two = f"({two} & {63 if bits_of(kind) > 32 else 31}u)"
        return cut(kind, f"{one} {sign} {two}")

    def line_sext(self, p, step):
        kind, sign = p["type"], number(p["type"], 1 << bits_of(p["from"]) - 1)
        return cut(kind, f"((u{64 if bits_of(kind) > 32 else 32}){self.value(p['from'], p['value'])} ^ {sign}) - {sign}")

    def line_cast(self, p, step):
        text = self.value(p["from"], p["value"])
        return f"({c_type(p['type'])})({cut(p['type'], text)})" if p["operator"] == "trunc" else f"({c_type(p['type'])}){text}"

    def line_icmp(self, p, step):
        kind, test = p["type"], p["test"]
        if kind == "ptr" and test not in ("eq", "ne"):
            forms.refuse(step.text)
        made = self.flipped if test[0] == "s" else self.value
        one, two = made(kind, p["one"]), made(kind, p["two"])
        return f"AT({one}) {TESTS[test]} AT({two})" if kind == "ptr" else f"{one} {TESTS[test[-2:]]} {two}"

    def line_select(self, p, step):
        return chosen(p["type"], self.value("i1", p["test"]), self.value(p["type"], p["one"]), self.value(p["type"], p["two"]))

    def line_freeze(self, p, step):
        return self.value(p["type"], p["value"])

    def line_inttoptr(self, p, step):
        return f"PTR({self.value('i64', p['value'])})"

    def line_ptrtoaddr(self, p, step):
        return f"NUMBER({self.value('ptr', p['value'])})"

    def line_extractvalue(self, p, step):
        return f"{self.value(p['type'], p['value'])}.{'ab'[int(p['place'])]}"

    def line_insertvalue(self, p, step):
        base = self.value(p["type"], p.get("base") or p["value"])
        return f"{base}; {self.values[p['to']]}.{'ab'[int(p['place'])]} = {self.value(p['part'], p['given'])}"

    line_insert = line_insertvalue

    def line_copy(self, p, step):
        given = [self.value("ptr", p["at"]), self.value("ptr", p["source"]), self.value("i64", p["size"])]
        aligns = [p["to_align"] or "1", p["align"] or "1"]
        return f"{'MOVE' if p['what'] == 'memmove' else 'COPY'}({', '.join([*given, *aligns])});"

    def line_fill(self, p, step):
        return f"FILL({self.value('ptr', p['at'])}, {self.value('i8', p['byte'])}, {self.value('i64', p['size'])}, {p['align'] or '1'});"

    def line_funnel(self, p, step):
        kind, bits = p["type"], bits_of(p["type"])
        one, two, far = self.wide(kind, p["one"]), self.wide(kind, p["two"]), int(p["three"])
        if far >= bits:
            forms.refuse(step.text)
        left = far if p["way"] == "l" else bits - far
        return cut(kind, f"({one} << {left}) | ({two} >> {bits - left})")

    def line_call(self, p, step):
        arguments = forms.arguments_of(step)
        if p["name"] == "@llvm.trap":
            return "NEVER();"
        if p["name"].startswith("@llvm."):
            return self.known(p["name"][6:], arguments)
        given = [self.value(*it) for it in arguments]
        if p["name"] == "@rattle_dealloc":
            return f"rattle_dealloc(AT({given[0]}));"
        name = f"{p['name'][1:]}_" if p["name"] in forms.OUTSIDE else self.names[p["name"]]
        return f"{name}({', '.join(given)}){'' if p['to'] else ';'}"

    def known(self, name, arguments):
        """What the compiler knows."""
        name, _, kind = name.rpartition(".")
        one, two = (self.wide(kind, text) for _, text in (arguments * 2)[:2])
        if name in ("umin", "umax"):
            return chosen(kind, f"{one} {'<' if name == 'umin' else '>'} {two}", one, two)
        if name == "usub.sat":
            return chosen(kind, f"{one} > {two}", f"{one} - {two}", number(kind, 0))
        value = self.value(kind, arguments[0][1])
        return f"swapped{kind[1:]}({value})" if name == "bswap" else f"({c_type(kind)})leading_zeros({value}, {kind[1:]})"

    def branch(self, begin, end):
        """The way from one block to another, at which its phis get what they are."""
        taken = [(it, dict((label, value) for value, label in optimised.incoming(it))) for it in self.blocks.steps[end] if it.kind == "phi"]
        if not all(begin in one for _, one in taken):
            raise forms.Refused(f"{self.function.name}: a phi tells nothing of {begin}")
        moves = [(self.values[it.parts["to"]], it.parts["type"], self.value(it.parts["type"], one[begin])) for it, one in taken]
        moves = [it for it in moves if it[0] != it[2]]
        first = {it[0] for it in moves}
        if any(it[2] in first for it in moves):
            kept = [f"{c_type(kind)} t{n} = {value};" for n, (_, kind, value) in enumerate(moves)]
            sets = [f"{to} = t{n};" for n, (to, _, _) in enumerate(moves)]
        else:
            kept, sets = [], [f"{to} = {value};" for to, _, value in moves]
        return " ".join([*kept, *sets, f"goto {self.labels[end]};"])

    def ending(self, label, step):
        """What a block ends with, as lines."""
        p = step.parts
        if step.kind == "goto":
            way = self.branch(label, p["label"])
            return [f"{{ {way} }}" if " t0 = " in way else way]
        if step.kind == "if":
            return [f"if ({self.value('i1', p['value'])}) {{ {self.branch(label, p['yes'])} }}", f"else {{ {self.branch(label, p['no'])} }}"]
        if step.kind == "switch":
            arms = [f"case {self.value(p['type'], n)}: {{ {self.branch(label, to)} }}" for n, to in forms.arms_of(step)]
            return [f"switch ({self.value(p['type'], p['value'])}) {{", *arms, f"default: {{ {self.branch(label, p['otherwise'])} }}", "}"]
        if step.kind in ("ret", "return"):
            return [f"return {self.value(p['type'], p.get('base') or p['value'])};" if p["type"] else "return;"]
        return ["NEVER();"] if step.kind == "unreachable" else forms.refuse(step.text)
