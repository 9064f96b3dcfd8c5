"""An LLVM module as text, made smaller and divided, so that it compiles in less time.

`slim` leaves out the functions that no root reaches, and makes one of those whose bodies are the same: what the toolchain makes of generic
code is alike for many types. `split` divides a module for several processors. Functions of a few lines are copied into each part that calls
them, so that they can still be put into their callers; the others are hidden symbols of the program that is linked of the parts.

`is_known` is false of a text of another form than the toolchain writes today (aliases, groups of sections, addresses of blocks, constructors).
Constants are in each part, so a constant may have several addresses.
"""
import re

# A name of a function or a global, or a string, since a string may hold what looks like a name.
NAME = re.compile(r'(c"[^"]*"|@"[^"]+"|@[\w.$-]+)')
DEFINED = re.compile(r'^define [^@]*(@"[^"]+"|@[\w.$-]+)\(', re.M)
VARIABLE = re.compile(r'^(@"[^"]+"|@[\w.$-]+) = (internal|private) (?:unnamed_addr |local_unnamed_addr |thread_local\S* )*global ', re.M)
UNKNOWN = re.compile(r"^(?:@.* = .*\b(?:alias|ifunc) |@llvm\.global_[cd]tors|\$.* = comdat)|\bblockaddress\(|\bcomdat\b", re.M)
# Functions of at most so many lines are copied to where they are called.
FEW_LINES = 25


class Module:
    """What is before the first function and between functions, and the text of each function by its name, in their order."""

    def __init__(self, text):
        starts = [it.start() for it in DEFINED.finditer(text)] + [len(text)]
        self.head, self.functions = text[: starts[0]], {}
        between = []
        for start, end in zip(starts, starts[1:]):
            closed = text.index("\n}\n", start) + 3
            self.functions[DEFINED.match(text, start)[1]] = text[start:closed]
            if text[closed:end].strip():
                between.append(text[closed:end])
        self.between = "".join(between)

    def named(self, text):
        """The functions that this text names, once for each time."""
        return [it for it in NAME.findall(text) if it in self.functions]

    def text(self):
        return "".join([self.head, *(f"{it}\n" for it in self.functions.values()), self.between])


def is_known(text):
    return not UNKNOWN.search(text)


def reached(module, roots):
    """The functions that the roots and the globals reach, callees before their callers except in cycles: each as words, of which every second one
    is a name."""
    words, order = {}, {}
    # what a global names may be called by whoever reads the global
    for root in [*roots, *module.named(module.head), *module.named(module.between)]:
        stack = [root] if root not in words else []
        while stack:
            name = stack[-1]
            if name not in words:
                words[name] = NAME.split(module.functions[name])
                stack += [it for it in dict.fromkeys(words[name][1::2]) if it in module.functions and it not in words]
            else:
                order.setdefault(stack.pop())
    return {name: words[name] for name in order}


def renamed(text, names):
    """The text with these names in the place of others."""
    words = NAME.split(text)
    words[1::2] = [names.get(it, it) for it in words[1::2]]
    return "".join(words)


def slim(text, roots):
    """The text without what the roots do not reach, and with one function in the place of several that are the same."""
    module = Module(text)
    known, same, seen = reached(module, roots), {}, {}
    for name, words in known.items():
        names = words[1::2] = [same.get(it, it) for it in words[1::2]]
        if name in roots or not words[0].startswith("define internal "):
            continue
        # its own name is no difference
        words[1::2] = ["@" if it == name else it for it in names]
        first = seen.setdefault("".join(words), name)
        words[1::2] = names
        if first != name:
            same[name] = first
    # in a cycle a function is renamed before what it calls is known to be the same as another
    for words in known.values():
        words[1::2] = [same.get(it, it) for it in words[1::2]]
    module.functions = {name: "".join(known[name]) for name in module.functions if name in known and name not in same}
    module.head, module.between = renamed(module.head, same), renamed(module.between, same)
    return module.text()


def declared(function):
    """The declaration of a function that another part defines."""
    line = re.sub(r" personality .*| \{$", "", function.split("\n", 1)[0])
    return re.sub(r"^define (internal )?", lambda it: "declare hidden " if it[1] else "declare ", line)


def split(text, count):
    """So many modules that are this one when they are linked."""
    module = Module(text)
    functions, lines = module.functions, {name: body.count("\n") for name, body in module.functions.items()}
    callees = {name: set(module.named(body)) - {name} for name, body in functions.items()}
    in_globals = set(module.named(module.head))
    few = {it for it in functions if lines[it] <= FEW_LINES and functions[it].startswith("define internal ") and it not in in_globals}
    part, before, whole = {}, 0, sum(lines[it] for it in functions if it not in few)
    for name in functions:
        if name not in few:
            part[name] = before * count // max(1, whole)
            before += lines[name]
    return [one_part(module, number, part, few, callees, in_globals) for number in range(count)]


def one_part(module, number, part, few, callees, in_globals):
    own = [name for name, at in part.items() if at == number]
    copied, left = set(), list(own)
    while left:
        for it in callees[left.pop()]:
            if it in few and it not in copied:
                copied.add(it)
                left.append(it)
    elsewhere = {it for name in [*own, *copied] for it in callees[name] | in_globals if it not in few and part[it] != number}
    # a variable is in the first part, and the others share it
    head = VARIABLE.sub(r"\1 = hidden global ", module.head) if number == 0 else shared_variables(module.head)
    functions = [module.functions[it].replace("define internal ", "define hidden ", 1) for it in own]
    functions += [body for name, body in module.functions.items() if name in copied]
    functions += [declared(module.functions[it]) for it in module.functions if it in elsewhere]
    return "".join([head, *(f"{it}\n" for it in functions), module.between])


def shared_variables(head):
    """The head with declarations of its variables."""
    lines = head.split("\n")
    for at, line in enumerate(lines):
        found = VARIABLE.match(line)
        if found:
            lines[at] = f"{found[1]} = external hidden global {type_at(line[found.end() :])}"
    return "\n".join(lines)


def type_at(words):
    """The type with which the words begin: to the first space outside of brackets."""
    depth = 0
    for at, character in enumerate(words):
        depth += (character in "[{<(") - (character in "]}>)")
        if depth == 0 and character in " ,":
            return words[:at]
    return words
