"""Makers of WebAssembly modules for the benchmarks: no program's output, but bytes put together here.

Each maker takes about how many bytes the module shall have, and gives a valid module of about that
size; the makers of types take their number. `KINDS` has those by size, by name.
"""

HEADER = b"\0asm\1\0\0\0"
END = b"\x0b"
I32 = b"\x7f"

TYPE, FUNCTION, MEMORY, GLOBAL, EXPORT, CODE, DATA = 1, 3, 5, 6, 7, 10, 11

# The most supertypes above each other are 63, so a chain has 64 types.
CHAIN = 64
# The most functions and types that a module may have.
MOST = 1_000_000


def unsigned(number):
    """The least spelling of an unsigned integer."""
    out = bytearray()
    while number >= 128:
        out.append(number % 128 + 128)
        number //= 128
    out.append(number)
    return bytes(out)


def signed(number):
    """The least spelling of a signed integer."""
    out = bytearray()
    while not -64 <= number < 64:
        out.append(number % 128 + 128)
        number //= 128
    out.append(number % 128)
    return bytes(out)


def vector(items):
    return unsigned(len(items)) + b"".join(items)


def sized(content):
    return unsigned(len(content)) + content


def section(identifier, items):
    return bytes([identifier]) + sized(vector(items))


def entry(locals_, body):
    return sized(locals_ + body + END)


def export(name, index):
    return sized(name) + b"\0" + unsigned(index)


def numbers_module(bodies, locals_=b"\1\1" + I32):
    """Functions without parameters that give an i32; the first is exported as `f`."""
    return (
        HEADER
        + section(TYPE, [b"\x60\0\1" + I32])
        + section(FUNCTION, [b"\0"] * len(bodies))
        + section(EXPORT, [export(b"f", 0)])
        + section(CODE, [entry(locals_, body) for body in bodies])
    )


# local.get 0, i32.const 42, i32.add, local.set 0
STEP = b"\x20\0\x41\x2a\x6a\x21\0"
LOCAL = b"\x20\0"


def many_small_functions(size):
    """Functions of 13 instructions each."""
    body = STEP * 3 + LOCAL
    return numbers_module([body] * min(size // (len(body) + 6), MOST))


def one_huge_function(size):
    """One function, with all instructions in one list."""
    return numbers_module([STEP * (size // len(STEP)) + LOCAL])


def deep_nesting(size):
    """Functions with 999 blocks inside each other and nothing else: three bytes a block."""
    body = b"\x02\x40" * 999 + END * 999 + LOCAL
    return numbers_module([body] * max(1, size // (len(body) + 8)))


def nested_switch(size):
    """Functions with a switch of 998 cases, as compilers write one: a block for each case, all inside
    each other and inside one for the end, and behind each its case's code, which leaves the switch.
    """
    cases = 998
    table = LOCAL + b"\x0e" + vector([unsigned(case) for case in range(cases)]) + unsigned(cases)
    code = [STEP + b"\x0c" + unsigned(cases - 1 - case) for case in range(cases)]
    body = b"\x02\x40" * (cases + 1) + table + END + END.join(code) + END + LOCAL
    return numbers_module([body] * max(1, size // (len(body) + 8)))


def many_blocks(size):
    """One function with short blocks, loops and ifs behind each other."""
    block = b"\x02\x40" + LOCAL + b"\x0d\0" + b"\x0b"
    loop = b"\x03\x40" + STEP + b"\x0b"
    choice = LOCAL + b"\x04\x40" + STEP + b"\x05" + STEP + b"\x0b"
    piece = block + loop + choice
    return numbers_module([piece * (size // len(piece)) + LOCAL])


def dead_code(size):
    """Functions with code behind a return."""
    body = LOCAL + b"\x0f" + b"\x41\1\x1a" * 20
    return numbers_module([body] * min(size // (len(body) + 8), MOST))


def subtype(index, fields):
    """An open structure type, which declares the one before it but for each 64th."""
    supers = b"\0" if index % CHAIN == 0 else b"\1" + unsigned(index - 1)
    return b"\x50" + supers + b"\x5f" + vector(fields)


def chained_type(index):
    """A type of a chain, which no other type equals: its one field refers to itself."""
    return subtype(index, [b"\x63" + signed(index) + b"\0"])


def types_in_one_group(count):
    """So many types in one recursion group."""
    group = b"\x4e" + vector([chained_type(index) for index in range(count)])
    return HEADER + section(TYPE, [group])


def types_in_groups_of_one(count):
    """So many types, each in a recursion group of its own."""
    return HEADER + section(TYPE, [chained_type(index) for index in range(count)])


def types_of_size(maker):
    """A maker of as many types as have about a size."""
    return lambda size: maker(min(MOST, max(CHAIN, size // 11)))


# The types of each class in `object_code`: its structure, its virtual table and its method's type.
CLASS_TYPES = 3


def class_types(number):
    """The recursion group of a class: an object with its table and two numbers, a table with one
    method, and the method's type."""
    first = number * CLASS_TYPES
    table, method = signed(first + 1), signed(first + 2)
    instance = b"\x50\0\x5f" + vector([b"\x64" + table + b"\0", I32 + b"\1", I32 + b"\1"])
    table_type = b"\x50\0\x5f" + vector([b"\x64" + method + b"\0"])
    method_type = b"\x60" + vector([b"\x6e"]) + vector([I32])
    return b"\x4e" + vector([instance, table_type, method_type])


def method_body(number):
    """A method: it casts the receiver to its class and multiplies its two numbers, sets one of
    them in a loop, and calls the method of an object through its table."""
    first = number * CLASS_TYPES
    instance, table, method = unsigned(first), unsigned(first + 1), unsigned(first + 2)
    cast = LOCAL + b"\xfb\x16" + signed(first) + b"\x21\1"
    field = lambda index: b"\x20\1\xfb\x02" + instance + unsigned(index)
    loop = (
        b"\x03\x40" + b"\x20\1" + field(1) + b"\x41\1\x6a" + b"\xfb\x05" + instance + b"\1"
        + field(1) + b"\x41\xe4\0\x48" + b"\x0d\0" + END
    )
    choice = field(2) + b"\x04\x7f" + field(1) + b"\x05" + field(2) + END
    virtual = b"\x20\1" + field(0) + b"\xfb\x02" + table + b"\0" + b"\x14" + method
    return cast + loop + choice + virtual + b"\x6a" + field(1) + field(2) + b"\x6c\x6a"


def object_code(size):
    """A program with classes, virtual calls and casts: each class has a type group, a method, an
    object made from it in a global with its table, and ten functions like the method."""
    methods = 10
    sample = len(method_body(5_000)) + 12
    count = max(1, min(size // (sample * methods + 40), MOST // methods))
    types, functions, globals_, code = [], [], [], []
    for number in range(count):
        first = number * CLASS_TYPES
        types.append(class_types(number))
        functions += [unsigned(first + 2)] * methods
        table = b"\xd2" + unsigned(number * methods) + b"\xfb\0" + unsigned(first + 1)
        globals_.append(b"\x64" + signed(first + 1) + b"\0" + table + END)
        locals_ = b"\1\1\x64" + signed(first)
        code += [entry(locals_, method_body(number))] * methods
    exports = [export(b"f%d" % number, number * methods) for number in range(min(count, 1_000))]
    return (
        HEADER
        + section(TYPE, types)
        + section(FUNCTION, functions)
        + section(GLOBAL, globals_)
        + section(EXPORT, exports)
        + section(CODE, code)
    )


def data_segments(size):
    """Data segments of 1,000 bytes, each for the start of a memory of one page."""
    content = bytes(range(250)) * 4
    segment = b"\0\x41\0" + END + sized(content)
    segments = [segment] * (size // len(segment))
    return HEADER + section(MEMORY, [b"\0\1"]) + section(DATA, segments)


KINDS = {
    "many small functions": many_small_functions,
    "one huge function": one_huge_function,
    "object code": object_code,
    "many blocks": many_blocks,
    "deep nesting": deep_nesting,
    "nested switch": nested_switch,
    "types in one group": types_of_size(types_in_one_group),
    "types in groups of one": types_of_size(types_in_groups_of_one),
    "data segments": data_segments,
}
