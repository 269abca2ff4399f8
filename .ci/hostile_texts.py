"""Small texts that keep a program busy, each with the first words of its answer."""
from collections import namedtuple

# What is asked of the program: the words behind FILE, or behind FILE SCRIPT where there is a script; and with which
# status and which words at the head of its last line it answers.
Row = namedtuple("Row", "name contract script words status answer")

HOPS = 60
LIST = 9900
CONCATENATED = "fn cat(n: int, xs: list int) : list int = if n < 1 then xs else 1 :: cat(n - 1, xs);\n"


def joined(form, count, between=""):
    """The form at 0, 1, .. up to the count, one behind the other."""
    return between.join(form(i) for i in range(count))


def accepted(name, contract):
    """A contract that is checked and accepted."""
    return Row(name, contract, None, [], 0, "unit 1")


def refused(name, contract, status, answer):
    """A contract that is checked, and refused or not judged."""
    return Row(name, contract, None, [], status, answer)


def fired(name, contract, script, status=0, answer="line 2 committed"):
    """A script that is run on a contract."""
    return Row(name, contract, script, ["--steps", "1000000"], status, answer)


# ---- types

def cycle(name, nodes):
    """A type whose nodes lead back to the first one, over definitions of at most HOPS nodes each."""
    parts = [nodes[i:i + HOPS] for i in range(0, len(nodes), HOPS)]
    return joined(lambda k: f"type R {name}{k} = {' '.join(parts[k])} {name}{(k + 1) % len(parts)};\n", len(parts))


def cycles(first, second, node, other=None):
    """Two cycles of so many nodes, and a process that takes one for the other."""
    left = cycle("a", [node(i) for i in range(first)])
    right = cycle("b", [(other or node)(i) for i in range(second)])
    return left + right + "proc R f(; c: a0) : b0 = fwd c;\n"


def value(_):
    return "int ->"


def one(_):
    return "|{1}>"


def own(times):
    """Amounts that all differ."""
    return lambda i: "|{%d}>" % (times * i)


def asked_again(first, second, forwards):
    """The same, asked from many places of the cycles."""
    places = (first + HOPS - 1) // HOPS
    return cycles(first, second, one) + joined(
        lambda k: f"proc R g{k}(; c: a{k % places}) : b{k // places % places} = fwd c;\n", forwards)


def astray(nodes):
    """Cycles that differ only at their ends, the one taken for the other."""
    return cycles(nodes, nodes, lambda i: "<{1}|" if i == nodes - 1 else "|{1}>", one)


def choices(name, nodes):
    """A cycle of choices with one branch each."""
    parts = (nodes + HOPS - 1) // HOPS
    sizes = [min(HOPS, nodes - HOPS * i) for i in range(parts)]
    return joined(
        lambda i: f"type R {name}{i} = {'&{a : ' * sizes[i]}{name}{(i + 1) % parts}{'}' * sizes[i]};\n", parts)


def each_as_each(lengths):
    """Cycles of these lengths, each taken for each other one."""
    names = "abcdefgh"[:len(lengths)]
    text = "".join(choices(name, length) for name, length in zip(names, lengths))
    return text + "".join(
        f"proc R {x}{y}p(; c: {x}0) : {y}0 = fwd c;\n" for x in names for y in names if x != y)


def stars(count):
    """So many processes with an open amount each."""
    return joined(lambda k: f"proc R s{k}(;) {{*}} : 1 = close;\n", count)


def one_section(count):
    """So many shared types over one section, which ends in each of them."""
    ends = joined(lambda i: f"b{i} : down s{i}", count, " | ")
    return f"type L l = &{{ {ends} }};\n" + joined(lambda i: f"type S s{i} = up l;\n", count)


def shared_over(count, nodes):
    """So many equal shared types over a section of so many nodes, and the parts of that, of HOPS nodes each."""
    parts = nodes // HOPS
    section = joined(
        lambda i: f"type L l{i} = {'int -> ' * HOPS}{f'l{i + 1}' if i + 1 < parts else 'down s0'};\n", parts)
    return section + joined(lambda i: f"type S s{i} = up l0;\n", count)


def handed_references(count):
    """So many calls, each of which hands one reference on as each of so many equal types."""
    names = ", ".join(["a"] * count)
    return (shared_over(count, 1500)
            + f"proc T f(; {joined(lambda i: f'b{i}: s{i}', count, ', ')}) = close;\n"
            + joined(lambda i: f"proc T t{i}(; a: s{i}) = call f(; {names});\n", count))


def of_types():
    yield accepted("cycles of 2,300 and 2,301 nodes without amounts", cycles(2300, 2301, value))
    yield accepted("cycles of 2,300 and 2,301 nodes, each with the amount 1", cycles(2300, 2301, one))
    yield accepted("cycles of 4,800 and 4,801 nodes, each with the amount 1", cycles(4800, 4801, one))
    yield refused(
        "cycles of 500 and 501 nodes, each with an amount of its own", cycles(500, 501, own(1), own(507)), 1, "gives")
    yield refused(
        "cycles of 2,000 and 2,001 nodes, each with an amount of its own",
        cycles(2000, 2001, own(1), own(2007)), 1, "gives")
    yield refused(
        "cycles of 500 and 501 nodes with such amounts, beside 64 open ones",
        cycles(500, 501, own(1), own(507)) + stars(64), 1, "gives")
    yield refused(
        "cycles of 64 nodes with open amounts and of 2,001 with written ones",
        cycles(64, 2001, lambda _: "|{*}>", own(3)), 1, "gives")
    yield refused(
        "cycles of 833 nodes, 64 with open amounts, and of 600 with written ones",
        cycles(833, 600, lambda i: "|{*}>" if i % 13 == 0 and i < 832 else "|{%d}>" % i, own(7)), 1, "gives")
    yield refused(
        "one process with an open amount and 9,000 times `work {1}`",
        "proc R w(;) {*} : 1 = " + "work {1}; " * 9000 + "close;\n", 8, "unsolved Pivots 2000")
    yield accepted("cycles of 1,500 and 1,501 nodes, asked from 1,000 places", asked_again(1500, 1501, 1000))
    yield refused("cycles of 4,700 nodes that differ at their ends", astray(4700), 1, "refused ProcType")
    yield accepted("four cycles of some 2,370 choices, each as each other", each_as_each([2370, 2369, 2367, 2363]))
    yield accepted("1,600 shared types over one section, which ends in each of them", one_section(1600))
    yield Row("400 calls, each of one reference as 400 equal types", handed_references(400), None, [], 0, "bound")


# ---- values

def long_list():
    """Instructions behind which l10 is a list of 9,900 numbers."""
    return "let l0 = cat(900, nil int); " + joined(lambda i: f"let l{i + 1} = cat(900, l{i}); ", 10)


def handing_on():
    """A process that calls itself with the list."""
    return (CONCATENATED + "proc T loop(n: int, xs: list int;) = if n < 1 { close } else { call loop(n - 1, xs;) };\n"
            "proc T t(n: int;) = " + long_list() + "call loop(n, l10;);\n")


def mailing():
    """A process that puts the list on a channel, far ahead of its reader."""
    return (CONCATENATED + "type R mails = list int /\\ mails;\n"
            "proc R mail(xs: list int;) : mails = put self xs; call mail(xs;);\n"
            "proc R reader(; x: mails) : 1 = take x v; call reader(; x);\n"
            "proc T t(;) = " + long_list() + "spawn p = mail(l10;); spawn e = reader(; p); wait e; close;\n")


def emitting():
    """A process that emits the list again and again, and then has a fault."""
    return (CONCATENATED + "proc T t(k: int;) = " + long_list() + "call u(k, l10;);\n"
            "proc T u(k: int, xs: list int;) = if k < 1 { emit 1 / 0; close } else { emit xs; call u(k - 1, xs;) };\n")


def keeping():
    """A chain of processes, each of which holds the list."""
    return (CONCATENATED + "type R g = &{ go : 1 };\n"
            "proc T t(k: int;) = " + long_list() + "spawn p = h(k, l10;); p.go; wait p; close;\n"
            "proc R h(k: int, xs: list int;) : g = if k < 1 { case self { go => let z = 1 / 0; close } }"
            " else { spawn p = h(k - 1, xs;); case self { go => p.go; wait p; close } };\n")


def echoing():
    """The list is put and taken in turns."""
    return (CONCATENATED + "type R echoes = &{ more : list int -> list int /\\ echoes | end : 1 };\n"
            "proc R echo(;) : echoes = case self { more => take self x; put self x; call echo(;) | end => close };\n"
            "proc T t(k: int;) = " + long_list() + "spawn e = echo(;); call u(k, l10; e);\n"
            "proc T u(k: int, xs: list int; e: echoes) = if k < 1 { e.end; wait e; close }"
            " else { e.more; put e xs; take e ys; call u(k - 1, ys; e) };\n")


def wide(count):
    """A call with the list in so many places."""
    pars = joined(lambda i: f"a{i}: list int", count, ", ")
    args = joined(lambda i: f"a{i}", count, ", ")
    return (CONCATENATED + "proc T t(k: int;) = " + long_list() + f"call u(k, {', '.join(['l10'] * count)};);\n"
            f"proc T u(k: int, {pars};) = if k < 1 {{ close }} else {{ call u(k - 1, {args};) }};\n")


def tied(form, count):
    """So many variables with the list, or with what the form makes of it."""
    return CONCATENATED + "proc T t(;) = " + long_list() + joined(lambda i: f"let a{i} = {form}; ", count) + "close;\n"


def lists_of_lists(depth):
    """A list in a list, so many deep, over the list of numbers, handed on."""
    kind = "list " * (depth + 1) + "int"
    nested = joined(lambda i: f"let m{i + 1} = {'l10' if i == 0 else f'm{i}'} :: nil {'list ' * (i + 1)}int; ", depth)
    return (CONCATENATED +
            f"proc T loop(n: int, xs: {kind};) = if n < 1 {{ close }} else {{ call loop(n - 1, xs;) }};\n"
            "proc T t(n: int;) = " + long_list() + nested + f"call loop(n, m{depth};);\n")


def charged():
    """A list with potential is taken apart and put together."""
    return (
        "proc R build(k: int, n: int, xs: list {0} int;) : 1 = if k < 1 { call turn(n, xs;) }"
        " else { let ys = list k, xs; call build(k - 1, n, ys;) };\n"
        "proc R turn(n: int, xs: list {0} int;) : 1 = if n < 1 { close }"
        " else { match xs { nil => close | h :: t => let ys = list h, t; call turn(n - 1, ys;) } };\n"
        "proc T t(k: int, n: int;) = let a = list {0} int; spawn x = build(k, n, a;); wait x; close;\n")


def beside(count):
    """Lists with potential that are made beside a long one."""
    made = joined(lambda i: f"let v{i} = list {{0}} int; ", count)
    return (
        "proc T t(n: int;) = let a = list {0} int; call g(9900, n, a;);\n"
        "proc T g(k: int, n: int, a: list {0} int;) = if k < 1 { call h(n, a;) }"
        " else { let b = list 1, a; call g(k - 1, n, b;) };\n"
        f"proc T h(n: int, a: list {{0}} int;) = if n < 1 {{ close }} else {{ {made}call h(n - 1, a;) }};\n")


def listed(count):
    """So many lists with potential, and one element put on each."""
    made = joined(lambda i: f"let v{i} = list {{0}} int; ", count)
    longer = joined(lambda i: f"let w{i} = list 1, v{i}; ", count)
    return f"proc T t(n: int;) = if n < 1 {{ close }} else {{ {made}{longer}call t(n - 1;) }};\n"


def bound(count):
    """So many variables of one process."""
    return ("proc T t(n: int;) = if n < 1 { close } else { " + joined(lambda i: f"let v{i} = n; ", count)
            + "call t(n - 1;) };\n")


def with_values(count, turned=False):
    """A call with so many values, which are named from the first or from the last."""
    pars = joined(lambda i: f"v{i}: int", count, ", ")
    args = joined(lambda i: f"v{count - 1 - i if turned else i}", count, ", ")
    zeros = ", ".join(["0"] * count)
    return (f"proc T loop(n: int, {pars};) = if n < 1 {{ close }} else {{ call loop(n - 1, {args};) }};\n"
            f"proc T t(n: int;) = call loop(n, {zeros};);\n")


def evaluated(count, turned=False):
    """A function of so many parameters that calls itself, and names them from the first or from the last."""
    pars = joined(lambda i: f"v{i}: int", count, ", ")
    args = joined(lambda i: f"v{count - 1 - i if turned else i}", count, ", ")
    zeros = ", ".join(["0"] * count)
    return (f"fn f(n: int, {pars}) : int = if n < 1 then 0 else f(n - 1, {args});\n"
            f"proc T t(n: int;) = if n < 1 {{ close }} else {{ let x = f(20, {zeros}); call t(n - 1;) }};\n")


def around(count):
    """A term with so many lists that are bound around it."""
    pars = joined(lambda i: f"v{i}: list int", count, ", ")
    args = joined(lambda i: f"v{i}", count, ", ")
    empty = ", ".join(["nil int"] * count)
    return (f"fn f(n: int, {pars}) : int = n;\n"
            f"proc T t(n: int;) = call u(n, {empty};);\n"
            f"proc T u(n: int, {pars};) = if n < 1 {{ close }} else "
            f"{{ let x = f(n, {args}); call u(x - 1, {args};) }};\n")


def dropping(length):
    """The list is made, and dropped by a transaction that ends, by one with a fault, and by a contract that has it."""
    made = long_list().replace("cat(900,", f"cat({length // 11},")
    return (
        CONCATENATED + "type S keeps = up list int -> down keeps;\n"
        "proc S keep(xs: list int;) : keeps = accept; take self ys; detach; call keep(ys;);\n"
        "proc R grow(k: int, xs: list {0} int;) : 1 ="
        " if k < 1 { close } else { let ys = list k, xs; call grow(k - 1, ys;) };\n"
        f"proc T drop(;) = {made}let xs = 1 :: l10; let e = list {{0}} int; spawn g = grow(20, e;); wait g; close;\n"
        f"proc T give(; k: keeps) = {made}acquire k as x; put x l10; release x as y; close;\n"
        f"proc T fail(;) = {made}let z = 1 / 0; close;\n")


def dropped(length, batches, workers):
    """So many batches that make and drop a list of this length."""
    rounds = "exec u drop(;)\nexec u give(; k)\nexec u fail(;)\n" * (batches // 3)
    name = f"{batches:,} batches that make and drop lists of {length:,}"
    return Row(name + (f", by {workers} workers" if workers > 1 else ""), dropping(length),
               "deposit u 0\nlet k = new u keep([];)\n" + rounds, ["--workers", str(workers)], 3, "line")


def kept():
    """Texts whose peaks of memory are compared: by how many megabytes lists may grow, of some batches and of more; for
    each length of lists."""
    for workers, margin in ((1, 1), (4, 8)):
        yield margin, [[dropped(length, batches, workers) for batches in (10, 1000)] for length in (LIST, 0)]


def of_values():
    once, script = "deposit u 0\nexec u t(;)\n", lambda *args: f"deposit u 0\nexec u t({', '.join(map(str, args))};)\n"
    yield fired("a list of 9,900 handed on by 20,000 calls", handing_on(), script(20000))
    yield fired("the list put on a channel, far ahead of its reader", mailing(), once, 3, "line 2 steps")
    yield fired("the list emitted 10,000 times, and then a fault", emitting(), script(10000), 3, "line 2 aborted")
    yield fired("a chain of 6,000 processes that hold the list", keeping(), script(6000), 3, "line 2 aborted")
    yield fired("the list put and taken 4,000 times", echoing(), script(4000))
    yield fired("a call with 300 such lists, 40 times", wide(300), script(40))
    yield fired("4,700 variables with the list", tied("l10", 4700), once)
    yield Row("250 variables with the list, by 4 workers", tied("l10", 250), once, ["--workers", "4"], 0, "line 2")
    yield fired("2,400 lists of one element more than the list", tied("1 :: l10", 2400), once)
    yield fired("the list in lists 60 deep, handed on by 20,000 calls", lists_of_lists(60), script(20000))
    yield fired("a list with potential of 9,900, taken apart 20,000 times", charged(), script(9900, 20000))
    yield fired("14,000 lists with potential made beside one of 9,900", beside(20), script(700))
    yield fired("1,500 lists with potential, one element put on each, 60 times", listed(1500), script(60))
    yield fired("4,900 variables bound, 200 times", bound(4900), script(200))
    yield Row("2,000 variables bound, 20 times, by 4 workers", bound(2000), script(20), ["--workers", "4"], 0, "line 2")
    yield fired("a call with 3,000 values, 400 times", with_values(3000), script(400))
    yield fired("a call with 3,000 values, named from the last, 400 times", with_values(3000, True), script(400))
    yield fired("a function of 3,000 parameters that calls itself, 20 times", evaluated(3000), script(20))
    yield fired("a function of 3,000 parameters, named from the last, 20 times", evaluated(3000, True), script(20))
    yield fired("a term with 1,100 lists around it, and a call with them, 400 times", around(1100), script(400))


# ---- channels and ledgers

def forwarded(count):
    """So many channels of one process, each provided by one that forwards."""
    return ("proc R e(;) : 1 = close;\nproc R f(;) : 1 = spawn x = e(;); fwd x;\n"
            "proc T t(n: int;) = if n < 1 { close } else { " + joined(lambda i: f"spawn c{i} = f(;); ", count)
            + joined(lambda i: f"wait c{i}; ", count) + "call t(n - 1;) };\n")


def spread(count, between):
    """So many channels of one process that calls itself, and so many names of variables between any two."""
    def named(i):
        others = ", ".join(f"v{i}x{j}: int" for j in range(between if i < count - 1 else 0))
        return f"proc R first{i}(; c{i}: one) : one = fwd c{i};\nproc R filler{i}({others};) : 1 = close;\n"

    channels = ", ".join(f"c{i}" for i in range(count))
    return ("type R one = &{ go : 1 };\nproc R o(;) : one = case self { go => close };\n" + joined(named, count)
            + f"proc T loop(n: int; {', '.join(f'c{i}: one' for i in range(count))}) = if n < 1 {{ "
            + joined(lambda i: f"c{i}.go; wait c{i}; ", count) + f"close }} else {{ call loop(n - 1; {channels}) }};\n"
            + "proc T t(n: int;) = " + joined(lambda i: f"spawn c{i} = o(;); ", count) + f"call loop(n; {channels});\n")


def left_behind():
    """A contract under which 200,000 processes have left."""
    return (
        "type R q = &{ go : 1 };\ntype S s = up &{ free : down s };\n"
        "proc R n(k: int;) : q = if k < 1 { case self { go => close } } else { spawn x = n(k - 1;); call m(; x) };\n"
        "proc R m(; x: q) : q = case self { go => x.go; wait x; close };\n"
        "proc S c(k: int;) : s = spawn x = n(k;); call d(; x);\n"
        "proc S d(; x: q) : s = accept; case self { free => x.go; wait x; detach; call e(;) };\n"
        "proc S e(;) : s = accept; case self { free => detach; call e(;) };\n"
        "proc T f(; a: s) = acquire a as x; x.free; release x as b; close;\n")


def blocking():
    """A transaction that acquires one contract twice."""
    return ("type S s = up down s;\nproc S c(;) : s = accept; detach; call c(;);\n"
            "proc T z(; a: s) = acquire a as x; acquire a as y; release x as c; release y as d; close;\n")


def of_ledgers():
    makes = "deposit u 0\n" + joined(lambda i: f"let c{i} = new u c(;)\n", 20000)
    yield fired("2 channels with 9,000 variables between, 20,000 calls", spread(2, 9000),
                "deposit u 0\nexec u t(20000;)\n")
    yield fired("60 channels with 150 variables between any two, 5,000 calls", spread(60, 150),
                "deposit u 0\nexec u t(5000;)\n")
    yield fired("1,600 channels that are forwarded, 60 times", forwarded(1600), "deposit u 0\nexec u t(60;)\n")
    yield fired(
        "200,000 processes that have left, and 1,000 times `show`", left_behind(),
        "deposit u 0\nlet p = new u c(200000;)\nexec u f(; p)\n" + "show\n" * 1000, 0, "deposits 0")
    yield fired(
        "20,000 batches that block beside 20,000 contracts", blocking(), makes + "exec u z(; c5)\n" * 20000, 3, "")
    yield Row(
        "all 20,000,000 firings that a script may make, by four workers",
        "proc T loop(n: int;) = if n < 1 { close } else { call loop(n - 1;) };\n",
        "deposit u 0\n" + "exec u loop(4999998;)\n" * 2 + "exec u loop(3;)\n" * 2,
        ["--steps", "10000000", "--workers", "4"], 3, "line 5 steps 0")


# ---- what is printed, of which there is no bound

def of_printing():
    emits = ("proc T go(m: int, xs: list int;) = if m < 1 { close } else { emit xs; call go(m - 1, xs;) };\n")
    numbers = ",".join(["999999999999999999"] * LIST)
    for times in (100, 1000):
        yield fired(f"{times} results of 188 KB", emits, f"deposit u 0\nexec u go({times}, [{numbers}];)\n", 0, "")
    yield fired(
        "4,000 accounts, and 100 times `show`", "",
        joined(lambda i: f"deposit a{i} 1\n", 4000) + "show\n" * 100, 0, "deposits 4000")


def rows():
    """All rows."""
    for table in (of_types, of_values, of_ledgers, of_printing):
        yield from table()
