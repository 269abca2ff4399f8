"""Where the gas goes, as tables and as a record."""
from fractions import Fraction

from .spending import where


def amount(gas, unit):
    """Gives gas as the program writes it: in units, or in parts of a unit where that is divided."""
    return str(gas) if unit == 1 else f"{gas * unit}/{unit}"


def table(head, rows, left=1):
    """Gives the lines of a table, of which the columns behind the first ones stand to the right."""
    widths = [max(len(it) for it in column) for column in zip(head, *rows)]
    for row in (head, *rows):
        cells = [it.ljust(width) if at < left else it.rjust(width) for at, (it, width) in enumerate(zip(row, widths))]
        yield "  ".join(cells).rstrip()


def spread(batches, unit):
    """Gives what each of some batches spends, from the least to the most."""
    least, most = min(it.spends for it in batches), max(it.spends for it in batches)
    return amount(least, unit) if least == most else f"{amount(least, unit)}..{amount(most, unit)}"


def sums(batches):
    """Gives what some batches declare, spend, hand to contracts, and have back, in all."""
    columns = zip(*((it.declares, it.spends, it.given, it.back) for it in batches))
    return [sum(it, Fraction(0)) for it in columns] or [Fraction(0)] * 4


def by_declaration(spending):
    """Gives the table of what each declaration costs."""
    unit, rows = spending.unit, []
    for names, batches in spending.by_names().items():
        said = [amount(it, unit) for it in sums(batches)]
        rows.append([", ".join(names) or "(nothing)", str(len(batches)), spread(batches, unit), *said])
    said = [amount(it, unit) for it in sums(spending.batches)]
    rows.append(["in all", str(len(spending.batches)), "", *said])
    return table(["declaration", "runs", "spends each", "declares", "spends", "to contracts", "back"], rows)


def by_account(spending):
    """Gives the table of what each account paid and got."""
    unit, every = spending.unit, spending.accounts
    rows = [[name, *(amount(sum_, unit) for sum_ in (it.deposits, it.declares, it.back, it.left))]
            for name, it in every.items()]
    whole = [sum((getattr(it, part) for it in every.values()), Fraction(0))
             for part in ("deposits", "declares", "back", "left")]
    return table(["account", "deposits", "declares", "back", "left"],
                 [*rows, ["in all", *(amount(it, unit) for it in whole)]])


def by_places(spending, places, text):
    """Gives the table of where gas is spent."""
    unit = spending.unit
    rows = [[amount(Fraction(it.parts, unit), unit), str(it.runs), "  ".join(where(text, it.at))] for it in places]
    whole = amount(Fraction(sum(it.parts for it in places), unit), unit)
    rows = [["spent", "runs", "where"], *rows, [whole, "", "in all"]]
    widths = [max(len(row[at]) for row in rows) for at in range(2)]
    for spent, runs, said in rows:
        yield f"{spent.rjust(widths[0])}  {runs.rjust(widths[1])}  {said}"


def kept(spending):
    """Gives lines on what is kept at the end, and on the sums."""
    unit, last = spending.unit, spending.last
    for name, gas in [*last.contracts.items(), ("others", spending.others())]:
        if gas:
            yield f"at the end {name} keep{'' if name == 'others' else 's'} {amount(gas, unit)}"
    accounts = sum(last.accounts.values(), Fraction(0))
    said = [f"accounts {amount(accounts, unit)}", *(f"{name} {amount(it, unit)}" for name, it in last.sums.items())]
    yield f"at the end {', '.join(said)}"


def tables(spending, places, text):
    """Gives all tables, line by line."""
    yield from by_declaration(spending)
    yield ""
    yield from by_places(spending, places, text)
    yield ""
    yield from by_account(spending)
    yield ""
    yield from kept(spending)


def record_of(spending, places, text):
    """Gives what a program reads of the same; amounts are texts, as the program writes them."""
    unit = spending.unit
    say = lambda gas: amount(gas, unit)  # noqa: E731
    declarations = []
    for names, batches in spending.by_names().items():
        declares, spends, given, back = (say(it) for it in sums(batches))
        declarations.append({"declarations": list(names), "runs": len(batches), "declares": declares,
                             "spends": spends, "to_contracts": given, "back": back})
    spots = [{"spent": say(Fraction(it.parts, unit)), "runs": it.runs, "line": text.where(it.at)[0],
              "column": text.where(it.at)[1], "where": "  ".join(where(text, it.at))} for it in places]
    accounts = [{"account": name, "deposits": say(it.deposits), "declares": say(it.declares), "back": say(it.back),
                 "left": say(it.left)} for name, it in spending.accounts.items()]
    keeps = {name: say(gas) for name, gas in spending.last.contracts.items() if gas}
    return {"declarations": declarations, "places": spots, "accounts": accounts, "keeps": keeps,
            "others_keep": say(spending.others()), "sums": {name: say(it) for name, it in spending.last.sums.items()}}
