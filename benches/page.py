"""Writes what benches/stack measured into docs/EMBEDDING.md: the table of stacks, the sizes, the sums of the plan."""

import re

import table

PAGE = table.ROOT / "docs" / "EMBEDDING.md"
MEMORY = 262_144


def numbers(row):
    """The numbers in the cells of a row, 0 where a cell has none."""
    cells = [cell.strip().replace(",", "") for cell in row.strip("|").split("|")[1:]]
    return [int(cell) if cell.isdigit() else 0 for cell in cells]


def row(name, values):
    return f"| {name} | {' | '.join(f'{value:,}' for value in values)} |"


def plan(lines, code, depth):
    """The plan's rows, with the bytes of code and constants, the deepest stack, and the sums of all."""
    first, *rest, _ = lines[:-2]
    plans = len(numbers(first))
    stack = row("stack for the calls, without what `memcpy` takes", [depth] * plans)
    rows = [row(first.split("|")[1].strip(), [code] * plans), *rest, stack]
    sums = [sum(column) for column in zip(*map(numbers, rows))]
    return [*rows, row("sum", sums), row("left for the unit", [MEMORY - each for each in sums])]


def renew(stacks, held, sender, unit, depth):
    """`held`, `sender` and `unit` are the sizes of the library, of it without the reader, and of the least program;
    `depth` is the deepest stack of the calls but the reader's."""
    text = PAGE.read_text()
    sizes = f"{held['text']:,} and {held['rodata']:,} bytes, all exports; "
    sizes += f"{sender['text']:,} and {sender['rodata']:,} without the reply reader's three"
    text = re.sub(r"^\| code, constants \| .* \|$", f"| code, constants | {sizes} |", text, flags=re.M)
    text = re.sub(r"has [0-9,]+ bytes of code and [0-9,]+ of constants",
                  f"has {unit['text']:,} bytes of code and {unit['rodata']:,} of constants", text)
    text = re.sub(r"^\| export +\| touched.*?\n\n", lambda _: stacks, text, flags=re.M | re.S)
    found = re.search(r"^\| code and constants \(.*?\n\n", text, re.M | re.S)
    lines = plan(found[0].strip().split("\n"), sender["text"] + sender["rodata"], depth)
    PAGE.write_text(text.replace(found[0], "\n".join(lines) + "\n\n"))
