"""A page for a browser that shows packets: their bytes in rows of 16, coloured by token, and the list of their fields.

`page(name, packets, sentences)` is the page as a text; sentences are what is wrong in each packet, with their places.
The page needs no other file. Its few lines of script light a field up on both sides; without them the list, the colours
and the links between bytes and list are there all the same.
"""
import html

PER_ROW = 16
TABLE = '<table><colgroup><col class="n"><col class="n"><col class="f"><col></colgroup>'
MOST_SHOWN, MOST_POINTED = 2000, 160  # the letters of a meaning, in the list and on pointing
MOST_WRONG = 4  # the sentences about what is wrong that stand at the top
# The hue of each token's fields; what has none here is grey.
HUES = {"header": 215, "COLMETADATA": 140, "ROW": 45, "DONE": 275, "ERROR": 0, "INFO": 185, "LOGINACK": 320,
        "ENVCHANGE": 90, "FEATUREEXTACK": 25, "FEDAUTHINFO": 245, "PRELOGIN": 165, "LOGIN7": 60, "ALL_HEADERS": 255,
        "SQLText": 120, "RPC": 30, "TRANSACTION": 300, "FEDAUTHTOKEN": 200, "DONEPROC": 290, "DONEINPROC": 260,
        "RETURNSTATUS": 340}

STYLE = """
:root { color-scheme: light dark; --back: #fff; --ink: #1b1f24; --faint: #5b6270; --line: #d5d9e0; --wrong: #c00020;
  --soft: 87%; --deep: 77%; --vivid: 65%; --mark: #fff0b3; }
@media (prefers-color-scheme: dark) { :root { --back: #15181d; --ink: #e8eaee; --faint: #a0a9b6; --line: #363c46;
  --wrong: #ff7088; --soft: 21%; --deep: 29%; --vivid: 45%; --mark: #4a4020; } }
* { box-sizing: border-box; }
body { margin: 0; height: 100vh; display: flex; flex-direction: column; background: var(--back); color: var(--ink);
  font: 15px/1.45 system-ui, sans-serif; }
header { padding: .7rem 1.2rem .6rem; border-bottom: 1px solid var(--line); }
h1 { font-size: 1.2rem; margin: 0; }
h2 { font-size: 1rem; margin: .8rem 0 .3rem; }
p { margin: .2rem 0; color: var(--faint); }
p.wrong a { color: var(--wrong); }
.legend { list-style: none; display: flex; flex-wrap: wrap; gap: .4rem; padding: 0; margin: .4rem 0 0; }
.legend li { padding: 0 .5rem; border-radius: .2rem; }
main { flex: 1; min-height: 0; display: flex; gap: 1rem; padding: 0 0 0 1.2rem; }
.bytes { flex: none; padding: .4rem 1rem .4rem 0; overflow: auto; }
.list { flex: 1; min-width: 0; padding: 0 1.2rem .4rem 0; overflow: auto; }
.row { white-space: pre; font: 14px/1.75 ui-monospace, "DejaVu Sans Mono", monospace; }
.at { color: var(--faint); margin-right: 1.2em; user-select: none; }
.b { color: inherit; text-decoration: none; border-radius: .15rem; padding: .1rem 0; }
.t { --s: var(--vivid); background: hsl(var(--h, 0) var(--s) var(--soft)); }
.t.odd { background: hsl(var(--h, 0) var(--s) var(--deep)); }
.grey { --s: 0%; }
.b.wrong { outline: 2px dashed var(--wrong); outline-offset: 1px; }
.b.on, .b:focus { outline: 2px solid var(--ink); outline-offset: 1px; }
table { border-collapse: collapse; width: 100%; table-layout: fixed; }
td { padding: .1rem .6rem .1rem 0; vertical-align: top; overflow-wrap: anywhere; }
td.n { text-align: right; font-variant-numeric: tabular-nums; }
td.n a { color: var(--faint); }
td.f { color: var(--faint); }
col.n { width: 4.2rem; } col.f { width: 12.5rem; }
tr.line td { border-top: 1px solid var(--line); font-weight: 600; padding-top: .3rem; }
tr.i2 td { font-weight: 500; padding-left: 1.3rem; } tr.i4 td { font-weight: 400; padding-left: 2.6rem; }
tr.line span { display: inline-block; width: .8em; height: .8em; border-radius: .15rem; margin-right: .5em; }
tr.fault td { color: var(--wrong); font-weight: 600; padding-left: 1.3rem; }
tr.on td, tr:target td { background: var(--mark); }
#said { padding: .5rem 1.2rem; border-top: 2px solid var(--line); height: 5.4rem; overflow: auto; }
#said code { color: var(--faint); overflow-wrap: anywhere; }
@media (max-width: 900px) { body { height: auto; } main { display: block; } .bytes, .list { overflow: visible; }
  .row { font-size: 11px; } .at { margin-right: .6em; }
  #said { position: sticky; bottom: 0; background: var(--back); } }
"""

SCRIPT = """
const said = document.getElementById("said"), groups = new Map();
for (const each of document.querySelectorAll("[data-p]")) {
  const key = each.dataset.p;
  if (!groups.has(key)) groups.set(key, []);
  groups.get(key).push(each);
}
let lit = [];
function light(event) {
  const from = event.target.closest("[data-p]");
  if (!from) return;
  for (const each of lit) each.classList.remove("on");
  lit = groups.get(from.dataset.p);
  for (const each of lit) each.classList.add("on");
  const row = lit.find(each => each.tagName === "TR"), bytes = lit.filter(each => each !== row);
  const digits = bytes.map(each => each.textContent).join(" ");
  said.innerHTML = "<b></b><br><code></code>";
  said.firstChild.textContent = row.dataset.token + ", " + row.cells[2].textContent + ": " + row.cells[3].textContent;
  said.lastChild.textContent = "from byte " + row.cells[0].textContent + " on, " + row.cells[1].textContent + " long: "
    + (digits.length > 300 ? digits.slice(0, 300) + " .." : digits);
  const other = from === row ? bytes[0] : row;
  other.scrollIntoView({block: "nearest"});
}
document.addEventListener("mouseover", light);
document.addEventListener("focusin", light);
function follow() {
  const row = location.hash && document.querySelector(location.hash);
  if (row) light({target: row});
}
addEventListener("hashchange", follow);
follow();
"""


def shortened(words, most):
    return words if len(words) <= most else words[:most] + ".."


def colour(token):
    """The classes and the style of what has a token's colour."""
    return ("t", f"--h:{HUES[token]}") if token in HUES else ("t grey", "")


def attributes(token, *classes):
    base, style = colour(token)
    style = f' style="{style}"' if style else ""
    return f'class="{" ".join([base, *classes])}"{style}'


def segment(packet, index, piece, key, start, end, wrong):
    """The bytes of a field in one row."""
    classes = ["b"] + (["odd"] if index % 2 else []) + (["wrong"] if wrong else [])
    words = html.escape(shortened(f"{piece.token}, {piece.field}: {piece.meaning}", MOST_POINTED))
    tab = "" if start == piece.start else ' tabindex="-1"'
    name = f' id="b{key}"' if start == piece.start else ""
    digits = packet.held[start:end].hex(" ").upper()
    link = f'{attributes(piece.token, *classes)} href="#p{key}" data-p="{key}"{name}{tab} title="{words}"'
    return f"<a {link}>{digits}</a>"


def byte_rows(number, packet, wrong):
    """The rows of 16 bytes; wrong are the places at fault."""
    cells = [[] for _ in range((len(packet.held) + PER_ROW - 1) // PER_ROW)]
    for index, piece in enumerate(packet.pieces()):
        end = piece.start + piece.length
        at_fault = any(piece.start <= place < end for place in wrong)
        at = piece.start
        while at < end:
            stop = min(end, (at // PER_ROW + 1) * PER_ROW)
            cells[at // PER_ROW].append(segment(packet, index, piece, f"{number}-{index}", at, stop, at_fault))
            at = stop
    for i, each in enumerate(cells):
        yield f'<div class="row"><span class="at">{PER_ROW * i:5}</span>{" ".join(each)}</div>'


def list_rows(number, packet, sentences):
    """The rows of the list: each line, its fields, and what is wrong about them."""
    left, index = list(sentences), 0
    for line in packet.lines:
        yield (f'<tr class="line i{line.indent}"><td colspan="4"><span {attributes(line.token)}></span>'
               f"{html.escape(shortened(line.comment, MOST_SHOWN))}</td></tr>")
        for piece in line.pieces:
            key = f"{number}-{index}"
            cells = (f'<td class="n"><a href="#b{key}">{piece.start}</a></td><td class="n">{piece.length}</td>'
                     f'<td class="f">{html.escape(piece.field)}</td>'
                     f"<td>{html.escape(shortened(piece.meaning, MOST_SHOWN))}</td>")
            yield f'<tr id="p{key}" data-p="{key}" data-token="{html.escape(piece.token)}">{cells}</tr>'
            index += 1
            while left and left[0][0] < piece.start + piece.length:
                yield fault_row(left.pop(0)[1])
    for _, sentence in left:
        yield fault_row(sentence)


def fault_row(sentence):
    return f'<tr class="fault"><td colspan="4">{html.escape(sentence)}</td></tr>'


def legend(packets):
    tokens = dict.fromkeys(piece.token for packet in packets for piece in packet.pieces())
    return "".join(f"<li {attributes(token)}>{html.escape(token)}</li>" for token in tokens)


def first_wrong(packets, sentences):
    """The first sentences about what is wrong, each with a link to the field at fault, or else to the last one."""
    found = [(number, *each) for number, said in enumerate(sentences) for each in said]
    for number, place, sentence in found[:MOST_WRONG]:
        pieces = packets[number].pieces()
        index = next((i for i, piece in enumerate(pieces) if place < piece.start + piece.length), len(pieces) - 1)
        where = f"packet {number + 1}, " if len(packets) > 1 else ""
        link = f' href="#p{number}-{index}"' if pieces else ""
        yield f'<p class="wrong"><a{link}>{html.escape(where + sentence)}</a></p>'
    if len(found) > MOST_WRONG:
        yield f"<p>and {len(found) - MOST_WRONG} more in the list</p>"


def title(number, packets):
    """What stands over one of several packets; of one that goes on a message, where its payload begins in the whole."""
    payload = packets[number].payload
    goes_on = f", payload from byte {payload} on" if payload else ""
    return f"<h2>Packet {number + 1} of {len(packets)}{goes_on}</h2>" if len(packets) > 1 else ""


def page(name, packets, sentences):
    """The page of some packets."""
    size = sum(len(packet.held) for packet in packets)
    left, right = [], []
    for number, (packet, said) in enumerate(zip(packets, sentences)):
        left += [title(number, packets), *byte_rows(number, packet, [place for place, _ in said])]
        right += [title(number, packets), TABLE, *list_rows(number, packet, said), "</table>"]
    return f"""<!DOCTYPE html>
<html lang="en">
<head>
<meta charset="utf-8">
<meta name="viewport" content="width=device-width">
<title>{html.escape(name)}, piece by piece</title>
<style>{STYLE}</style>
</head>
<body>
<header>
<h1>{html.escape(name)}, {size} bytes</h1>
<p>Point at bytes, or go to them with the Tab key, to see their field; the list has all fields.</p>
<ul class="legend">{legend(packets)}</ul>
{chr(10).join(first_wrong(packets, sentences))}
</header>
<main>
<section class="bytes" aria-label="bytes">
{chr(10).join(filter(None, left))}
</section>
<section class="list" aria-label="fields">
{chr(10).join(filter(None, right))}
</section>
</main>
<div id="said" role="status">In the list: where a field starts, its length, its name, what it says.</div>
<script>{SCRIPT}</script>
</body>
</html>
"""
