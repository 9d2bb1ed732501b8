"""What docs/EMBEDDING.md says of memory: its table of buffers to lend, and the rows of its plan for 256 KB that follow from
scripts. What the page says is lent, and one less, which must be -20; no row of the table is left out."""
import re
import struct

from compiled import ROOT

TEXT = "6100E900AC20"
LONG = 3 * len(TEXT) // 2  # the bytes of three such texts
MISFIT = "0000000001000000000004000500000005000307000000"
LOGIN = "00" * 94
STEP = "step i:0401001800000100810000FD1000C1000000000000000000"
# An export's row by its first name; a call of the export; the kind of its lent slice; what the page says of it; the bytes
# that the texts and lists of the call come to.
LENT = (
    ("parse_header", "parse_header i:0401000800000100", "o", "6", 0),
    ("write_header", "write_header n:4 n:1 n:8 n:0 n:1 n:0", "b", "8", 0),
    ("fresh", "fresh", "p", "134", 0),
    ("step", f"{STEP} p:8,0*4,1,0*128", "o", "11", 0),
    ("payload", "payload i:040000090000010061040100090000020062", "b", "without 8 for each", 2),
    ("read_label", "read_label i:FEFFFFFFFFFFFFFF,01000000,80,0200000041FF,00000000", "b", "2 for each character", 6),
    ("write_label", f"write_label i:{TEXT}", "b", "16", 3),
    ("write_label", "write_label i:-", "b", "12", 0),
    ("text", f"text i:{TEXT}", "o", "4", 0),
    ("text", f"fit i:{MISFIT}", "o", "4", 0),
    ("parse_sql_batch", "parse_sql_batch i:040000004100", "o", "2", 0),
    ("parse_sql_batch", "parse_fedauth_token i:0400000000000000", "o", "2", 0),
    ("parse_sql_batch", f"database i:{LOGIN} i:{TEXT}", "o", "2", 0),
    ("parse_sql_batch",
     "parse_transaction_descriptor_header i:16000000120000000200010000000000000002000000", "o", "2", 0),
    ("parse_rpc_request", "parse_rpc_request i:04000000FFFF01000000 n:0", "o", "19", 0),
    ("capture_marks", "capture_marks i:" + "04000000210000000000" * 2, "o", "a slot for each marked record", 2),
    ("parse_login7", f"parse_login7 i:{LOGIN} d:0", "o", "13", 0),
    ("build_prelogin_response", "build_prelogin_response", "b", "26", 0),
    ("build_prelogin_response", "build_prelogin_response_with_encryption n:1", "b", "26", 0),
    ("build_prelogin_response", "build_prelogin_response_with_fedauth n:0 n:0", "b", "26", 0),
    ("build_prelogin_response", "build_prelogin_response_with_fedauth n:0 n:1", "b", "32", 0),
    ("build_prelogin_response", "build_prelogin_response_with_options n:1 n:1", "b", "32", 0),
    ("build_feature_ext_ack_fedauth", "build_feature_ext_ack_fedauth", "b", "7", 0),
    ("build_feature_ext_ack_fedauth", "build_feature_ext_ack_data_classification n:2", "b", "9", 0),
    ("build_feature_ext_ack_fedauth", "build_feature_ext_ack_enhanced_routing n:1", "b", "8", 0),
    ("build_feature_ext_ack", "build_feature_ext_ack i:010000001300010300000013000961FF", "b", "2", 5 + 5 + 2),
    ("build_login_ack", "build_login_ack", "b", "90", 0),
    ("build_done_token", "build_done_token n:7", "b", "13", 0),
    ("build_done_token", "build_done_token_with_status n:16 n:7", "b", "13", 0),
    ("build_attention_ack_packet", "build_attention_ack_packet", "b", "21", 0),
    ("build_transaction_manager_response", "build_transaction_manager_response n:5", "b", "27", 0),
    ("build_transaction_manager_response", "build_transaction_manager_response n:6", "b", "13", 0),
    ("build_info_token", f"build_info_token n:1 n:2 n:3 i:{TEXT} i:{TEXT} i:{TEXT} n:4", "b", "17", LONG),
    ("build_leading_error_tokens", f"build_leading_error_tokens n:1 n:2 i:{TEXT * 3}", "b", "30", LONG),
    ("build_leading_error_tokens", f"build_terminal_error_tokens n:1 n:2 i:{TEXT * 3}", "b", "30", LONG),
    ("build_error_response", f"build_error_response i:{TEXT * 3}", "b", "38", LONG),
    ("build_fedauth_info_token", f"build_fedauth_info_token i:{TEXT} i:{TEXT * 2}", "b", "27", LONG),
    ("build_fedauth_info_token", f"build_fedauth_challenge_response i:{TEXT} i:{TEXT * 2}", "b", "42", LONG),
    ("build_routing_envchange_token", f"build_routing_envchange_token i:{TEXT * 3} n:1433", "b", "13", LONG),
    ("build_enhanced_routing_envchange_token",
     f"build_enhanced_routing_envchange_token i:{TEXT} n:1433 i:{TEXT * 2}", "b", "15", LONG),
    ("build_routing_response", f"build_routing_response i:{TEXT * 3} n:1433", "b", "124", LONG),
    ("build_routing_login_response", f"build_routing_login_response i:{TEXT} n:1 i:- n:0 n:256 n:0", "b", "21", 0),
    ("build_routing_login_response", f"build_routing_login_response i:{TEXT} n:1 i:- n:1 n:256 n:0", "b", "90", 21),
    ("build_routing_login_response", f"build_routing_login_response i:{TEXT} n:1 i:- n:0 n:1 n:0", "b", "8", 21),
    ("build_routing_login_response", f"build_routing_login_response i:{TEXT * 3} n:1 i:000000001100 n:0 n:256 n:0", "b",
     "each route as the token above", 21 + 13 + LONG),
)
# The rows whose numbers depend on a script or a payload (`compare_rooms`), and the one of calls that are lent nothing.
WORKED_OUT, NOTHING = {"build_query_results", "build_query_results_in_packets", "cut_payload"}, {"room"}
# Packets of the plan, and the sizes at which the room for packets is lent.
AGREED = 4_096
SIZES = (512, 513, AGREED, 32_766, 32_767)
# Payloads at the borders of packets of 512, of 32,767, and of one packet.
PAYLOADS = (16, 503, 504, 505, 1_008, 1_009, 32_758, 32_759, 32_760, 65_518, 65_519, 65_527)
COLLATION = bytes.fromhex("0904D00034")


def rows(heading):
    """The table under a heading, its rows by their first cells."""
    text = (ROOT / "docs/EMBEDDING.md").read_text().split(f"\n## {heading}\n", 1)[1]
    table = re.search(r"(?:^\|.*\n)+", text, re.M)[0]
    lines = [[cell.strip() for cell in line.strip("|").split("|")] for line in table.splitlines()[2:]]
    return {cells[0]: cells[1:] for cells in lines}


def compare_lent(tally, asked):
    """Each row of the table with a number, or with a sum that the call shows; a builder fills all that it is lent."""
    table = {re.search(r"`station_(\w+)`", names)[1]: cells[0] for names, cells in rows("Buffers to lend").items()}
    known = {row for row, *_ in LENT} | WORKED_OUT | NOTHING
    tally.equal("EMBEDDING: the rows of the table", sorted(known), sorted(table))
    calls = []
    for row, call, kind, figure, more in LENT:
        shown = re.search(rf"(?<![0-9]){figure}(?![0-9])", table.get(row, ""))
        tally.check(shown, f"EMBEDDING: {figure} is not what is lent to {row}: {table.get(row)}")
        length = more + (int(figure) if figure.isdigit() else 0)
        calls += [f"{call} {kind}:{length}", f"{call} {kind}:{length - 1}"]
    said = asked(calls)
    for call, enough, short in zip(calls[::2], said[::2], said[1::2]):
        kind, length = call.rsplit(" ", 1)[-1].split(":")
        number = enough.split(" ")[0]
        holds = number == length if kind == "b" else number.isdigit()
        tally.check(holds, f"EMBEDDING: {call} answers {enough}")
        tally.equal(f"EMBEDDING: one less than {call}", "-20", short)
    position = asked([f"{STEP} p:8,0*4,1,0*{count} o:11" for count in (128, 127)])
    shown = re.search(r"`position`: 134;", table["step"])
    tally.check(shown and position[0].startswith("1 ") and position[1] == "-20", f"EMBEDDING: a step's position: {position}")


def lent(script):
    """A script as an argument of `calls`."""
    return f"i:{script.hex().upper()}"


def record(kind, payload=b""):
    return struct.pack("<IH", len(payload), kind) + payload


def compare_rooms(tally, asked):
    """Room at the borders: the payload and 8 for each packet. With it the builders write, with one byte less they do not."""
    cases = []
    for payload in PAYLOADS:
        script = lent(record(1, bytes(payload - 16)))
        cases.append((f"room {script}", f"build_query_results {script}", 8 + payload))
        for size in SIZES:
            length = payload + 8 * -(-payload // (size - 8))
            room = f"room_in_packets {script} n:{size}"
            cases.append((room, f"build_query_results_in_packets {script} n:{size}", length))
            cases.append((room, f"cut_payload {lent(bytes(payload))} n:{size}", length))
    calls = ((room, f"{build} b:{length}", f"{build} b:{length - 1}") for room, build, length in cases)
    said = asked([call for three in calls for call in three])
    for (room, build, length), *told in zip(cases, said[::3], said[1::3], said[2::3]):
        told[1] = told[1].split(" ")[0]
        tally.equal(f"{room} and {build}", [str(length), str(length), "-20"], told)


def columns(kind, count):
    named = [f"column {place}".encode("utf-16-le") for place in range(count)]
    return b"".join(record(2, bytes([kind[place]]) + COLLATION + name) for place, name in enumerate(named))


def ints(count):
    """A set of rows of four Ints."""
    row = record(4) + record(5, b"\3" + bytes(4)) * 4
    return record(1) + columns([3] * 4, 4) + row * count


def max_values(count):
    """A set of rows of an NVarChar(MAX) and a VarBinary(MAX) of 128 bytes each, in two chunks."""
    chunks = record(6, bytes(80)) + record(6, bytes(48))
    row = record(4) + record(5, b"\6") + chunks + record(5, b"\x09") + chunks
    return record(1) + columns([6, 8], 2) + row * count


def filled(asked, script, most):
    """The script with as many rows as a reply of so many bytes holds."""
    none, one = map(int, asked([f"room {lent(script(count))}" for count in (0, 1)]))
    return script((most - none) // (one - none))


def compare_plan(tally, asked):
    """The plan's scripts, the room for their replies in packets, and in the words after it that for one packet."""
    plan, page = rows("A plan for 256 KB"), (ROOT / "docs/EMBEDDING.md").read_text()
    scripts = [filled(asked, script, most) for script, most in ((max_values, 65_535), (ints, 16_384), (ints, 65_535))]
    given = [lent(script) for script in scripts]
    packets = asked([f"room_in_packets {each} n:{AGREED}" for each in given])
    one = [f"{int(each):,}" for each in asked([f"room {each}" for each in given])]
    tally.equal("EMBEDDING: the plan's scripts", [f"{len(script):,}" for script in scripts], plan["script"])
    row = next((cells for name, cells in plan.items() if name.startswith("reply")), [])
    tally.equal("EMBEDDING: the plan's replies", [f"{int(each):,}" for each in packets], row)
    shown = f"{one[0]}, {one[1]} and {one[2]} bytes"
    tally.check(shown in " ".join(page.split()), f"EMBEDDING: the plan's replies as one packet have {shown}")
