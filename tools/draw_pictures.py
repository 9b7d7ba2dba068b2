#!/usr/bin/env python3
"""Draws the pictures of the pages, in colours for light and dark pages.

    tools/draw_pictures.py    writes docs/layers.svg, docs/data-path.svg and docs/loss.svg

The third is drawn from the stored run of `streamsim` (crates/streamsim/stdout).
"""
import argparse
import os
from html import escape

from crate_list import ROOT

WIDTH = 820
STYLE = """<style>
text{font:15px system-ui,-apple-system,'Segoe UI',Helvetica,Arial,sans-serif;fill:#1f2328}
.title{font-size:19px;font-weight:600}.strong{font-weight:600}.soft{fill:#57606a}.code{font-family:ui-monospace,Menlo,Consolas,monospace;font-size:14px}
.page{fill:#ffffff}.box{stroke-width:1.5}.arrow{fill:none;stroke:#57606a;stroke-width:1.6}.tip{fill:#57606a}.grid{stroke:#d0d7de}
.grey{fill:#f6f8fa;stroke:#8c959f}.blue{fill:#e3f1fb;stroke:#0072b2}.orange{fill:#fdf1dc;stroke:#b87400}.green{fill:#e0f4ec;stroke:#00805c}
.pink{fill:#f9e8f1;stroke:#a8517f}.violet{fill:#efeafb;stroke:#6a51a3}
.l0{stroke:#57606a}.l1{stroke:#b87400}.l2{stroke:#0072b2}.l3{stroke:#00805c}.l4{stroke:#1f2328}.l5{stroke:#a8517f}.line{fill:none;stroke-width:2}
@media (prefers-color-scheme:dark){
text{fill:#e6edf3}.soft{fill:#9da7b3}.page{fill:#0d1117}.arrow{stroke:#9da7b3}.tip{fill:#9da7b3}.grid{stroke:#30363d}
.grey{fill:#161b22;stroke:#8b949e}.blue{fill:#0b2840;stroke:#56b4e9}.orange{fill:#33240a;stroke:#e69f00}.green{fill:#06281e;stroke:#2fbf91}
.pink{fill:#32182a;stroke:#e08bb8}.violet{fill:#1f1a35;stroke:#a593e0}
.l0{stroke:#9da7b3}.l1{stroke:#e69f00}.l2{stroke:#56b4e9}.l3{stroke:#2fbf91}.l4{stroke:#e6edf3}.l5{stroke:#e08bb8}
}</style>"""


def picture(height, title, description, parts):
    """A whole SVG with its title as the first line of text."""
    head = [
        f"<svg xmlns='http://www.w3.org/2000/svg' viewBox='0 0 {WIDTH} {height}' width='{WIDTH}' height='{height}' role='img' "
        "aria-labelledby='title desc'>",
        f"<title id='title'>{escape(title)}</title>",
        f"<desc id='desc'>{escape(description)}</desc>",
        STYLE,
        "<defs><marker id='tip' viewBox='0 0 10 10' refX='9' refY='5' markerWidth='8' markerHeight='8' orient='auto-start-reverse'>"
        "<path class='tip' d='M0 0L10 5L0 10z'/></marker></defs>",
        f"<rect class='page' width='{WIDTH}' height='{height}' rx='8'/>",
        text(20, 34, title, "title"),
    ]
    return "\n".join([*head, *parts, "</svg>"]) + "\n"


def text(x, y, words, kind="", anchor="start"):
    return f"<text class='{kind}' x='{x}' y='{y}' text-anchor='{anchor}'>{escape(words)}</text>"


def box(x, y, width, colour, lines, height=None):
    """A box with a first line in bold; a line that begins with ` is code."""
    height = height or 22 + 22 * len(lines)
    parts = [f"<rect class='box {colour}' x='{x}' y='{y}' width='{width}' height='{height}' rx='7'/>"]
    for index, line in enumerate(lines):
        kind = "code" if line.startswith("`") else "strong" if index == 0 else ""
        parts.append(text(x + 14, y + 27 + 22 * index, line.lstrip("`"), kind))
    return "\n".join(parts)


def arrow(path, dashed=False):
    dashes = " stroke-dasharray='6 4'" if dashed else ""
    return f"<path class='arrow' d='{path}' marker-end='url(#tip)'{dashes}/>"


def layers():
    whole, half = WIDTH - 40, (WIDTH - 60) // 2
    right = 40 + half
    parts = [
        box(20, 56, whole, "violet", ["Programs", "a pair by hand, examples, a simulation, a hostile peer", "`streampair  connection_loop  message_queue  streamsim  hostile"]),
        box(20, 168, half, "pink", ["Two endpoints", "a network between them; the theorems", "`quic_link  quic_exchange  quic_pair"]),
        box(right, 168, half, "grey", ["Hosts in C, C++ and Rust", "one handle, tokens for payloads", "`quic_streams_c  bindings/rust"]),
        box(20, 280, whole, "green", ["One endpoint", "all streams, events, flow control, 0-RTT; datagrams and payloads of a session", "`quic_history  quic_streams  quic_endpoint  quic_session"]),
        box(20, 392, half, "blue", ["Receive side", "reassembly, final size, credit", "`quic_ordered  quic_receiving"]),
        box(right, 392, half, "orange", ["Send side", "buffer, loss, acknowledgement, queue", "`quic_sending  quic_queue  quic_outgoing"]),
        box(20, 504, whole, "grey", ["Values and frames", "numbers, ids, ranges, frames as bytes, limits, datagrams", "`quic_values  quic_ranges  quic_wire  quic_limits  quic_datagrams"]),
    ]
    middle = [(20 + half // 2), (right + half // 2)]
    parts += [arrow(f"M{x} {y}V{y + 22}") for y in (145, 257, 369, 481) for x in middle if (x, y) != (middle[1], 145)]
    title = "Each crate knows those below it by their contracts alone"
    words = "Boxes from top to bottom: programs; two endpoints and hosts; one endpoint; receive side and send side; values and frames."
    return picture(612, title, words, parts)


def data_path():
    left, right, width = 20, 500, 300
    parts = [text(left, 66, "Sender", "soft"), text(right, 66, "Receiver", "soft")]
    parts += [
        box(left, 78, width, "grey", ["Application", "`SendStream::write"]),
        box(left, 178, width, "orange", ["Send buffer", "each byte until it is acknowledged", "`Send  SendBuffer"]),
        box(left, 300, width, "orange", ["Send queue and writer", "by priority; STREAM frames", "`SendQueue  write_stream_frames"]),
        box(left, 422, width, "grey", ["Packet layer of the sender", "packets, loss detection (yours)"]),
        box(right, 78, width, "grey", ["Application", "`RecvStream::read"]),
        box(right, 178, width, "blue", ["Reassembly", "each offset is delivered once", "`Assembler"]),
        box(right, 300, width, "blue", ["Checks", "stream id, final size, credit", "`StreamsState::received  Recv"]),
        box(right, 422, width, "grey", ["Packet layer of the receiver", "decryption, ACKs (yours)"]),
    ]
    down = left + 110
    parts += [arrow(f"M{down} {a}V{b}") for a, b in ((144, 176), (266, 298), (388, 420))]
    up = right + width // 2
    parts += [arrow(f"M{up} {a}V{b}") for a, b in ((178, 146), (300, 268), (422, 390))]
    middle = (left + width + right) // 2
    parts += [
        arrow(f"M{left + width} 438H{right - 2}"),
        text(middle, 428, "packets", "", "middle"),
        arrow(f"M{right} 472H{left + width + 2}", True),
        text(middle, 496, "ACKs, MAX_DATA", "", "middle"),
        arrow(f"M{left + 280} 422C{left + 400} 400 {left + 400} 250 {left + width + 2} 222", True),
        text(left + 394, 318, "acked:", ""),
        text(left + 394, 338, "release", ""),
        text(left + 394, 362, "lost:", ""),
        text(left + 394, 382, "resend", ""),
    ]
    title = "A byte is released when the sender's packet layer reports its ACK"
    words = (
        "A written byte goes from the application through send buffer, send queue and writer to the sender's packet layer, over the "
        "network to the receiver's packet layer, through checks and reassembly to the reading application. ACKs return to the "
        "sender's packet layer, which reports each payload to the send buffer as acknowledged or lost."
    )
    return picture(516, title, words, parts)


COLUMNS = ["credit of the reader", "written", "sent", "acknowledged", "delivered", "sent again"]
DASHES = ["2 3", "8 4", "", "5 3 1 3", "", "3 2"]


def samples():
    """The rows of the stored run: the step, and what was counted up to it."""
    with open(os.path.join(ROOT, "crates", "streamsim", "stdout")) as file:
        rows = [line.split() for line in file]
    return [[int(it) for it in row] for row in rows if len(row) == 7 and row[0].isdigit()]


def spread(wanted, gap):
    """Places near the wanted ones, from the highest on, at least a gap apart."""
    placed = {}
    last = -gap
    for name, y in sorted(wanted.items(), key=lambda it: it[1]):
        last = max(y, last + gap)
        placed[name] = last
    return placed


def loss():
    rows = samples()
    left, top, right, bottom = 70, 64, 620, 392
    steps, most = rows[-1][0], 900_000
    x = lambda step: left + (right - left) * step / steps
    y = lambda count: bottom - (bottom - top) * count / most
    parts = [f"<path class='grid' d='M{left} {y(n):.0f}H{right}'/>" for n in range(0, most + 1, 200_000)]
    parts += [text(left - 8, round(y(n)) + 5, f"{n // 1000}" + (" kB" if n else ""), "soft", "end") for n in range(0, most + 1, 200_000)]
    parts += [text(round(x(n)), bottom + 22, str(n), "soft", "middle") for n in range(0, steps, 400)]
    parts.append(text(right, bottom + 22, f"step {steps}", "soft", "middle"))
    labels = spread({index: y(rows[-1][index + 1]) for index in range(6)}, 22)
    for index, name in enumerate(COLUMNS):
        points = " ".join(f"{x(row[0]):.1f},{y(row[index + 1]):.1f}" for row in rows)
        dashes = f" stroke-dasharray='{DASHES[index]}'" if DASHES[index] else ""
        parts.append(f"<polyline class='line l{index}' points='{points}'{dashes}/>")
        parts.append(f"<path class='line l{index}' d='M{right + 10} {labels[index]:.0f}h28'{dashes}/>")
        parts.append(text(right + 46, round(labels[index]) + 5, name))
    title = f"One packet in three lost: all {rows[-1][5]:,} bytes arrive in order"
    words = (
        "Bytes by step of a simulated run. Delivered bytes rise in stairs, as each gap is filled, and reach the bytes written; the "
        f"advertised credit runs a window above them; {rows[-1][6]:,} bytes are sent again."
    )
    return picture(430, title, words, parts)


PICTURES = {"layers.svg": layers, "data-path.svg": data_path, "loss.svg": loss}


def differing():
    """The pictures that are not as they would be drawn."""
    found = []
    for name, draw in PICTURES.items():
        path = os.path.join(ROOT, "docs", name)
        text = ""
        if os.path.exists(path):
            with open(path) as file:
                text = file.read()
        if text != draw():
            found.append(f"docs/{name} differs from what is drawn")
    return found


def main():
    for name, draw in PICTURES.items():
        with open(os.path.join(ROOT, "docs", name), "w") as file:
            file.write(draw())


if __name__ == "__main__":
    argparse.ArgumentParser(description=__doc__, formatter_class=argparse.RawDescriptionHelpFormatter).parse_args()
    main()
