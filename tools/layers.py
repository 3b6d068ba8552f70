"""tools/layers.py [-]: draws the layers of the crates from crates.txt, to docs/layers.svg; with - to standard output.

An arrow leads from a crate to one that it names. One that follows from others is left out: garble names circuit, but so does
scheme, which garble names. A crate stands in the band right below the lowest that names it, and one that no crate names in the
band right above the highest that it names.
"""

import sys
from pathlib import Path

ROOT = Path(__file__).resolve().parent.parent

# What each crate is, and where in its band it stands, in columns from the left.
WORDS = {
    "model": (1.5, "types and definitions"),
    "block": (0.5, "blocks of 16 bytes"),
    "buffer": (2.5, "bytes in lent buffers"),
    "aes": (0.5, "FIPS 197, and by tables"),
    "planes": (0.5, "AES of four blocks, bitsliced"),
    "circuit": (2.5, "the file, check, plain"),
    "material": (2.5, "the file and its checks"),
    "scheme": (0.9, "one gate, by each scheme"),
    "garble": (0.5, "garble, encode, pick"),
    "evaluate": (1.65, "evaluate, decode"),
    "comparator": (3.85, "price ≤ ceiling, by width"),
    "chain": (1.45, "demand 3, the theorem"),
    "weighhare": (2.6, "the C interface"),
    "text": (3.85, "what sizes prints"),
    "input": (2.6, "what programs read"),
    "sizes": (3.85, "the program of 01"),
    "cases": (0.35, "what test programs share"),
    "vectors": (1.45, "test program"),
    "garblings": (0.35, "test program"),
}

BOX = (190, 46)
COLUMN = 208
BAND = 98
LEFT, TOP = 64, 66
INK, PAPER, EDGE, BANDS = "#1c2733", "#fdfdfb", "#5b6b7b", ("#eef2f6", "#f7f3e8")
FILLS = {"programs": "#e2f2e0", "library": "#dceaf7", "model": "#fbeed5"}


def read_crates():
    """Each crate of crates.txt with the crates of this repository that it names, in the file's order."""
    lines = (ROOT / "crates.txt").read_text(encoding="utf-8").splitlines()
    pairs = [line.split(":") for line in lines if line and not line.startswith("#")]
    # The word staticlib can stand after a name.
    named = {name.split()[0]: rest.split() for name, rest in pairs}
    return {name: [other for other in rest if other in named] for name, rest in named.items()}


def reached(crates, name):
    """All crates that a crate names, or that those name."""
    return set(crates[name]).union(*(reached(crates, other) for other in crates[name]))


def direct(crates):
    """The arrows that do not follow from others."""
    return {
        name: [other for other in named if not any(other in reached(crates, via) for via in named)]
        for name, named in crates.items()
    }


def levels(crates):
    """Each crate's band, from 0 at the bottom."""
    depth = {}
    for name, named in crates.items():
        depth[name] = 1 + max((depth[other] for other in named), default=-1)
    users = {name: [user for user, named in crates.items() if name in named] for name in crates}
    bands = dict(depth)
    for name in reversed(list(crates)):
        bands[name] = min((bands[user] for user in users[name]), default=max(depth.values()) + 1) - 1
    for name in crates:
        if not users[name]:
            bands[name] = 1 + max((bands[other] for other in crates[name]), default=-1)
    return bands


def escaped(words):
    return words.replace("&", "&amp;").replace("<", "&lt;")


def place(name, band, top):
    """The middle of a crate's box."""
    return LEFT + WORDS[name][0] * COLUMN, TOP + (top - band) * BAND + BAND / 2


def kind(name):
    if (ROOT / "crates" / name / "src" / "main.rt").exists() or name in ("cases", "input"):
        return "programs"
    return "model" if name == "model" else "library"


def picture():
    crates = read_crates()
    missing = [name for name in crates if name not in WORDS]
    if missing:
        sys.exit(f"tools/layers.py: WORDS does not say what {', '.join(missing)} is, and where it stands")
    bands = levels(crates)
    top = max(bands.values())
    at = {name: place(name, bands[name], top) for name in crates}
    wide = int(max(x for x, _ in at.values()) + BOX[0] / 2 + 30)
    high = TOP + (top + 1) * BAND + 20
    arrows = [(name, other) for name, named in direct(crates).items() for other in named]
    parts = [
        f'<svg xmlns="http://www.w3.org/2000/svg" viewBox="0 0 {wide} {high}" width="{wide}" height="{high}" role="img"',
        f'     aria-labelledby="title desc" font-family="Helvetica, Arial, sans-serif" font-size="12.5" fill="{INK}">',
        '  <title id="title">The layers of the crates</title>',
        '  <desc id="desc">An arrow leads from a crate to one that it names: '
        + "; ".join(f"{name} to {', '.join(named)}" for name, named in direct(crates).items() if named)
        + ".</desc>",
        "  <!-- drawn by tools/layers.py from crates.txt -->",
        '  <defs><marker id="head" viewBox="0 0 10 10" refX="9" refY="5" markerWidth="7" markerHeight="7" orient="auto">'
        f'<path d="M0 0 L10 5 L0 10 z" fill="{EDGE}"/></marker></defs>',
        f'  <rect x="1" y="1" width="{wide - 2}" height="{high - 2}" rx="10" fill="{PAPER}" stroke="#9aa5b1"/>',
        '  <text x="24" y="32" font-size="17" font-weight="bold">The layers of the crates</text>',
        '  <text x="24" y="52">An arrow leads from a crate to one that it names; what follows from others is left out.'
        " Green: programs, and what programs alone use.</text>",
    ]
    for band in range(top + 1):
        y = TOP + (top - band) * BAND
        parts.append(f'  <rect x="12" y="{y + 4}" width="{wide - 24}" height="{BAND - 8}" rx="6" fill="{BANDS[band % 2]}"/>')
    parts.append(f'  <g fill="none" stroke="{EDGE}" stroke-width="1.4" marker-end="url(#head)">')
    for name, other in arrows:
        (x, y), (u, v) = at[name], at[other]
        lean = max(-60.0, min(60.0, (u - x) / 4))
        parts.append(
            f'    <path d="M{x + lean:.0f} {y + BOX[1] / 2:.0f} L{u - lean:.0f} {v - BOX[1] / 2 - 1:.0f}"/>'
        )
    parts.append("  </g>")
    for name, (x, y) in at.items():
        left, up = x - BOX[0] / 2, y - BOX[1] / 2
        parts += [
            f'  <rect x="{left:.0f}" y="{up:.0f}" width="{BOX[0]}" height="{BOX[1]}" rx="7" fill="{FILLS[kind(name)]}"'
            f' stroke="{INK}" stroke-width="1.2"/>',
            f'  <text x="{x:.0f}" y="{y - 3:.0f}" text-anchor="middle" font-size="15" font-weight="bold">{name}</text>',
            f'  <text x="{x:.0f}" y="{y + 15:.0f}" text-anchor="middle">{escaped(WORDS[name][1])}</text>',
        ]
    parts.append("</svg>")
    return "\n".join(parts) + "\n"


def main(words):
    if words == ["-"]:
        sys.stdout.buffer.write(picture().encode("utf-8"))
    elif not words:
        (ROOT / "docs" / "layers.svg").write_text(picture(), encoding="utf-8")
    else:
        sys.exit("usage: tools/layers.py [-]")


if __name__ == "__main__":
    main(sys.argv[1:])
