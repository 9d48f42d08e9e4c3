"""What the pictures of asking, of bases and of red cuts have in common: colours, programs that are run, frames of the line program, and the parts of an
SVG on standard output."""
import subprocess

INK, PALE, RED, GREEN, DARK, BLUE = "#345", "#9aa3ad", "#c33", "#07824f", "#123", "#2a62b8"
FILL, LINE = "#f3f6fb", "#b9c4d2"


def run(program, lines):
    """What a program writes to these lines, line by line."""
    return subprocess.run([program], input="".join(line + "\n" for line in lines), capture_output=True, text=True, check=True).stdout.split("\n")[:-1]


def frames(nodes, rows):
    """A base in frames, no node carrying a correction."""
    return [f"01{x & 0xFFFFFFFF:08x}{y & 0xFFFFFFFF:08x}00000000" for x, y in nodes] + ["02" + "".join(f"{k:04x}" for k in row) for row in rows]


def shown(lines, frames):
    """The mesh after these frames: its nodes, x y dx dy, and its rows."""
    text = run(lines, [*frames, "07"])
    signed = lambda digits: int(digits, 16) - (int(digits[0], 16) // 8 << 4 * len(digits))
    nodes = [[signed(line[a:b]) for a, b in ((2, 10), (10, 18), (18, 22), (22, 26))] for line in text if len(line) == 26]
    rows = [[int(line[a:a + 4], 16) for a in (2, 6, 10)] for line in text if len(line) == 14]
    return nodes, rows


def svg(wide, high, lines):
    print(f'<svg xmlns="http://www.w3.org/2000/svg" width="{wide}" height="{high}" font-family="sans-serif">')
    print('<rect width="100%" height="100%" fill="white"/>')
    print("\n".join([*lines, "</svg>"]))


def paths(ways, ink, width, fill="none", end=""):
    """Ways from point to point in one stroke and one fill; with Z at their end they are closed."""
    drawn = "".join("M" + "L".join(f"{x:.1f} {y:.1f}" for x, y in way) + end for way in ways)
    return f'<path d="{drawn}" fill="{fill}" stroke="{ink}" stroke-width="{width}" stroke-linecap="round" stroke-linejoin="round"/>'


def dots(points, ink, size):
    return paths([[at, at] for at in points], ink, size)


def words(x, y, text, ink=INK, more=""):
    return f'<text x="{x:.1f}" y="{y:.1f}" font-size="12" fill="{ink}"{more}>{text}</text>'


def turn(a, b, c):
    """Twice the area of a triangle."""
    return (b[0] - a[0]) * (c[1] - a[1]) - (c[0] - a[0]) * (b[1] - a[1])
