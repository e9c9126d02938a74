"""What the pictures of this folder share: their colours in light and dark, boxes, arrows and texts, as lines of SVG.

A picture has a ground of its own, and its colours go by what the browser prefers, so it can be read on either.
"""
from xml.sax.saxutils import escape

STYLE = """<style>
  svg { --ground: #ffffff; --ink: #1f2328; --faint: #57606a; --line: #8c959f; --box: #f3f5f8; --code: #e3eefb;
        --idea: #fdf3d7; --edge: #9aa4af; }
  @media (prefers-color-scheme: dark) {
    svg { --ground: #0d1117; --ink: #e6edf3; --faint: #9ea7b3; --line: #6e7681; --box: #1a2029; --code: #16304d;
          --idea: #3b3113; --edge: #57606a; }
  }
  .ground { fill: var(--ground); }
  text { fill: var(--ink); font-family: -apple-system, "Segoe UI", "DejaVu Sans", Helvetica, Arial, sans-serif; }
  .small { fill: var(--faint); }
  .box { fill: var(--box); stroke: var(--line); }
  .code { fill: var(--code); stroke: var(--line); }
  .idea { fill: var(--idea); stroke: var(--line); }
  .apart { stroke-dasharray: 5 4; }
  .edge { fill: none; stroke: var(--edge); stroke-width: 1.4; }
  .tip { fill: var(--edge); }
</style>
<defs><marker id="tip" viewBox="0 0 8 8" refX="7" refY="4" markerWidth="8" markerHeight="8" orient="auto-start-reverse">
  <path class="tip" d="M0,0.5 L8,4 L0,7.5 z"/></marker></defs>"""


def text(x, y, words, size=14, kind="", anchor="middle", bold=False):
    """A line of text. A word between backquotes is set as code is."""
    parts = words.split("`")
    spans = "".join(
        escape(part) if i % 2 == 0 else '<tspan font-family="ui-monospace, DejaVu Sans Mono, Menlo, monospace">%s</tspan>' % escape(part)
        for i, part in enumerate(parts)
    )
    weight = ' font-weight="600"' if bold else ""
    return '<text x="%g" y="%g" font-size="%g" text-anchor="%s"%s%s>%s</text>' % (
        x, y, size, anchor, ' class="%s"' % kind if kind else "", weight, spans,
    )


def box(x, y, width, height, kind="box"):
    return '<rect class="%s" x="%g" y="%g" width="%g" height="%g" rx="6"/>' % (kind, x, y, width, height)


def arrow(x1, y1, x2, y2):
    """A straight arrow."""
    return '<path class="edge" d="M%g,%g L%g,%g" marker-end="url(#tip)"/>' % (x1, y1, x2, y2)


def path(points, tip=True):
    """An arrow through points, each part of it a curve that leaves and enters upright."""
    d = "M%g,%g" % points[0]
    for (x1, y1), (x2, y2) in zip(points, points[1:]):
        middle = (y1 + y2) / 2
        d += " C%g,%g %g,%g %g,%g" % (x1, middle, x2, middle, x2, y2)
    return '<path class="edge" d="%s"%s/>' % (d, ' marker-end="url(#tip)"' if tip else "")


def picture(width, height, title, lines):
    return "\n".join([
        '<svg xmlns="http://www.w3.org/2000/svg" width="%d" height="%d" viewBox="0 0 %d %d" role="img">' % (width, height, width, height),
        "<title>%s</title>" % escape(title),
        STYLE,
        '<rect class="ground" width="%d" height="%d"/>' % (width, height),
        *lines,
        "</svg>",
    ]) + "\n"
