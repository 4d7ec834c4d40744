"""A page of SVG: lines, arrows, texts and boxes, in one file that needs no other."""
import xml.etree.ElementTree as tree

# What one letter of the texts takes, at their size.
LETTER = 6.65
SIZE = 11

# Colours that can be told apart, for pipes or for objects.
COLOURS = ('#1b6ca8', '#b3541e', '#2e7d32', '#8e24aa', '#c62828', '#00796b', '#6d4c41', '#ad1457', '#5d7000', '#455a64')
INK, PALE, FAULT = '#222222', '#9a9a9a', '#c00000'

STYLE = f'''
  text {{ font: {SIZE}px "DejaVu Sans Mono", "Liberation Mono", Menlo, Consolas, monospace; fill: {INK}; white-space: pre; }}
  .halo {{ paint-order: stroke; stroke: #ffffff; stroke-width: 3px; stroke-linejoin: round; }}
  .strong {{ font-weight: bold; }}
'''


def width(text):
    """How wide a text is drawn."""
    return LETTER * len(text)


def cut(text, most):
    """A text of at most so many letters, with a sign where it was cut."""
    return text if len(text) <= most else text[:most - 1] + '…'


class Page:
    """What is drawn, and how far it reaches."""

    def __init__(self, title):
        self.root = tree.Element('svg', {'xmlns': 'http://www.w3.org/2000/svg', 'role': 'img'})
        tree.SubElement(self.root, 'title').text = title
        tree.SubElement(self.root, 'style').text = STYLE
        heads = tree.SubElement(self.root, 'defs')
        for number, colour in enumerate((*COLOURS, INK, PALE, FAULT)):
            head = tree.SubElement(heads, 'marker', {'id': f'head{number}', 'viewBox': '0 0 8 8', 'refX': '7', 'refY': '4', 'markerWidth': '7',
                                                     'markerHeight': '7', 'orient': 'auto'})
            tree.SubElement(head, 'path', {'d': 'M0,0 L8,4 L0,8 z', 'fill': colour})
        self.right = self.below = 0
        self.ground = tree.SubElement(self.root, 'rect', {'width': '100%', 'height': '100%', 'fill': '#ffffff'})

    def reach(self, x, y):
        self.right, self.below = max(self.right, x), max(self.below, y)

    def add(self, kind, hint, **given):
        """Adds an element; the hint is shown where the pointer rests on it."""
        written = {name.replace('_', '-'): f'{value:.1f}' if isinstance(value, float) else str(value) for name, value in given.items()}
        made = tree.SubElement(self.root, kind, written)
        if hint:
            tree.SubElement(made, 'title').text = hint
        return made

    def text(self, x, y, words, colour=INK, hint=None, anchor='start', style='halo'):
        made = self.add('text', None, x=float(x), y=float(y), fill=colour, text_anchor=anchor, style=f'fill: {colour}')
        made.set('class', style)
        made.text = words
        if hint and hint != words:
            tree.SubElement(made, 'title').text = hint
        self.reach(x + (width(words) if anchor == 'start' else 0), y + 4)

    def line(self, start, end, colour=INK, dash=None, thick=1.0):
        style = {'stroke_dasharray': dash} if dash else {}
        self.add('line', None, x1=float(start[0]), y1=float(start[1]), x2=float(end[0]), y2=float(end[1]), stroke=colour, stroke_width=thick, **style)
        self.reach(max(start[0], end[0]), max(start[1], end[1]))

    def arrow(self, path, colour, dash=None, hint=None):
        """A curve in SVG's own words for paths, with a head at its end."""
        number = (*COLOURS, INK, PALE, FAULT).index(colour)
        style = {'stroke_dasharray': dash} if dash else {}
        self.add('path', hint, d=path, fill='none', stroke=colour, stroke_width=1.3, marker_end=f'url(#head{number})', **style)

    def box(self, x, y, wide, high, fill, line='none', hint=None):
        self.add('rect', hint, x=float(x), y=float(y), width=float(wide), height=float(high), fill=fill, stroke=line, rx=2)
        self.reach(x + wide, y + high)

    def dot(self, x, y, colour=INK):
        self.add('circle', None, cx=float(x), cy=float(y), r=3, fill=colour)

    def written(self):
        """The file's text."""
        wide, high = int(self.right + 14), int(self.below + 12)
        self.root.set('viewBox', f'0 0 {wide} {high}')
        self.root.set('width', str(wide))
        self.root.set('height', str(high))
        tree.indent(self.root, ' ')
        return tree.tostring(self.root, 'unicode') + '\n'
