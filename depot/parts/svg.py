"""Plain SVG: texts, lines and boxes on a white page, readable in a browser and in a document."""
from xml.sax.saxutils import escape

INK, FAINT, LINE = "#222222", "#777777", "#cccccc"


class Page:
    def __init__(self, width, height, title):
        size = 'viewBox="0 0 %d %d" width="%d" height="%d"' % (width, height, width, height)
        self.parts = [
            '<svg xmlns="http://www.w3.org/2000/svg" %s font-family="sans-serif" font-size="13">' % size,
            "<title>%s</title>" % escape(title), '<rect width="100%" height="100%" fill="white"/>']
        self.text(24, 32, title, size=17, weight="bold")

    def text(self, x, y, words, color=INK, size=13, anchor="start", weight="normal", mono=False):
        family = ' font-family="monospace"' if mono else ""
        self.parts.append('<text x="%.1f" y="%.1f" fill="%s" font-size="%d" text-anchor="%s" font-weight="%s"%s>%s</text>'
                          % (x, y, color, size, anchor, weight, family, escape(words)))

    def line(self, x1, y1, x2, y2, color=LINE, width=1):
        self.parts.append('<line x1="%.1f" y1="%.1f" x2="%.1f" y2="%.1f" stroke="%s" stroke-width="%.1f"/>' % (x1, y1, x2, y2, color, width))

    def box(self, x, y, width, height, color, round_by=0):
        self.parts.append('<rect x="%.1f" y="%.1f" width="%.1f" height="%.1f" fill="%s" rx="%d"/>' % (x, y, width, height, color, round_by))

    def arrow(self, x1, y, x2, color):
        """Horizontal, its head at x2."""
        back = -7 if x2 > x1 else 7
        self.line(x1, y, x2, y, color, 1.5)
        self.parts.append('<path d="M%.1f %.1f l%d -4 v8 z" fill="%s"/>' % (x2, y, back, color))

    def write(self, path):
        with open(path, "w", encoding="utf-8") as f:
            f.write("\n".join(self.parts + ["</svg>", ""]))
