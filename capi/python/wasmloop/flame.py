"""A flame graph as SVG for a browser: a box for each call, above its caller, as wide as its fuel. A click on a box zooms in, a click on the
lowest box zooms out; / or Ctrl-F searches for functions."""

from __future__ import annotations

import html
import zlib
from typing import Dict, Iterable, Iterator, Mapping, Tuple

WIDTH, ROW, TOP, LETTER, LEAST = 1200, 18, 62, 6.65, 0.4   # in pixels: of the picture, a row, the title, a letter, the smallest box

STYLE = """
text{font:11px ui-monospace,Menlo,Consolas,"DejaVu Sans Mono",monospace;fill:#222}
.t{font-size:16px;font-weight:bold}.s{fill:#666}.g{cursor:pointer}.g rect{stroke:#fff;stroke-width:.6}
.g:hover rect{stroke:#222;stroke-width:1}.off rect{opacity:.35}.hit rect{fill:#c23ad6}.hit text{fill:#fff}
"""

SCRIPT = """
const boxes=[...document.querySelectorAll('.g')],info=document.getElementById('info'),said=info.textContent,W=WIDTH_;
const num=(b,k)=>+b.dataset[k];
function show(at,units){for(const b of boxes){const x=(num(b,'a')-at)/units*W,w=num(b,'u')/units*W,inside=x>-.01&&x+w<W+.01,over=x<=.01&&x+w>=W-.01;
 b.style.display=inside&&w>=.4||over?'':'none';const r=b.querySelector('rect'),t=b.querySelector('text'),l=over?0:x,v=over?W:w;
 b.classList.toggle('off',over&&!inside);r.setAttribute('x',l);r.setAttribute('width',v);t.setAttribute('x',l+4);
 const n=Math.floor((v-8)/LETTER_),name=b.dataset.n;t.textContent=n<3?'':name.length<=n?name:name.slice(0,n-1)+'\\u2026';}}
for(const b of boxes){b.onclick=()=>show(num(b,'a'),num(b,'u'));b.onmouseover=()=>info.textContent=b.querySelector('title').textContent;
 b.onmouseout=()=>info.textContent=said;}
addEventListener('keydown',e=>{if(e.key=='/'||e.key=='f'&&e.ctrlKey){e.preventDefault();const w=prompt('search functions');if(w!==null)
 for(const b of boxes)b.classList.toggle('hit',!!w&&b.dataset.n.includes(w));}});
"""


class Tree:
    """A call: its units, with those of what it calls, and these calls by name."""

    def __init__(self) -> None:
        self.units = 0
        self.parts: Dict[str, Tree] = {}

    def add(self, path: Iterable[str], units: int) -> None:
        node = self
        node.units += units
        for name in path:
            node = node.parts.setdefault(name, Tree())
            node.units += units


def colour(name: str) -> str:
    """A warm colour, the same for a name in every picture."""
    hue = zlib.crc32(name.encode())
    return f"hsl({8 + hue % 44},{72 + hue // 64 % 18}%,{58 + hue // 4096 % 12}%)"


def tree(found: Mapping[str, int]) -> Tree:
    """The units of each call path, as a tree."""
    root = Tree()
    for path, units in found.items():
        root.add(path.split(";"), units)
    return root


def boxes(root: Tree, least: float) -> Iterator[Tuple[int, int, int, str]]:
    """Each box of at least `least` units: its start, units, depth and name, callers first."""
    todo = [(root, "all", 0, 0)]
    while todo:
        call, name, at, depth = todo.pop()
        if call.units < least:
            continue
        yield at, call.units, depth, name
        for part in sorted(call.parts):
            todo.append((call.parts[part], part, at, depth + 1))
            at += call.parts[part].units


def box(at: int, units: int, depth: int, name: str, whole: int, floor: int) -> str:
    x, width = WIDTH * at / whole, WIDTH * units / whole
    room, y, shown = int((width - 8) / LETTER), floor - (depth + 1) * ROW, html.escape(name, quote=True)
    label = "" if room < 3 else name if len(name) <= room else name[:room - 1] + "…"
    return (f'<g class="g" data-a="{at}" data-u="{units}" data-n="{shown}"><title>{shown}: {units:,} units, {100 * units / whole:.2f} percent</title>'
            f'<rect x="{x:.2f}" y="{y}" width="{width:.2f}" height="{ROW - 1}" rx="2" fill="{"#d9d9d9" if depth == 0 else colour(name)}"/>'
            f'<text x="{x + 4:.2f}" y="{y + 12.5}">{html.escape(label)}</text></g>')


def picture(found: Mapping[str, int], title: str, about: str) -> str:
    """The picture of call paths with their units."""
    root = tree(found)
    whole = max(root.units, 1)
    rows = list(boxes(root, LEAST * whole / WIDTH))
    deep = max((depth for _, _, depth, _ in rows), default=0) + 1
    height = TOP + deep * ROW + 12
    out = [f'<svg xmlns="http://www.w3.org/2000/svg" viewBox="0 0 {WIDTH} {height}" width="{WIDTH}" height="{height}">',
           f'<style>{STYLE}</style><rect width="100%" height="100%" fill="#fdfbf7"/>',
           f'<text class="t" x="8" y="24">{html.escape(title)}</text><text class="s" id="info" x="8" y="44">{html.escape(about)}</text>']
    out += [box(*row, whole, height - 8) for row in rows]
    script = SCRIPT.replace("WIDTH_", str(WIDTH)).replace("LETTER_", str(LETTER))
    return "\n".join([*out, f"<script><![CDATA[{script}]]></script></svg>"]) + "\n"
