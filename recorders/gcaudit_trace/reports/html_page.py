"""An HTML page that stands alone: groups of a view that fold, each with its path as a picture, and a search."""
import html
from typing import TYPE_CHECKING, Iterable, List, Sequence

from ..graphs.path import Path
from ..traces.names import cut

if TYPE_CHECKING:
    from .view import View

_WIDTH = 340  # of a picture; it is shown smaller where there is less room
_BOX = 44
_ARROW = 40
_LETTERS = 42  # that fit into a box

_STYLE = (
    """
:root { color-scheme: light dark; --line: #8886; --strong: #b3261e; --box: #8881; --accent: #0b57d0; }
@media (prefers-color-scheme: dark) { :root { --strong: #f2b8b5; --accent: #a8c7fa; } }
* { box-sizing: border-box; }
body { font: 16px/1.45 system-ui, sans-serif; margin: 0 auto; max-width: 60rem; padding: 1rem; overflow-wrap: anywhere; }
h1 { font-size: 1.3rem; margin: 0 0 .3rem; }
p { margin: .3rem 0; }
.tools { display: flex; flex-wrap: wrap; gap: .5rem; margin: .8rem 0; position: sticky; top: 0; padding: .4rem 0; background: Canvas; }
input { flex: 1 1 12rem; min-width: 0; font: inherit; padding: .5rem; }
button { font: inherit; padding: .5rem .8rem; }
details { border: 1px solid var(--line); border-radius: .5rem; margin: .6rem 0; }
summary { cursor: pointer; padding: .7rem; }
summary:focus-visible, button:focus-visible, input:focus-visible { outline: 3px solid var(--accent); outline-offset: 2px; }
summary b { color: var(--strong); }
.inside { padding: 0 .7rem .7rem; }
.paths { display: flex; flex-wrap: wrap; gap: 1rem; }
.paths figure { margin: 0; flex: 0 1 %dpx; min-width: 0; }
svg { width: 100%%; height: auto; display: block; }
svg rect { fill: var(--box); stroke: var(--line); }
svg .last rect { stroke: var(--strong); stroke-width: 2; }
svg text { fill: CanvasText; font: 13px system-ui, sans-serif; }
svg .small { font-size: 11px; opacity: .75; }
svg path { stroke: CanvasText; fill: none; opacity: .6; }
pre { white-space: pre-wrap; font-size: .85rem; border: 1px solid var(--line); border-radius: .3rem; padding: .5rem; }
"""
    % _WIDTH
)

_SCRIPT = """
(function () {
  var field = document.getElementById('search'), shown = document.getElementById('shown');
  var groups = Array.prototype.slice.call(document.querySelectorAll('details'));
  function search() {
    var words = field.value.toLowerCase().split(/\\s+/).filter(Boolean), count = 0;
    groups.forEach(function (group) {
      var text = group.dataset.text.toLowerCase();
      group.hidden = !words.every(function (word) { return text.indexOf(word) >= 0; });
      if (!group.hidden) { count += 1; }
    });
    shown.textContent = count + ' of ' + groups.length + ' groups shown';
  }
  function fold(open) { groups.forEach(function (group) { if (!group.hidden) { group.open = open; } }); }
  field.addEventListener('input', search);
  document.getElementById('open').addEventListener('click', function () { fold(true); });
  document.getElementById('close').addEventListener('click', function () { fold(false); });
  document.addEventListener('keydown', function (event) {
    if (event.key === '/' && document.activeElement !== field) { event.preventDefault(); field.focus(); }
    if (event.key === 'Escape' && document.activeElement === field) { field.value = ''; search(); }
    if ((event.key === 'ArrowDown' || event.key === 'ArrowUp') && document.activeElement.tagName !== 'BUTTON') {
      var heads = groups.filter(function (group) { return !group.hidden; }).map(function (group) { return group.firstElementChild; });
      var at = heads.indexOf(document.activeElement) + (event.key === 'ArrowDown' ? 1 : -1);
      if (heads[at]) { event.preventDefault(); heads[at].focus(); }
    }
  });
  if (location.hash.indexOf('#search=') === 0) { field.value = decodeURIComponent(location.hash.slice(8)); }
  search();
})();
"""


def page(view: "View") -> str:
    """The whole page."""
    title = "%d violation%s in %d group%s" % (
        view.violations,
        "" if view.violations == 1 else "s",
        len(view.shown),
        "" if len(view.shown) == 1 else "s",
    )
    about = "%s, %d collection%s" % (view.trace, view.collections, "" if view.collections == 1 else "s")
    groups = (
        folded(shown.title, shown.notes, shown.paths, shown.group.sample.paths, place == 0)
        for place, shown in enumerate(view.shown)
    )
    return page_of(title, [about], groups)


def page_of(title: str, about: Iterable[str], groups: Iterable[str]) -> str:
    """A page with a title, a paragraph for each sentence about it, and groups."""
    return """<!DOCTYPE html>
<html lang="en">
<head>
<meta charset="utf-8">
<meta name="viewport" content="width=device-width, initial-scale=1">
<title>gcaudit: %s</title>
<style>%s</style>
</head>
<body>
<main>
<h1>%s</h1>
%s
<div class="tools">
<input id="search" type="search" placeholder="Search types and paths" aria-label="Search types and paths">
<button id="open" type="button">Open all</button>
<button id="close" type="button">Close all</button>
</div>
<p id="shown" role="status"></p>
%s
</main>
<script>%s</script>
</body>
</html>
""" % (
        html.escape(title),
        _STYLE,
        html.escape(title),
        "\n".join("<p>%s</p>" % html.escape(one) for one in about),
        "\n".join(groups),
        _SCRIPT,
    )


def folded(title: str, notes: Iterable[str], lines: List[str], paths: Sequence[Path], is_open: bool) -> str:
    """A group that folds: its title and notes as its head, pictures of its paths and lines inside."""
    noted = "; ".join(notes)
    text = " ".join([title, noted] + lines)
    pictures = '<div class="paths">%s</div>' % "".join(map(picture, paths)) if paths else ""
    return (
        '<details data-text="%s"%s><summary><b>%s</b><br>%s</summary><div class="inside">%s<pre>%s</pre></div></details>'
        % (
            html.escape(text),
            " open" if is_open else "",
            html.escape(title),
            html.escape(noted),
            pictures,
            html.escape("\n".join(lines)),
        )
    )


def picture(path: Path) -> str:
    """A path from top to bottom: a box for each object, and an arrow with the label of the slot between them."""
    start = "an owner" if path.root is None else "root " + path.root
    rows: List[str] = []
    height = _text(rows, 16, start) + 6
    height = _box(rows, _arrow(rows, height, ""), path.type_name, path.number, not path.steps)
    for place, step in enumerate(path.steps):
        if step.skipped:
            height = _text(rows, height + 18, "%d steps" % step.skipped) + 6
        height = _box(rows, _arrow(rows, height, step.label), step.type_name, step.number, place == len(path.steps) - 1)
    return '<figure><svg viewBox="0 0 %d %d" role="img" aria-label="%s"><title>%s</title>%s</svg></figure>' % (
        _WIDTH,
        height + 4,
        html.escape(str(path)),
        html.escape(str(path)),
        "".join(rows),
    )


def _text(rows: List[str], at: int, text: str) -> int:
    rows.append(
        '<text x="%d" y="%d" text-anchor="middle">%s</text>' % (_WIDTH // 2, at, html.escape(cut(text, _LETTERS)))
    )
    return at


def _arrow(rows: List[str], at: int, label: str) -> int:
    middle, end = _WIDTH // 2, at + _ARROW
    rows.append('<path d="M%d %d V%d m-5 -7 l5 7 l5 -7"/>' % (middle, at + 2, end - 2))
    if label:
        rows.append(
            '<text x="%d" y="%d">%s</text>'
            % (middle + 12, at + _ARROW // 2 + 4, html.escape(cut(label, _LETTERS // 2)))
        )
    return end


def _box(rows: List[str], at: int, type_name: str, number: int, is_last: bool) -> int:
    rows.append(
        '<g%s><rect x="2" y="%d" width="%d" height="%d" rx="6"/><text x="%d" y="%d" text-anchor="middle">%s</text>'
        '<text class="small" x="%d" y="%d" text-anchor="middle">object %d</text></g>'
        % (
            ' class="last"' if is_last else "",
            at,
            _WIDTH - 4,
            _BOX,
            _WIDTH // 2,
            at + 19,
            html.escape(cut(type_name, _LETTERS)),
            _WIDTH // 2,
            at + 35,
            number,
        )
    )
    return at + _BOX
