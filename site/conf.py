"""Settings of Sphinx for the site: Debian 12's sphinx 5.3 and myst-parser 0.18. `site/check` builds it."""

import json
from pathlib import Path
from typing import Any

project = "dasd"
version = release = (Path(__file__).parent.parent / "VERSION").read_text(encoding="utf-8").strip()
language = "en"
smartquotes = False

extensions = ["myst_parser"]
source_suffix = {".md": "markdown"}
root_doc = "index"
myst_heading_anchors = 3

# A fence without a word shows what is no language; a deck is one too.
highlight_language = "none"
pygments_style = "friendly"

html_theme = "alabaster"
templates_path = ["templates"]
html_title = f"dasd {version}"
html_static_path = ["static"]
html_css_files = ["site.css"]
html_sidebars = {"**": ["contents.html", "about.html", "searchbox.html", "navigation.html"]}
html_show_copyright = False
html_show_sourcelink = False
html_copy_source = False
html_use_index = False
html_theme_options: dict[str, Any] = {
    "description": "A verified disk subsystem for System/360 emulators",
    "page_width": "1200px",
    "sidebar_width": "260px",
    "body_max_width": "auto",
    "font_family": "sans-serif",
    "head_font_family": "sans-serif",
    "show_powered_by": False,
}


def write_texts(app: Any, exception: Exception | None) -> None:
    """Writes texts.js, the pages' texts by their names, from which static/search_lines.js has the lines of a search."""
    if exception is None and app.builder.name == "html":
        texts = {it: app.env.get_doctree(it).astext() for it in sorted(app.env.found_docs)}
        script = f"const PAGE_TEXTS = {json.dumps(texts)};\n"
        Path(app.outdir, "_static", "texts.js").write_text(script, encoding="utf-8")


def setup(app: Any) -> None:
    """Has Sphinx call what is above."""
    app.connect("build-finished", write_texts)
