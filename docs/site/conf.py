"""Configuration of the documentation site. docs/build runs Sphinx over a copy of the pages."""

import logging
import os
import re
from pathlib import Path

TOP = Path(os.environ["GEOSTATION_TOP"])
OUT = Path(os.environ["GEOSTATION_DOXYGEN"])

project = "geostation"
author = "The geostation maintainers"
copyright = author
HEADER = (TOP / "c/geostation.h").read_text()
version = release = re.search(r'GEOSTATION_VERSION "(.*)"', HEADER)[1]

extensions = ["myst_parser", "breathe", "sphinx.ext.autodoc", "sphinx.ext.napoleon"]
root_doc = "index"
html_theme = "alabaster"
html_theme_options = {"page_width": "1100px", "sidebar_width": "260px", "fixed_sidebar": True}
html_title = f"geostation {version}"
html_sidebars = {"**": ["about.html", "searchbox.html", "navigation.html"]}
html_copy_source = False
# Headings have the anchors that forges give them.
myst_heading_anchors = 4
# Console blocks show what commands print, which is no language.
highlight_language = "none"
suppress_warnings = ["misc.highlighting_failure"]

breathe_projects = {"c": str(OUT / "c/xml"), "cpp": str(OUT / "cpp/xml")}
breathe_default_project = "c"
breathe_domain_by_extension = {"h": "c", "hpp": "cpp"}
breathe_show_include = False

# The reference of the Python package is read from its sources. It needs none of these packages.
autodoc_mock_imports = ["scapy", "pandas", "matplotlib", "tqdm"]
autodoc_member_order = "bysource"
default_role = "code"
autodoc_typehints = "signature"
autodoc_class_signature = "mixed"


# Structs of the header that have the name of a function.
BOTH = ("geostation_counts'", "geostation_message'")


def is_news(record):
    """Drops warnings: in Sphinx's C domain a struct and a function cannot have the same name."""
    said = record.getMessage()
    return not ("Duplicate C declaration" in said and any(name in said for name in BOTH))


logging.getLogger("sphinx.sphinx.domains.c").addFilter(is_news)
