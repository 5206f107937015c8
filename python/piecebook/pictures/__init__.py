"""Pictures of a book as SVG text, and a page of it as HTML text."""
from .chain import chain_svg
from .grid import grid_svg
from .page import page_html
from .tree import tree_svg

__all__ = ["chain_svg", "grid_svg", "page_html", "tree_svg"]
