"""The pages of the repository."""
from .crates import ROOT

FORMS = ("*.md", "docs/**/*.md", "bench/*.md", "data/*.md")


def pages() -> list[str]:
    """The paths of all pages from the root of the repository."""
    return sorted({it.relative_to(ROOT).as_posix() for form in FORMS for it in ROOT.glob(form)})
