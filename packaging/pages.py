"""The pages of a folder that is released, which lacks files of the repository."""
import re

from files import ROOT

LINK = re.compile(r"(?<!!)\[((?:[^\[\]]|\[[^\[\]]*\])*)\]\(([^()\s#]+)(?:#[^()\s]*)?\)")


def unlink_missing(folder):
    """Leaves the words of each link to a file of the repository that the folder doesn't have."""
    for page in sorted(folder.rglob("*.md")):
        own = ROOT / page.relative_to(folder).parent

        def words(link, here=page.parent, there=own):
            text, target = link.groups()
            is_missing = (there / target).exists() and not (here / target).exists()
            return text if is_missing else link[0]

        text = page.read_text(encoding="utf-8")
        page.write_text(LINK.sub(words, text), encoding="utf-8")
