"""The help of the desks, made of the documents for people who use the screens: docs/CLERK.md, docs/TENDERER.md and docs/GLOSSARY.md, and those in docs/de/.
Each becomes a page in web/help/ of a release, with its pictures; lowdown makes HTML of it. Pages of one name have the same sections in all languages, in the
same order and with the same anchors."""
import html
import os
import re
import subprocess
import tomllib
import urllib.parse
from collections.abc import Iterator
from pathlib import Path

from office_kit.common import ROOT, fail, need
from office_kit.docs.documents import slug_of

# The pages by their names, and their documents by language. (Of a document that isn't translated there is the English page alone.)
PAGES = {"clerk": "CLERK.md", "tenderer": "TENDERER.md", "glossary": "GLOSSARY.md"}
NAMES = {file: page for page, file in PAGES.items()}
LANGUAGES = {"en": "docs", "de": "docs/de"}
DATA = tomllib.loads(Path(__file__).with_suffix(".toml").read_text(encoding="utf-8"))
WORDS = ["-thtml", "--out-no-smarty", "--html-no-skiphtml", "--html-no-escapehtml", "--html-no-owasp", "--html-no-head-ids"]


def exists(name: str, language: str) -> bool:
    return Path(ROOT, LANGUAGES[language], PAGES[name]).exists()


def link(target: str, file: str, language: str, ids: dict[str, str]) -> str | None:
    """The address of a link's target within the help, or nothing if the help doesn't have it. `ids` has the anchor of each section of the file, by its own."""
    place, _, anchor = target.partition("#")
    name = NAMES.get(os.path.basename(place or file))
    tag = language if name and exists(name, language) else "en"
    return name and f"/help/{tag}/{name}.html" + (f"#{ids.get(anchor, anchor)}" if anchor else "")


def body_of(file: str, language: str, ids: dict[str, str]) -> str:
    """A document as HTML. A link to a document is named like its page; one that leads elsewhere is its words."""
    def linked(found: re.Match[str]) -> str:
        words, href = DATA["words"][language].get(NAMES.get(found[2], ""), found[2]), link(urllib.parse.unquote(html.unescape(found[1])), file, language, ids)
        return f'<a href="{href}">{words}</a>' if href else str(words)
    anchors, path = iter(ids.values()), Path(ROOT, LANGUAGES[language], file)
    text = subprocess.run([need("lowdown", "lowdown"), *WORDS, path], check=True, capture_output=True, text=True).stdout
    text = re.sub(r'<a href="([^"]*)">(.*?)</a>', linked, text, flags=re.S)
    text = re.sub(r"<li><p>((?:(?!<p>).)*)</p></li>", r"<li>\1</li>", text, flags=re.S)
    text = re.sub("<h([12])>", lambda found: f'<h{found[1]} id="{next(anchors) if found[1] == "2" else "top"}">', text)
    text = re.sub(r'<img src="[^"]*?([^"/]+)" (alt="[^"]*") />', r'<img src="/help/pictures/\1" \2 loading="lazy">', text)
    text = re.sub(r"<tr>\n<td>(.*?)</td>", r'<tr>\n<th scope="row">\1</th>', text, flags=re.S).replace("<th></th>", "<td></td>")
    return text.replace("<th>", '<th scope="col">')


def sections_of(text: str) -> list[str]:
    return [slug_of(head) for head in re.findall(r"^## (.+)$", text, re.M)]


def made(name: str, language: str) -> str:
    """The page of a document in a language."""
    file, said = PAGES[name], DATA["words"][language]
    own, ids = (sections_of(Path(ROOT, folder, file).read_text(encoding="utf-8")) for folder in (LANGUAGES[language], "docs"))
    if len(own) != len(ids):
        fail(f"{LANGUAGES[language]}/{file} has {len(own)} sections, and the English page has {len(ids)}")
    title, rest = body_of(file, language, dict(zip(own, ids))).split("\n", 1)
    contents = "".join(f'<li><a href="#{anchor}">{words}</a></li>' for anchor, words in re.findall('<h2 id="(.*?)">(.*?)</h2>', rest))
    inside = f'<nav aria-label="{said["contents"]}"><h2>{said["contents"]}</h2><ul>{contents}</ul></nav>'
    here = " aria-current=page"
    others = "".join(f'<a href="/help/{tag}/{name}.html" lang="{tag}" hreflang="{tag}"{here if tag == language else ""}>{words["name"]}</a> '
                     for tag, words in DATA["words"].items() if exists(name, tag))
    pages = "".join(f'<a href="{link(PAGES[page], file, language, {})}"{here if page == name else ""}>{said[page]}</a>' for page in PAGES)
    told = {"language": language, "title": re.sub("<.*?>", "", title), "body": "\n".join([title, inside, rest]), "others": others, "pages": pages}
    return str(DATA["frame"].format(**said, **told))


def pages() -> Iterator[tuple[str, bytes]]:
    """The files of the help, by their paths in web/."""
    texts = {f"help/{tag}/{name}.html": made(name, tag) for name in PAGES for tag in LANGUAGES if exists(name, tag)}
    yield from ((path, text.encode()) for path, text in texts.items())
    for picture in sorted(set(re.findall('"/help/pictures/(.*?)"', "".join(texts.values())))):
        yield f"help/pictures/{picture}", Path(ROOT, "docs", "pictures", picture).read_bytes()
