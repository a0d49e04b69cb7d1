"""The report, read and looked at in a real browser."""
import html.parser
import json
import os
import re
import shutil
import subprocess
from pathlib import Path
from urllib.parse import unquote

import cv2
import numpy as np
import pytest

from tool.render import Label, quad, render
from tool.report import natural, write_report

BROWSER = shutil.which("chromium") or shutil.which("chromium-browser")
in_browser = pytest.mark.skipif(BROWSER is None, reason="chromium is not installed")
EDGE = {"probed": 28, "fit": 27, "dropped": 1, "valid": True}


def record(name, **other):
    """A record as measure writes it, with other values for some keys."""
    made = dict(
        number=0, word="answer", corners=[[10.5, 11.25], [110.5, 11.0], [110.0, 111.0], [10.0, 111.5]], refined=[True] * 4,
        spread_px=0.004, repeatable=True, warnings=[], photo=f"{name}.jpg", photo_sha256="0" * 64, text="FIND 1234", side_mm=20.0,
        px_per_mm=[5.0, 5.02, 5.01, 5.03], module_px=4.8, rough=[[10, 11], [110, 11], [110, 111], [10, 111]], rough_from="decoder",
        request=dict(width=200, height=150, stride=200, scale=[1, 1], corners=[], corners_bits=[], grid=["01" * 10 + "0"] * 21,
                     inverted=False, camera=None),
        prepare=dict(sigma_px=0.0, sentence="The picture was taken as it is."), answer=dict(corners=[], corners_bits=[], edges=[EDGE] * 4),
        read=3210, files=dict(blanked=f"{name}.blanked.png", sheet=f"{name}.sheet.png", overlay=f"{name}.overlay.png"),
        copy_sha256="1" * 64, sheet_sha256="2" * 64, versions=dict(tool="1", opencv="4.6.0"))
    return dict(made, **other)


def put(directory: Path, name: str, **other):
    """Writes a record and pictures beside it."""
    (directory / f"{name}.json").write_text(json.dumps(record(name, **other)))
    picture = render(Label(light=(225, 235, 240)), quad((100, 75), 90, 6), (200, 150), background=(70, 95, 120)).picture
    for kind in ("blanked", "sheet", "overlay"):
        assert cv2.imwrite(str(directory / f"{name}.{kind}.png"), picture)


@pytest.fixture(name="folder")
def fixture_folder(tmp_path):
    """A folder with an answer of each kind, names that would break a page, and records that are damaged."""
    folder = tmp_path / "Trench <4> & pit"
    folder.mkdir()
    put(folder, "find-10", spread_px=0.02, module_px=12.5)
    put(folder, "find-2", spread_px=0.5, repeatable=False, warnings=["This answer is not repeatable: <i>look</i> at it."], module_px=31.0)
    put(folder, "<b>", photo="<b>.png", text='"><script>document.title = "broken"</script>', spread_px=0.003)
    put(folder, "100% #1?", text="Grube ä", spread_px=0.1, module_px=3.0, px_per_mm=None)
    put(folder, "dark", number=9, word="fewer than two edges of the label were found", corners=None, refined=[False] * 4, spread_px=None,
        repeatable=None, read=120, text=None, px_per_mm=None)
    (folder / "bare.json").write_text(json.dumps({"number": None, "word": "no QR label was found", "photo": "bare.tif"}))
    (folder / "cut.json").write_text(json.dumps(record("cut"))[:200])
    (folder / "list.json").write_text("[1, 2]")
    odd = record("odd", corners="?", files={"blanked": "../odd.png", "overlay": 3}, versions=7, px_per_mm=[1, "x"])
    (folder / "odd.json").write_text(json.dumps(odd))
    (folder / "summary.csv").write_text("photo\n")
    return folder


class Page(html.parser.HTMLParser):
    """The rows of a page's table, their links and pictures, and every tag's name."""

    def __init__(self, text):
        super().__init__()
        self.tags, self.rows, self.links, self.pictures, self.depth = [], [], [], [], None
        self.feed(text)

    def handle_starttag(self, tag, attrs):
        values = dict(attrs)
        self.tags.append(tag)
        if tag == "tbody" and "data-state" in values:
            self.rows.append(dict(state=values["data-state"], hidden="hidden" in values, text=""))
        if tag == "a" and values.get("href"):
            self.links.append(values["href"])
        if tag == "img":
            self.pictures.append(values.get("src", ""))

    def handle_data(self, data):
        if self.rows:
            self.rows[-1]["text"] += data


def browse(page: Path, *arguments: str) -> str:
    """What the browser prints of a page, its own store in a folder beside it."""
    store = page.parent.parent / "browser"
    command = [BROWSER, "--headless", "--no-sandbox", "--disable-gpu", "--allow-file-access-from-files", f"--user-data-dir={store}",
               "--virtual-time-budget=4000", *arguments, page.as_uri()]
    return subprocess.run(command, stdout=subprocess.PIPE, stderr=subprocess.DEVNULL, timeout=60, check=True).stdout.decode()


def acted(page: Path, script: str) -> Page:
    """The page as the browser has it after a script has clicked in it."""
    other = page.with_name("acted.html")
    other.write_text(page.read_text().replace("</body>", f"<script>{script}</script></body>"))
    return Page(browse(other, "--dump-dom"))


def names(page: Page):
    """The photographs of the rows that are shown, in their order."""
    return [re.search(r"(\S.*?)\.(jpg|png|tif)|(cut|list)", row["text"]).group(0) for row in page.rows if not row["hidden"]]


def test_every_record_has_its_row(folder):
    path = write_report(folder)
    page = Page(path.read_text())
    assert path == folder / "index.html" and not list(folder.glob(".*"))
    states = {name: row["state"] for name, row in zip(names(page), page.rows)}
    assert states == {"<b>.png": "answered", "100% #1?.jpg": "answered", "bare.tif": "refused", "cut": "damaged", "dark.jpg": "refused",
                      "find-2.jpg": "doubtful", "find-10.jpg": "answered", "list": "damaged", "odd.jpg": "doubtful"}
    odd = next(row["text"] for row in page.rows if "odd" in row["text"])
    assert "no file of this folder as its copy" in odd and "no file of this folder as its overlay" in odd


def test_nothing_in_a_name_or_text_becomes_markup(folder):
    page = Page(write_report(folder).read_text())
    assert page.tags.count("script") == 1 and "i" not in page.tags
    assert page.tags.count("b") == len(page.rows) + 5  # names, and the numbers of the five buttons
    assert all(link.startswith("./") for link in page.links if link)
    assert "./%3Cb%3E.overlay.png" in page.links and "./100%25%20%231%3F.json" in page.links
    assert all(picture.startswith("data:image/") for picture in page.pictures if picture)


def test_the_page_asks_nothing_of_the_network(folder):
    text = write_report(folder).read_text()
    assert "default-src 'none'" in text
    assert not re.search(r"""(src|href)=["']?(https?:)?//|@import|url\(""", text)


def test_a_folder_without_records_and_damaged_pictures(tmp_path):
    assert "no record in this folder" in write_report(tmp_path).read_text()
    put(tmp_path, "a")
    (tmp_path / "a.overlay.png").write_bytes(b"")
    put(tmp_path, "b")
    (tmp_path / "b.overlay.png").write_bytes(b"\x89PNG broken")
    put(tmp_path, "c")
    (tmp_path / "c.sheet.png").unlink()
    text = write_report(tmp_path).read_text()
    assert text.count("no picture") == 2 and "The sheet c.sheet.png is missing" in text


@pytest.mark.parametrize("contents, reason", [
    (b"", "no JSON"), (b"\xff\xfe", "no JSON"), (b"[" * 100000, "no JSON"), (b"{}", "no number and word"),
    (b'{"number": "0", "word": 3}', "no number and word")])
def test_a_damaged_record_says_what_is_wrong(tmp_path, contents, reason):
    (tmp_path / "a.json").write_bytes(contents)
    (tmp_path / "folder.json").mkdir()
    text = write_report(tmp_path).read_text()
    assert reason in text and "Is a directory" in text


def test_numbers_that_are_none_are_left_out(tmp_path):
    put(tmp_path, "a", spread_px=float("nan"), module_px="4", read=True, px_per_mm=[float("inf")] * 4, warnings="?", refined=3,
        text=["x"])
    page = Page(write_report(tmp_path).read_text())
    assert page.rows[0]["state"] == "doubtful" and "nan" not in page.rows[0]["text"] and "inf" not in page.rows[0]["text"]


def test_the_second_label_of_a_photograph_comes_behind_the_first(tmp_path):
    put(tmp_path, "two-2", photo="two.png", text="FIND B")
    put(tmp_path, "two", photo="two.png", text="FIND A")
    assert ["FIND A" in row["text"] for row in Page(write_report(tmp_path).read_text()).rows] == [True, False]


def test_names_and_numbers_beyond_all_bounds(tmp_path):
    put(tmp_path, "a", spread_px=10 ** 400, read=-1, text="\ud800", photo="\udcff.png",
        files=dict(blanked="n" * 5000, sheet="\ud800.png", overlay="a\0b"), request=dict(width=0, height=0, grid=[[]]))
    strange = os.fsdecode(b"caf\xe9.json")
    (tmp_path / strange).write_text(json.dumps(record("x", files=None)))
    page = write_report(tmp_path)
    assert "./caf%E9.json" in Page(page.read_text()).links
    assert page.read_text().count("is missing") == 2


def test_numbers_in_names_are_ordered_as_numbers():
    assert sorted(["f10", "F2", "f1", "a²"], key=natural) == ["a²", "f1", "F2", "f10"]


@in_browser
def test_the_browser_shows_the_rows_and_the_links_lead_to_files(folder):
    page = Page(browse(write_report(folder), "--dump-dom"))
    assert len(page.rows) == 9 and not any(row["hidden"] for row in page.rows)
    assert "broken" not in " ".join(page.tags)
    script = "Promise.all([...document.images].filter(i => i.src).map(i => i.decode())).then(() => document.body.append('all decoded'))"
    assert "all decoded" in acted(folder / "index.html", script).rows[-1]["text"]
    assert all((folder / unquote(link)).is_file() for link in page.links)


@in_browser
def test_a_click_sorts_and_a_second_turns_the_order(folder):
    click = "document.querySelectorAll('.records > thead button')[3].click();"
    page = write_report(folder)
    up, down = acted(page, click), acted(page, click * 2)
    assert names(up)[:5] == ["<b>.png", "odd.jpg", "find-10.jpg", "100% #1?.jpg", "find-2.jpg"]
    assert names(down)[:5] == ["find-2.jpg", "100% #1?.jpg", "find-10.jpg", "odd.jpg", "<b>.png"]
    assert set(names(up)[5:]) == set(names(down)[5:]) == {"bare.tif", "cut", "dark.jpg", "list"}


@in_browser
def test_the_buttons_and_the_search_choose_rows(folder):
    page = write_report(folder)
    assert names(acted(page, "document.querySelector('.tools .refused').click()")) == ["bare.tif", "dark.jpg"]
    search = "const s = document.querySelector('#search'); s.value = 'GRUBE'; s.dispatchEvent(new Event('input'));"
    assert names(acted(page, search)) == ["100% #1?.jpg"]


@in_browser
def test_a_click_on_a_label_opens_its_overlay(folder):
    page = write_report(folder)
    script = """document.querySelectorAll('td.look button')[1].click();
        document.querySelector('#viewer img').onload = e => document.body.append('opened ' + e.target.naturalWidth + ' ' + e.target.src);"""
    assert re.search(r"opened 200 file:.*%3Cb%3E.overlay.png", acted(page, script).rows[-1]["text"])


@in_browser
def test_the_browser_draws_the_page(folder):
    page = write_report(folder)
    picture = folder.parent / "page.png"
    browse(page, f"--screenshot={picture}", "--window-size=1400,1200", "--hide-scrollbars")
    drawn = cv2.imread(str(picture))
    assert drawn.shape == (1200, 1400, 3) and len(np.unique(drawn.reshape(-1, 3), axis=0)) > 500
