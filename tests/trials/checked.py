"""Checks pages, for tests/test-page: that they are well-formed and need nothing else, and that nothing is wider than
the window in Chromium."""
import html
import json
import os
import re
import shutil
import subprocess
from html.parser import HTMLParser

# How long Chromium may take to open a page with all that is folded, and to measure it.
SECONDS = 300

# Elements without an end.
EMPTY = {"meta", "br"}

# A page is put into a frame of a window's width, and all that is folded is opened; the answer is in the title.
FRAME = """<!DOCTYPE html><title>none</title><iframe id="frame" style="width:%dpx;height:800px;border:0"></iframe>
<script>
var frame = document.getElementById("frame");
frame.onload = function () {
  var inside = frame.contentDocument, wide = [], width = frame.clientWidth;
  function measure(when) {
    inside.querySelectorAll("body *").forEach(function (one) {
      var place = one.getBoundingClientRect();
      if (one.closest("pre") === null && one.className !== "unseen" && (place.right > width + 1 || place.left < -1)) {
        wide.push(when + " " + one.tagName + "." + one.className + " " + Math.round(place.right));
      }
    });
    var all = inside.documentElement.scrollWidth;
    if (all > width) { wide.push(when + " page " + all); }
  }
  measure("folded");
  inside.querySelectorAll("details").forEach(function (one) { one.open = true; });
  measure("open");
  var buttons = inside.querySelectorAll(".tools button").length, pictures = inside.querySelectorAll(".picture").length;
  document.title = JSON.stringify({wide: wide.slice(0, 5), buttons: buttons, pictures: pictures,
    rows: inside.querySelectorAll(".row").length});
};
frame.srcdoc = %s;
</script>"""


class Reader(HTMLParser):
    """Follows which elements are open, and collects ids and links."""

    def __init__(self):
        super().__init__()
        self.open, self.wrong, self.ids, self.links = [], [], [], []

    def handle_starttag(self, tag, attributes):
        given = dict(attributes)
        self.ids += [given["id"]] if "id" in given else []
        self.links += [given["href"]] if "href" in given else []
        if any(name.startswith("on") or name == "src" for name in given):
            self.wrong.append(f"{tag} has {sorted(given)}")
        if tag not in EMPTY:
            self.open.append(tag)

    def handle_endtag(self, tag):
        if not self.open or self.open.pop() != tag:
            self.wrong.append(f"an end of {tag} at {self.getpos()}")


def mistakes(text):
    """What is wrong with the text of a page."""
    reader = Reader()
    reader.feed(text)
    reader.close()
    wrong = reader.wrong + [f"{tag} has no end" for tag in reader.open]
    wrong += [f"the id {one} comes twice" for one in set(reader.ids) if reader.ids.count(one) > 1] \
        if len(reader.ids) != len(set(reader.ids)) else []
    wrong += [f"a link to {link}" for link in reader.links if not link.startswith("#") or link[1:] not in reader.ids]
    wrong += re.findall(r"(?i)@import|url\(|<(?:link|img|iframe|object|embed|form|base)\b", text)
    wrong += [f"a character {ord(sign):#x}" for sign in set(text) if sign not in "\n\t" and not sign.isprintable()]
    return wrong


def chromium():
    """The program, or None."""
    return shutil.which("chromium") or shutil.which("chromium-browser") or shutil.which("google-chrome")


def measured(text, width, folder):
    """What Chromium measures of a page in a window of this width."""
    place = os.path.join(folder, "frame.html")
    with open(place, "w", encoding="utf-8") as file:
        file.write(FRAME % (width, json.dumps(text).replace("</", "<\\/").replace("<!--", "<\\!--")))
    words = [chromium(), "--headless=new", "--no-sandbox", "--disable-gpu", "--dump-dom", "--virtual-time-budget=20000",
             f"--user-data-dir={folder}/chromium", f"--window-size={max(width, 500)},900", f"file://{place}"]
    try:
        done = subprocess.run(words, stdin=subprocess.DEVNULL, capture_output=True, timeout=SECONDS, check=False)
    except subprocess.TimeoutExpired:
        return {"wide": [f"no answer within {SECONDS} seconds"]}
    found = re.search(r"<title>(\{.*?\})</title>", done.stdout.decode(errors="replace"))
    return json.loads(html.unescape(found[1])) if found else {"wide": [f"status {done.returncode}: no answer"]}
