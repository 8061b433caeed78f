"""Each link leads to a page, and to a heading of it if it names one."""
import os
import re
import sys

sys.path.insert(0, "docs")
from pages import all_pages  # noqa: E402


def headings(path):
    """The names by which links call the headings of a page."""
    with open(path, encoding="utf-8") as it:
        found = re.findall(r"^#+ (.*)", it.read(), re.M)
    return {re.sub(r"[^a-z0-9_-]", "", it.lower().replace(" ", "-")) for it in found}


def main():
    for page in all_pages():
        with open(page, encoding="utf-8") as it:
            links = sorted(set(re.findall(r"\]\(([^)]*)\)", it.read())))
        for link in links:
            if link.startswith("http"):
                continue
            path, _, heading = link.partition("#")
            path = os.path.join(os.path.dirname(page), path) if path else page
            if not os.path.exists(path) or (heading and heading not in headings(path)):
                print(f"{page}: {link}")


if __name__ == "__main__":
    main()
