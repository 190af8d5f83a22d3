"""Each link of README, CHANGELOG, CONTRIBUTING and the documents to a file of the repository finds it, and its heading."""

import glob
import os
import re
import sys

TOP = os.path.dirname(os.path.dirname(os.path.abspath(__file__)))


def prose(path):
    """A document without its blocks of code."""
    with open(path, encoding="utf-8") as it:
        return re.sub(r"^```.*?^```", "", it.read(), flags=re.M | re.S)


def anchors(path):
    """The names by which links find the headings of a document."""
    headings = re.findall(r"^#+ (.*)$", prose(path), re.M)
    return {re.sub(r"[^\w\- ]", "", it.lower()).strip().replace(" ", "-") for it in headings}


def broken(name):
    """The links of a document that find nothing, and how many it has."""
    lost, links = [], re.findall(r"\]\(([^)#\s]*)(?:#([^)\s]*))?\)", prose(f"{TOP}/{name}"))
    for file, anchor in links:
        if file.startswith(("http:", "https:")):
            continue
        path = os.path.normpath(f"{TOP}/{os.path.dirname(name)}/{file}") if file else f"{TOP}/{name}"
        if not os.path.exists(path) or anchor and path.endswith(".md") and anchor not in anchors(path):
            lost.append(f"{file}#{anchor}" if anchor else file)
    return lost, len(links)


def main():
    passed = failed = 0
    documents = ["README.md", "CHANGELOG.md", "CONTRIBUTING.md", *sorted(glob.glob("docs/*.md", root_dir=TOP))]
    for name in documents:
        lost, links = broken(name)
        passed, failed = passed + links - len(lost), failed + len(lost)
        for link in lost:
            print(f"{name}: {link} is not there", file=sys.stderr)
    print(f"links.py: {passed} passed, {failed} failed")
    return 1 if failed or not passed else 0


if __name__ == "__main__":
    sys.exit(main())
