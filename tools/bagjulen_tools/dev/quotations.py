"""What documents quote from sources: a fenced block below a line that says what it is of."""

import re

from bagjulen_tools.trouble import BAD_INPUT, Trouble

QUOTED = re.compile(r"(?m)^<!-- quoted: (?P<path>\S+) (?P<what>.+?) -->\n```(?P<kind>\w*)\n(?P<text>.*?)^```$", re.S)
# What stands before the title of what a program prints.
TITLE = "= "


def lines_of(path):
    try:
        with open(path, encoding="utf-8") as file:
            return file.read().splitlines(keepends=True)
    except OSError as error:
        raise Trouble(BAD_INPUT, f"{path}: {error.strerror}") from error


def function(path, name):
    """A function that begins at the first column, with its doc comment and its attributes."""
    lines = lines_of(path)
    for at, line in enumerate(lines):
        if re.match(rf"(pub(\(crate\))? )?fn {name}\b", line):
            first = at
            while first > 0 and re.match(r"///|//|#\[", lines[first - 1]):
                first -= 1
            for last in range(at, len(lines)):
                if lines[last] in ("}\n", "{}\n") or (last == at and line.endswith("{}\n")):
                    return "".join(lines[first : last + 1])
    raise Trouble(BAD_INPUT, f"{path}: no function {name}")


def printed(path, title):
    """What is printed below a title."""
    lines = lines_of(path)
    if TITLE + title + "\n" not in lines:
        raise Trouble(BAD_INPUT, f"{path}: no title {title}")
    first = lines.index(TITLE + title + "\n") + 1
    last = next((at for at in range(first, len(lines)) if lines[at].startswith(TITLE)), len(lines))
    return "".join(lines[first:last])


def quoted(match):
    """A quotation, made anew."""
    path, what = match["path"], match["what"]
    text = function(path, what) if path.endswith(".rt") else printed(path, what)
    return f"<!-- quoted: {path} {what} -->\n```{match['kind']}\n{text}```"


def renewed(page):
    """The text of a page, with each quotation made anew."""
    return QUOTED.sub(quoted, page)
