"""A tool of one function: puts the headings of a text, a line each, into another file."""


def extract(words: list[str]) -> int:
    """The words are the output and the text; the exit code is 1 if it has no heading."""
    output, path = words
    with open(path, encoding="utf-8") as file:
        lines = file.read().splitlines()
    found = [line for line, below in zip(lines, lines[1:]) if line and below == "=" * len(line)]
    with open(output, "w", encoding="utf-8") as file:
        file.writelines(line + "\n" for line in found)
    print(f"{len(found)} headings")
    return 0 if found else 1
