"""What is said to the program: its lines, whose words are quoted by its own rules."""


class Unsayable(ValueError):
    """Something that no line can say: a line feed, a NUL, or text that is no Unicode."""


def sayable(text, what):
    """Gives the text, where a line can have it."""
    try:
        text.encode("utf-8")
    except UnicodeEncodeError:
        raise Unsayable(f"the {what} {text!r} isn't Unicode text, so no line can say it") from None
    if "\n" in text:
        raise Unsayable(f"the {what} {text!r} has a line feed, and a line ends at one")
    return text


def word(text, what="word"):
    """Gives one word of a line, quoted, whatever it contains."""
    sayable(text, what)
    return '"' + text.replace("\\", "\\\\").replace('"', '\\"') + '"'


def vids(numbers):
    """Gives version numbers as a line has them."""
    return ",".join(str(number) for number in numbers)


def query(text):
    """Gives a query as one line. Line feeds between its tokens become blanks; one within quotes can't be said."""
    quote, parts = None, []
    for letter in text.strip():
        if quote is None and letter in "'\"":
            quote = letter
        elif letter == quote:
            quote = None
        parts.append(" " if letter == "\n" and quote is None else letter)
    return sayable("".join(parts), "query")
