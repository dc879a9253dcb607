"""A place of a file that bindings/generate fills: the lines between `bindings/generate makes NAME` and `bindings/generate: end`, in comments."""
import re
from typing import Dict


def filled(text: str, made: Dict[str, str]) -> str:
    """Returns the text with what is made in its places. Each name has one place."""
    for name, lines in made.items():
        pattern = re.compile(rf"(^[^\n]*bindings/generate makes {re.escape(name)}(?: \*/)?\n)(.*?)(^[^\n]*bindings/generate: end[^\n]*$)", re.M | re.S)
        text, count = pattern.subn(lambda found: found[1] + lines + found[3], text)
        if count != 1:
            raise ValueError(f"{count} places for {name}")
    return text
