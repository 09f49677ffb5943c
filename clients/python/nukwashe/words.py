"""Names and selectors, as the section "Basic texts" of docs/FORMATS.md says them."""
import re

_NAME = re.compile(rb"[A-Za-z_][A-Za-z0-9_]{0,63}\Z")
_SELECTOR = re.compile(rb"[A-Za-z_][A-Za-z0-9_:]*\Z")


def is_name(text: bytes) -> bool:
    """Whether a text is a name: a letter or `_`, then at most 63 letters, digits and `_`."""
    return _NAME.match(text) is not None


def is_selector(text: bytes) -> bool:
    """Whether a text is a selector: it has no colon or ends with one, 8 colons and 255 bytes at
    most.

        >>> is_selector(b"set:to:"), is_selector(b"set:to")
        (True, False)
    """
    return (_SELECTOR.match(text) is not None and len(text) <= 255 and text.count(b":") <= 8
            and (b":" not in text or text.endswith(b":")))
