"""Names of runes."""

# the least name that is kept for etchings without one
LEAST_KEPT = 6_402_364_363_415_443_603_228_541_259_936_211_926


def kept_name(block: int, tx: int) -> int:
    """The number of the name of a rune that a transaction of a block etches without one."""
    return LEAST_KEPT + (block << 32) + tx


def name_of(number: int, spacers: int = 0, spacer: str = "•") -> str:
    """The letters of a rune's name, with its spacers."""
    letters = ""
    while number >= 0:
        letters = chr(ord("A") + number % 26) + letters
        number = number // 26 - 1
    between = (letter + spacer * (spacers >> at & 1) for at, letter in enumerate(letters[:-1]))
    return "".join(between) + letters[-1]
