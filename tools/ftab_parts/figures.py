# Exact numbers in writing, for the parts show and plot. Numbers are fractions; nothing is rounded before it is written.
#
# Defined here:
#   decimals        how many decimals a number has
#   exact           a number as the decimal that it is, or as a fraction in lowest terms
#   rounded         a number to 6 digits, or to more
#   aligned         texts of numbers, their points below each other

from decimal import Context, Decimal

DIGITS = 6

# Below this a rounded number is written with a power of ten.
SMALL = Decimal("0.0001")


def power_in(number, base):
    """How often a number can be divided by a base."""
    count = 0
    while number % base == 0:
        number //= base
        count += 1
    return count


def decimals(number):
    """How many decimals a number has; None where they do not end."""
    twos, fives = power_in(number.denominator, 2), power_in(number.denominator, 5)
    return max(twos, fives) if number.denominator == 2 ** twos * 5 ** fives else None


def exact(number, least=0):
    """A number as a decimal, of at least so many decimals; as a fraction in lowest terms where the decimals do not end."""
    count = decimals(number)
    if count is None:
        return "%d/%d" % (number.numerator, number.denominator)
    count = max(count, least)
    whole = abs(number.numerator) * 10 ** count // number.denominator
    text = str(whole).rjust(count + 1, "0")
    return "-" * (number < 0) + text[:len(text) - count] + "." * (count > 0) + text[len(text) - count:]


def rounded(number, digits=DIGITS):
    """A number to so many digits, and to all of those before the point."""
    before = len(str(abs(number.numerator) // number.denominator))
    own = Context(prec=max(digits, before)).divide(Decimal(number.numerator), Decimal(number.denominator))
    if not own:
        return "0"
    return format(own, "f" if abs(own) >= SMALL else ".%de" % (digits - 1))


def aligned(texts):
    """Texts of numbers, their points below each other; a text without a point ends where the point would be."""
    heads = [text.partition(".")[0] for text in texts]
    wide = max(map(len, heads), default=0)
    moved = [" " * (wide - len(head)) + text for head, text in zip(heads, texts)]
    most = max(map(len, moved), default=0)
    return [text.ljust(most) for text in moved]
