"""Check figures, of texts that have the form."""


def weighted(text, weights):
    """The digits' total, weights listed from the right and repeating."""
    return sum(int(d) * weights[i % len(weights)] for i, d in enumerate(reversed(text)))


def doubled(text, first):
    """The digits' total, each second one from `first` on doubled with the digits of the double added."""
    return sum(sum(map(int, str(2 * int(d)))) if i % 2 == first else int(d) for i, d in enumerate(text))


def gln(t):
    return weighted(t, [1, 3]) % 10 == 0


def mod11(t):
    return (int(t[8]) + weighted(t[:8], [2, 3, 4, 5, 6, 7])) % 11 == 0


def mod97(t):
    return int(t[8:]) == 97 - int(t[:8]) % 97


def italian(t):
    return doubled(t[2:], 1) % 10 == 0


def luhn(t):
    return doubled(t, 0) % 10 == 0


def abn(t):
    reduced = [int(t[0]) - 1] + [int(d) for d in t[1:]]
    return sum(d * w for d, w in zip(reduced, [10, 1, 3, 5, 7, 9, 11, 13, 15, 17, 19])) % 89 == 0


def iban(t):
    """First four moved to the end, letters read as 10 to 35: the number leaves 1 by 97."""
    return int("".join(str(int(c, 36)) for c in t[4:] + t[:4])) % 97 == 1
