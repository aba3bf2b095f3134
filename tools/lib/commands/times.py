"""Times, as people write them."""


def in_ms(nanos):
    """A whole number of nanoseconds in milliseconds: 37999999 is 37.999999 ms."""
    nanos = int(nanos)
    whole, rest = divmod(abs(nanos), 1_000_000)
    sign = "-" if nanos < 0 else ""
    digits = f".{rest:06}".rstrip("0") if rest else ""
    return f"{sign}{whole:,}{digits} ms"
