"""Formats the measurements as Markdown tables."""

# A figure that is marked as reached may be past what is to be reached by this much.
LEEWAY = 1.1


def three_digits(number):
    """The number with three digits at least, and none that say nothing."""
    return f"{number:,.0f}" if number >= 100 else f"{number:.1f}" if number >= 10 else f"{number:.2f}"


def sized(size):
    """A size, with commas where it is long."""
    return f"{size:,}" if size >= 10_000 else str(size)


def told(figure, measure):
    """A figure with its unit."""
    if figure is None:
        return "-"
    if measure in ("peak", "script"):
        return f"{figure / 1e6:,.0f} MB"
    if measure == "sum":
        return f"{figure:.0f} look-ups"
    return f"{three_digits(figure / 1e6)} million" if figure >= 1e6 else f"{figure:,.0f}"


def quotient(figure, other):
    """One figure over another, where both are there."""
    return figure / other if figure is not None and other else None


def verdict(value, bound):
    """Whether a value is at most what is to be reached, but for less than a hundredth; or nearly."""
    if value is None or round(value / bound, 2) > LEEWAY:
        return "no"
    return "yes" if round(value / bound, 2) <= 1 else "nearly"


def line(cells):
    """A line of a table."""
    return f"| {' | '.join(cells)} |"


def table(heads, rows):
    """A table of these rows of cells."""
    return "\n".join([line(heads), "|---" * len(heads) + "|", *map(line, rows)])
