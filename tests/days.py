"""The day whose seeds are drawn: each run draws the same traces as every other, and as many that no earlier day drew."""
import argparse
import datetime
import time

# The seeds of a day are the days since 1970 times this, and on.
SEEDS_A_DAY = 1_000_000


def today() -> int:
    """The number of days since 1970-01-01, in UTC."""
    return int(time.time()) // 86_400


# The day of this run.
DAY = [today()]


def day_of(text: str) -> int:
    """The number of a day that is written as YYYY-MM-DD."""
    try:
        return (datetime.date.fromisoformat(text) - datetime.date(1970, 1, 1)).days
    except ValueError as error:
        raise argparse.ArgumentTypeError(str(error))


def written() -> str:
    """The day of this run as YYYY-MM-DD."""
    return str(datetime.date(1970, 1, 1) + datetime.timedelta(DAY[0]))


def first_seed() -> int:
    """The first of the day's seeds: above all that every run draws."""
    return DAY[0] * SEEDS_A_DAY
