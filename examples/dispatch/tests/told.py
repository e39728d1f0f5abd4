"""Reads the account that the program prints. It stands outside what is proved."""
import re


def words_of(line: str) -> list[str]:
    """The words of a line, one for each column. A word may have a blank in it."""
    return re.split(r"\s{2,}", line.strip())


def counts(line: str) -> list[int]:
    """How many jobs a tenant submitted, and how many are in each state."""
    return [int(it.replace(",", "")) for it in words_of(line)[1:7]]
