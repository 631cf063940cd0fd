"""Operations that no profile has, for tests: NUMBER, that of no release, and NAMED, one of those that the tools name."""

from tools.zkdump_tools import operations

NUMBER, DIGITS = 9999, "0000270f"
LACKED = [each for each in operations.ALL if not each.release]
NAMED = next(each for each in LACKED if each.request == operations.PATH)
