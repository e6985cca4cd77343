"""The numbers that come back. Each entry answers one of them."""

DONE = 0
LENGTH = 1       # a length is not the one named
MARK = 2         # a mark is wrong
MESSAGE = 3      # the message or the roster is too long
BUDGET = 4       # the budget is out of its range
VALUE = 5        # a secret byte is -128, or a coefficient of t is q or more
CHECK_S = 6
CHECK_E = 7
NO_COUNTER = 8   # no counter up to the budget passes
Z = 9            # some z is too large in size
HIGH_PART = 10   # a high part does not fit a signed byte
HASH = 11        # the hash differs
