"""The numbers of a configuration and what follows from them, by the tables of docs/FORMATS.md and Lifeguard."""

from fuzzing.wire import THREE

# Of each number: the least, the greatest, the default and the number of its fault.
NUMBERS = {
    "interval_ms": (10, 60_000, 1000, 1), "timeout_ms": (1, 59_999, 500, 2), "indirect": (0, 8, 3, 3),
    "max_score": (0, 20, 8, 4), "alpha": (1, 20, 5, 5), "beta": (1, 20, 6, 6), "confirmations": (0, 5, 3, 7),
    "lambda": (1, 10, 4, 8), "nack_thousandths": (1, 999, 800, 9), "history_limit": (2, 1_000_000, 20_000, 10),
    "wire": (1, 3, 1, 15), "forget_ms": (1000, 2_592_000_000, 0, 22), "gossip_ms": (10, 60_000, 200, 23),
    "gossip_to": (1, 8, 3, 24), "first": (1, 4_294_967_295, 1, 25),
}
# The numbers that may be 0 too, which turns off what they are about.
MAY_BE_OFF = ("forget_ms", "gossip_ms")
DEFAULTS = {key: row[2] for key, row in NUMBERS.items()}
SEEDS_FAULT = 11
GROUP_FAULT = 26
MOST_SEEDS = 16
MOST_OTHERS = 255

# The base-ten logarithm, in thousandths, of the greatest number of members of each range.
LOGARITHMS = {10: 1000, 16: 1204, 32: 1505, 64: 1806, 128: 2107, 256: 2408}
# log(c + 1) / log(k + 1) in thousandths, by the number k of confirmations that count, for each number c.
RATIOS = [[1000], [0, 1000], [0, 630, 1000], [0, 500, 792, 1000], [0, 430, 682, 861, 1000],
          [0, 386, 613, 773, 898, 1000]]


def is_in_range(config, key):
    """Whether a number of a configuration is in its range, or is the 0 that turns something off. A timeout is shorter
    than the interval."""
    least, most, _, _ = NUMBERS[key]
    most = config["interval_ms"] - 1 if key == "timeout_ms" else most
    return least <= config[key] <= most or config[key] == 0 and key in MAY_BE_OFF


def fault_of(config, name, seeds):
    """The number of the first fault of a configuration, None if it has none. Seeds are names. A member of a group sends
    version three."""
    faults = [row[3] for key, row in NUMBERS.items() if not is_in_range(config, key)]
    if len(seeds) > MOST_SEEDS or len(set(seeds)) < len(seeds) or name in seeds:
        faults.append(SEEDS_FAULT)
    if config.get("group") and config["wire"] != THREE:
        faults.append(GROUP_FAULT)
    return min(faults, default=None)


def logarithm(live):
    return next(value for end, value in LOGARITHMS.items() if live <= end)


def suspicion_range(config, live):
    """The least and the greatest timeout of a suspicion among so many members, and how many confirmations count."""
    least = config["alpha"] * logarithm(live) * config["interval_ms"] // 1000
    count = config["confirmations"]
    return least, config["beta"] * least, 0 if live < count + 2 else count


def timeout(least, most, counted, confirmations):
    """How long a suspicion lasts after so many confirmations, if so many count."""
    return most - (most - least) * RATIOS[counted][confirmations] // 1000
