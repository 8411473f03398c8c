"""How changes become messages: properties of Debezium's connector, as it names them."""

import dataclasses
import re
from collections.abc import Iterable, Mapping

from ..errors import UsageError

PREFIX, DECIMALS, TIMES, INTERVALS, BINARIES, TOMBSTONES, TRANSACTIONS, FAILURES = (
    "topic.prefix",
    "decimal.handling.mode",
    "time.precision.mode",
    "interval.handling.mode",
    "binary.handling.mode",
    "tombstones.on.delete",
    "provide.transaction.metadata",
    "event.converting.failure.handling.mode",
)
# The values that each property may have, the default first.
VALUES: dict[str, tuple[str, ...]] = {
    DECIMALS: ("precise", "double", "string"),
    TIMES: ("adaptive", "adaptive_time_microseconds", "connect"),
    INTERVALS: ("numeric", "string"),
    BINARIES: ("bytes", "base64", "base64-url-safe", "hex"),
    TOMBSTONES: ("true", "false"),
    TRANSACTIONS: ("false", "true"),
    FAILURES: ("warn", "fail"),
}
DEFAULT_PREFIX = "pgsub"
# What is told of the options.
DEBEZIUM = (
    f"a property of Debezium's connector, may be repeated: {PREFIX} (default: {DEFAULT_PREFIX}), "
    + "; ".join(f"{name} ({', '.join(values)})" for name, values in VALUES.items())
)
SCHEMAS = "the schemas of Kafka Connect, with each key and value"
NAME = re.compile(r"[A-Za-z0-9._-]{1,100}")


@dataclasses.dataclass(frozen=True)
class Settings:
    """The properties, and whether each message has its schema."""

    prefix: str
    properties: Mapping[str, str]
    schemas: bool = False

    def __getitem__(self, name: str) -> str:
        return self.properties[name]


def read_settings(words: Iterable[str], schemas: bool = False) -> Settings:
    """The settings that NAME=VALUE each make. A UsageError says that one is none."""
    prefix, found = DEFAULT_PREFIX, {name: values[0] for name, values in VALUES.items()}
    for word in words:
        name, _, value = word.partition("=")
        if name == PREFIX:
            if not NAME.fullmatch(value):
                text = f"{word}: a prefix of topics has letters, digits, `.`, `_` and `-`"
                raise UsageError(text)
            prefix = value
        elif name not in VALUES:
            # (without its value, which may be a password in the wrong place)
            raise UsageError(f"{name}: known properties are {', '.join((PREFIX, *VALUES))}")
        elif value not in VALUES[name]:
            raise UsageError(f"{word}: {name} is {' or '.join(VALUES[name])}")
        else:
            found[name] = value
    return Settings(prefix, found, schemas)
