"""Where a sink writes, as a URL says it."""

import argparse

# The variable of the environment that may have the URL.
ENVIRONMENT = "PGSUB_SINK"
SCHEMES = {
    **dict.fromkeys(("redis", "rediss", "unix", "redis+sentinel"), "redis"),
    **dict.fromkeys(("nats", "tls"), "nats"),
    "kafka": "kafka",
}
FORMS = (
    "redis://[[USER]:PASSWORD@]HOST[:PORT][/NUMBER], unix://PATH[?db=NUMBER] or nats://[USER:PASSWORD@]HOST[:PORT][,HOST..];"
    " by TLS rediss:// or tls:// in their place; redis+sentinel://[[USER]:PASSWORD@]SENTINEL[:PORT][,SENTINEL..]/SERVICE[/NUMBER]; kafka://HOST[:PORT][,HOST..][?config=FILE][&NAME=VALUE..]"
)


def scheme(url: str) -> str:
    """The engine of a URL, "" where it is none of a sink."""
    return SCHEMES.get(url.partition("://")[0], "")


def url(text: str) -> str:
    # (where there is none, the default is read as if it were one)
    if text and not scheme(text):
        raise argparse.ArgumentTypeError(
            f"{text!r} is no URL as redis://localhost:6379/0, rediss://.., unix:///path, redis+sentinel://localhost/service/0, nats://localhost, tls://.. or kafka://localhost"
        )
    return text
