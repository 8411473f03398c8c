"""The logical messages of a transaction as messages: all in one topic, each under its prefix."""

from collections.abc import Mapping

from ..reader.commits import Message
from .kinds import BYTES, OF_BYTES, Schema, fields, of
from .settings import BINARIES, Settings
from .tables import SOURCE, TIMES, TRANSACTION, schema_text, versioned

# The op of one, what its topic is called behind the prefix of topics, and a transaction counts it
# as.
OP, COLLECTION = "m", "message"
NAME = "io.debezium.connector.postgresql.Message"
KEY = schema_text(versioned(f"{NAME}Key", 1, fields(True, prefix="string")))


def topic_of(settings: Settings) -> str:
    return f"{settings.prefix}.{COLLECTION}"


def key_of(it: Message) -> dict[str, object]:
    return {"prefix": it.prefix}


def message_schema(settings: Settings) -> Schema:
    content = of(BYTES[settings[BINARIES]].schema, True, field="content")
    told = [*fields(True, transactional="boolean", prefix="string"), content]
    return versioned(NAME, 1, told, field="message")


def schema_of(settings: Settings) -> bytes:
    """That of a message's value."""
    op = fields(False, op="string")
    told = [*op, *TIMES, SOURCE, TRANSACTION, message_schema(settings)]
    return schema_text(versioned(f"{NAME}Value", 1, told))


def value_of(
    it: Message, settings: Settings, times: Mapping[str, object], source: object, order: object
) -> dict[str, object]:
    """A message's value. `times`: when it was made; `source`, `order`: its commit's, and where in
    that it is."""
    content = OF_BYTES[settings[BINARIES]](it.bytes())
    message = {"transactional": True, "prefix": it.prefix, "content": content}
    return {"op": OP, **times, "source": source, "transaction": order, "message": message}
