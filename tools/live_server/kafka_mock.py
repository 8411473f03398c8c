"""A cluster of Kafka in a process of its own: librdkafka's mock of three brokers, in memory.

usage: kafka_mock.py

It prints its brokers, as `127.0.0.1:9092,..`, and reads commands, a line each, which it repeats
once they are done: `down N` and `up N` of a broker, `topic NAME PARTITIONS`. It ends with its
standard input.
"""

from __future__ import annotations

import ctypes
import sys

BROKERS = 3
POINTER, NUMBER, TEXT = ctypes.c_void_p, ctypes.c_int, ctypes.c_char_p


class Mock:
    """The cluster, by functions of the C library that Python's has no names for."""

    def __init__(self) -> None:
        self.library = ctypes.CDLL("librdkafka.so.1")
        conf = self.named("conf_new", POINTER)()
        self.named("conf_set", NUMBER, POINTER, TEXT, TEXT, TEXT, ctypes.c_size_t)(
            conf, b"log_level", b"2", None, 0
        )
        error = ctypes.create_string_buffer(512)
        new = self.named("new", POINTER, NUMBER, POINTER, TEXT, ctypes.c_size_t)
        client = new(0, conf, error, len(error))
        if not client:
            raise OSError(error.value.decode())
        self.cluster = self.named("mock_cluster_new", POINTER, POINTER, NUMBER)(client, BROKERS)

    def named(self, name: str, result: type, *arguments: type) -> ctypes._NamedFuncPointer:
        found = getattr(self.library, f"rd_kafka_{name}")
        found.restype, found.argtypes = result, arguments
        return found  # type: ignore[no-any-return]

    def brokers(self) -> str:
        found: bytes = self.named("mock_cluster_bootstraps", TEXT, POINTER)(self.cluster)
        return found.decode()

    def run(self, what: str, *words: str) -> None:
        if what == "topic":
            make = self.named("mock_topic_create", NUMBER, POINTER, TEXT, NUMBER, NUMBER)
            wrong = make(self.cluster, words[0].encode(), int(words[1]), BROKERS)
        else:
            move = self.named(f"mock_broker_set_{what}", NUMBER, POINTER, ctypes.c_int32)
            wrong = move(self.cluster, int(words[0]))
        if wrong:
            raise OSError(f"{what} {words}: error {wrong}")


def main() -> None:
    mock = Mock()
    print(mock.brokers(), flush=True)
    for line in sys.stdin:
        mock.run(*line.split())
        print(line, end="", flush=True)


if __name__ == "__main__":
    main()
