#!/usr/bin/python3
"""Keeps the rows that topics of Kafka tell in a dict, and the dict with the offsets in a file, as
often as it is killed, and whatever a sink sends again.

usage: keep_kafka.py BROKERS FILE TOPIC..
"""

import json
import os
import pickle
import sys
import time

from confluent_kafka import Consumer, TopicPartition

from pgsub_feed.files import replace_file


def numbers(message):
    """Where a message belongs: the two halves of the LSN, the change and the part."""
    told = dict(message.headers())
    high, low = told["pgsub.lsn"].split(b"/")
    return int(high, 16), int(low, 16), int(told["pgsub.n"]), int(told["pgsub.part"])


def apply(rows, message):
    """Takes a message into the rows of its partition, but one of a table without a key."""
    value = message.value() and json.loads(message.value())
    if value and value["op"] == "t":
        rows.clear()
    elif message.key() is None:
        return
    elif value and value["after"] is not None:
        rows[message.key()] = value["after"]
    else:
        rows.pop(message.key(), None)


brokers, path, *topics = sys.argv[1:]
# of each partition the next offset, the numbers of the last message, and its rows by their keys
kept = pickle.load(open(path, "rb")) if os.path.exists(path) else {}
consumer = Consumer(
    {"bootstrap.servers": brokers, "group.id": "keep", "enable.auto.commit": False, "log_level": 0}
)
for topic in topics:
    for partition in consumer.list_topics(topic, timeout=30).topics[topic].partitions:
        kept.setdefault((topic, partition), [0, (), {}])
consumer.assign([TopicPartition(*where, it[0]) for where, it in kept.items()])
saved = time.monotonic()
while True:
    for message in consumer.consume(100, 0.1):
        if message.error():
            continue
        it = kept[message.topic(), message.partition()]
        it[0] = message.offset() + 1
        if numbers(message) > it[1]:
            it[1] = numbers(message)
            apply(it[2], message)
    if time.monotonic() - saved > 0.5:
        replace_file(path, pickle.dumps(kept))
        saved = time.monotonic()
