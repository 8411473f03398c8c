"""A feed's commits, written to engines that others read: `following` has an `engine` keep them,
from `first_rows` on. Redis: `redis_engine` writes `redis_hashes` or `redis_streams`, a `redis_form`
each, by `redis_calls`, of the tables in `relations`, a long commit in `redis_steps`; `redis_disk`
knows what lasts. NATS: `nats_engine` publishes `nats_messages` by `jetstream` over `nats_wire`.
Kafka: `kafka_engine`, `kafka_client`. `connecting` reaches a server."""
