"""Changes as messages of Debezium's connectors, as Kafka Connect's JsonConverter writes them:
`envelopes` are made by `settings`, of `tables` with the schemas of `kinds`, whose values `values`
writes."""
