"""A feed's commits as text: `lines` for people and programs, `bulk` for Elasticsearch; `keys` has
the names of tables and rows there."""
