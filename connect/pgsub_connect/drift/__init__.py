"""What may make the copy wrong: `remembered` is kept in a file (`remembered_lines`), and compared
with the server by `baseline`. `differences` (`partition_differences`) says what changed, `doubts`
what the rows tell of it, `findings` what was found, `names` whose each name is."""
