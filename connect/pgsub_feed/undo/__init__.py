"""Takes commits back at the publisher: `transaction` has what they changed in all, and the SQL that
takes it back by what `restore_sql` has."""
