"""What tools/fields writes from the rows of fields.table."""
