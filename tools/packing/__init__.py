"""What `tools/package` makes."""
