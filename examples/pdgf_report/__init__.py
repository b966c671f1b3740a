"""What `examples/report` is made of."""
