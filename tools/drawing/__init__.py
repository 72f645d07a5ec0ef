"""What `tools/picture` and `tools/orders` are made of."""
