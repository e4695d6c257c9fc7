"""The programs held to the running kernel over a veth pair: what its test is made of."""
