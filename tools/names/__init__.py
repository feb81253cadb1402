"""Names of the public interfaces, as the sources say them."""
