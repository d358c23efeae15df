"""Networks compiled to C: fast programs of which nothing is proved, and whose runs the proved `kpn` can judge."""
