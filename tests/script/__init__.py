"""`grace script`, `check`, `migrate`, `renew`, `renewed` and the command line."""
