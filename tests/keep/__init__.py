"""`grace serve --keep`: folders, killed servers, full disks, failing files."""
