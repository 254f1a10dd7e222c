"""README.md and docs/, `./believed`, and what checkers find in the scripts."""
