"""Wrong bodies: what each changes, which of them can be tried in one check, and what a check says
of each."""
