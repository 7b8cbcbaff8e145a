"""A storm: random words, kills, stops, full disks and hostile visitors, all at a time."""
