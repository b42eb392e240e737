"""The usual protocol: agents of a scenario are added until the first instance that isn't solved in time."""
