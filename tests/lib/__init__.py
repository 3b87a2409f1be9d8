"""What the programs of tests/ share."""
