"""What the scripts of tests/ share."""
