"""What the scripts of tests/ share, and the second opinions that they hold the programs beside."""
