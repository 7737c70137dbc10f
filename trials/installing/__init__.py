"""How `trials/package` tries what can be installed."""
