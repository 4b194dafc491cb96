"""The exact model of the network, of reports and of how a run ends; README.md has its modules."""
