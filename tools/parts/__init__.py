"""What the tools share: how the built program is found and asked, and how documents for people are read."""
