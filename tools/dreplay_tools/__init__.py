"""What the tools around dreplay share."""
