"""What is drawn at random: scripts and traces, objects, and changes of bytes."""
