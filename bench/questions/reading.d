/* No row runs a clause: what is left is the reading of the rows. */
dtrace:::END { @["end"] = count(); }
