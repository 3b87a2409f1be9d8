/* @hidden has no entries: a comment isn't read. @no[pid] = count(); */
dtrace:::BEGIN { printf("@text = count();\n\n  begins\n"); }
:::entry { @reads[execname, pid] = count(); @writes[execname, pid] = sum(arg0); @["all", strjoin(execname, "!")] = max(arg0); }
:::return { self->who = execname; this->n = arg0; @by[self->who, this->n] = min(arg1); @_["a", "b"] = max(1); }
