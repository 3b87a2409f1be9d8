::: { @[execname] = count(); }
