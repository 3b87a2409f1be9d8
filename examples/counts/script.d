syscall::write:entry { @[execname] = count(); }
