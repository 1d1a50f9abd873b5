"""How commands are run, what `reraid` is asked, and the one place where its plans and its output are read."""
