"""Loads that `pgsub follow --load` has to reject (`rejected`), and large ones in which it is killed
(`kills`)."""
