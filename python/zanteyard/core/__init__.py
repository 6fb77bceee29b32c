"""What all other packages use: records of transactions and outcomes, errors, time limits, locks,
and what survives a killed client process or a fork."""
