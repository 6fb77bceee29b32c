"""The version of the package and of the programs that belong to it."""

VERSION = "0.1.0"

# The version of the messages between client processes and the auditor's process. It goes up with
# each change of them; only equal versions understand each other.
FORM = 5
