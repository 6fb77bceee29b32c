"""The proved programs as child processes, the lines to them and their replies, and the auditor,
which takes in what sessions did."""
