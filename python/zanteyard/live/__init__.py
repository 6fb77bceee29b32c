"""An auditor that runs in a thread next to its clients: rounds, fences and cuts while they run, and
sessions for clients that come and go."""
