"""For tests: nginx by deploy/ before an office, clerks who sign in there, and stand-ins of both. The parts that need a browser are in desks/."""
