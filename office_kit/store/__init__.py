"""For tests: offices' files, the lives that make them, the faults that are planted in them, and disks that fail. The audit's rules are in audit/."""
