"""What the tools share. They take the program's own texts and prove nothing."""
