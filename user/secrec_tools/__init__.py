"""What the tools around the program `secrec` share."""
