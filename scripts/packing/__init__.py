"""What a package is made of: scripts/package puts it together."""
