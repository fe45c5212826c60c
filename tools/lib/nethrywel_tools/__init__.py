"""What the tools share: reading what the programs print, the pages, and where the programs are."""
