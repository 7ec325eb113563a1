"""What the scripts for the floor share: reading a plan's output and a layout, and writing files. Nothing here is
proved."""
