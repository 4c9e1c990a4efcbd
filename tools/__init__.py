"""What the developers of urbd run beside rt: `python3 -m tools WORD ..`."""
