"""The page of one file that shows a layout in a browser."""
